//! Calls without a fault, for tests that bring a port to a certain state, and a port in plain memory.

use super::call::{Call, Target, UNWRITTEN};
use super::frame::Memory;
use super::generate::Data;
use crate::generate::{list_of, Descriptor};
use crate::interface::Port;
use crate::limits::Limits;
use crate::model::writing::Answer;
use crate::model::MemoryDescriptor;
use crate::random::Random;

/// The port's own identifier.
pub const OWN: [u8; 16] = *b"target port 0001";

/// A lent buffer: each byte differs from its neighbours.
pub fn buffer(length: usize) -> Vec<u8> {
    (0..length).map(|i| (i % 251) as u8 ^ 0x5b).collect()
}

/// A login that is accepted: N buffers, M and perhaps Q, an agreed length, required formats. Whatever is not read is
/// random.
pub fn login(random: &mut Random, n: u32, limits: impl Into<Limits>, agreed: u32, formats: u16) -> Call {
    let Limits { m, q } = limits.into();
    let mut msg = random.bytes(64);
    msg[0] = 0x00;
    msg[16..20].copy_from_slice(&agreed.to_be_bytes());
    msg[24..26].copy_from_slice(&formats.to_be_bytes());
    msg[26] &= !0b11;
    msg[48..64].copy_from_slice(&OWN);
    Call::Login { settings: [n, m, 1364, 1, 1], boundary: q, own: OWN, msg, buf: buffer(132) }
}

/// A port in memory that nothing guards, and the answer words of the last call.
pub struct Plain {
    pub memory: Memory,
    pub answer: Answer,
}

impl Plain {
    /// After a login with the longest messages and both formats.
    pub fn after_login(n: u32, limits: impl Into<Limits>) -> Self {
        let login = login(&mut Random::new(1), n, limits, 1364, 0b110);
        let Call::Login { settings, boundary, own, msg, mut buf } = login else {
            unreachable!("a login");
        };
        let mut plain = Plain { memory: Memory::default(), answer: UNWRITTEN };
        let returned = plain.port().login(&settings, boundary, &own, &msg, &mut buf);
        assert_eq!((returned, plain.answer[0]), (0, 52), "accepted");
        plain
    }

    pub fn port(&mut self) -> Port<'_> {
        Port::new(&mut self.memory.words, &mut self.memory.store, &mut self.answer)
    }
}

/// A direction with these segments in a table at 9000h, and its first ones, so many, in the message too.
fn indirect(segments: &[MemoryDescriptor], copied: usize) -> Descriptor {
    let table = MemoryDescriptor { address: 0x9000, handle: 8, length: 16 * segments.len() as u32 };
    let total = segments.iter().map(|segment| segment.length).sum();
    Descriptor::Indirect { table, total, copies: segments[..copied].to_vec() }
}

/// None of the segments in the message.
pub fn fetched(segments: &[MemoryDescriptor]) -> Data {
    fetched_beside(segments, 0)
}

/// The first of the segments, so many and not all, in the message too.
pub fn fetched_beside(segments: &[MemoryDescriptor], copied: usize) -> Data {
    Data { descriptor: indirect(segments, copied), table: list_of(segments) }
}

/// All of the segments, one at least, in the message: nothing is to be fetched.
pub fn copied(segments: &[MemoryDescriptor]) -> Data {
    Data { descriptor: indirect(segments, segments.len()), table: Vec::new() }
}

pub fn take(msg: &[u8]) -> Call {
    Call::Take { msg: msg.to_vec(), buf: buffer(140) }
}

pub fn tables(tag: u64, tables: [&[u8]; 2]) -> Call {
    Call::Tables { tag, tables: tables.map(<[u8]>::to_vec), buf: buffer(140) }
}

/// Takes a command and, where it waits for its tables, brings them. Panics where either is refused.
pub fn open(target: &mut impl Target, msg: &[u8], data: &[Data; 2]) {
    let taken = target.call(&take(msg));
    let [_, 1, tag, _, _, _, waits, _] = taken.answer else { panic!("not taken: {taken:02x?}") };
    let lent = data.each_ref().map(|data| &data.table[..]);
    assert_eq!(waits == 1, lent.iter().any(|table| !table.is_empty()), "whether it waits");
    if waits == 1 {
        assert_eq!(target.call(&tables(tag, lent)).returned, 0, "tables");
    }
}

pub fn finish(tag: u64) -> Call {
    Call::Finish { tag, status: 0, sense: Vec::new(), buf: buffer(132) }
}
