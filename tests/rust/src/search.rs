//! The piece at an offset of a list of segments: what it is by the byte there, and what srp_cut and srp_target_step
//! give. Nothing of it is the model's but the bytes of a memory descriptor.

use crate::calls::{Call as _, Cut, Memory, Placement};
use crate::generate::list_of;
use crate::judge::is_multiple;
use crate::limits::Limits;
use crate::model::MemoryDescriptor;
use crate::port::generate::{command, Data};
use crate::port::plain::{fetched, login, open};
use crate::port::{frame, library::Library, Call, Target};
use crate::position;
use crate::random::Random;
use crate::tally::Tally;

const TAG: u64 = 5;

/// A byte of a buffer: its handle and address, and how many bytes its segment has from it on.
#[derive(Clone, Copy)]
pub struct Byte {
    handle: u32,
    pub address: u64,
    pub left: u64,
}

/// A buffer, byte after byte.
pub fn table(segments: &[MemoryDescriptor]) -> Vec<Byte> {
    let mut bytes = Vec::new();
    for &MemoryDescriptor { address, handle, length } in segments {
        let length = u64::from(length);
        bytes.extend((0..length).map(|i| Byte { handle, address: address + i, left: length - i }));
    }
    bytes
}

/// Of each segment its first byte and the last one below offset `to`, each with its offset in the buffer. The sum of
/// the earlier lengths is made anew for each segment; an address counts modulo 2^64.
pub fn first_and_last(segments: &[MemoryDescriptor], to: u64) -> Vec<(u64, Byte)> {
    let mut bytes = Vec::new();
    for (at, &MemoryDescriptor { address, handle, length }) in segments.iter().enumerate() {
        let start: u128 = segments[..at].iter().map(|earlier| u128::from(earlier.length)).sum();
        let end = start + u128::from(length);
        let due = end.min(to.into());
        if start < due {
            bytes.extend([start, due - 1].map(|offset| {
                let address = (u128::from(address) + offset - start) as u64;
                (offset as u64, Byte { handle, address, left: (end - offset) as u64 })
            }));
        }
    }
    bytes
}

/// Segments of these lengths, each with a handle of its own; some end at 2^64.
pub fn segments(lengths: &[u32]) -> Vec<MemoryDescriptor> {
    segments_at(lengths, |at| (at + 1) << 40)
}

/// Each with a multiple of Q so many bytes behind its first address; some end at 2^64.
pub fn segments_around(lengths: &[u32], q: u64, before: u64) -> Vec<MemoryDescriptor> {
    segments_at(lengths, |at| (2 * at + 3) * q - before)
}

fn segments_at(lengths: &[u32], address: impl Fn(u64) -> u64) -> Vec<MemoryDescriptor> {
    let segment = |(at, &length): (usize, &u32)| {
        let address = if at % 5 == 3 { 0u64.wrapping_sub(length.into()) } else { address(at as u64) };
        MemoryDescriptor { address, handle: 100 + at as u32, length }
    };
    lengths.iter().enumerate().map(segment).collect()
}

fn lengths_of(segments: &[MemoryDescriptor]) -> Vec<u32> {
    segments.iter().map(|segment| segment.length).collect()
}

/// Handle, address, length and offset of a piece; None for done.
pub type Piece = Option<[u64; 4]>;

/// The piece at `from` of the bytes up to `to`, by the byte there, if the buffer has one. With a boundary each byte
/// behind it is looked at: the first at a multiple of Q is not in the piece.
pub fn piece(byte: Option<&Byte>, limits: Limits, from: u64, to: u64) -> Piece {
    let length = |byte: &Byte| {
        let most = byte.left.min(limits.m.into()).min(to - from);
        let mut behind = if limits.q == 0 { 0..0 } else { 1..most };
        behind.find(|length| is_multiple(byte.address.wrapping_add(*length), limits.q)).unwrap_or(most)
    };
    byte.filter(|_| from < to).map(|byte| [byte.handle.into(), byte.address, length(byte), from])
}

pub struct Search {
    memory: Memory,
    port: Library,
    /// The port with a command planned: each move is named on this one.
    planned: frame::Memory,
    direction: usize,
    random: Random,
    pub kinds: Tally,
    pieces: u64,
}

impl Search {
    pub fn new(seed: u64) -> Self {
        Search {
            memory: Memory::default(),
            port: Library::new(seed),
            planned: frame::Memory::default(),
            direction: 0,
            random: Random::new(seed),
            kinds: Tally::default(),
            pieces: 0,
        }
    }

    /// A command with this list in one direction and another in the other.
    pub fn plan(&mut self, list: &[MemoryDescriptor], limits: Limits, r: u32) {
        self.direction = self.random.below(2);
        let other = fetched(&[MemoryDescriptor { address: 0x9999, handle: 99, length: 999 }]);
        let mut data = [other.clone(), other];
        data[self.direction] = if list.is_empty() { Data::none() } else { fetched(list) };
        self.port.call(&login(&mut self.random, 1, limits, 1364, 0b110));
        let msg = command(&mut self.random, TAG, 0, 0, &data);
        open(&mut self.port, &msg, &data);
        assert_eq!(self.port.call(&Call::Plan { tag: TAG, r_out: r, r_in: r }).returned, 0, "planned");
        self.planned.clone_from(&self.port.memory);
    }

    /// Puts another list into the store, over the one that was planned: the port that these words and bytes are, "any
    /// words are a port, any bytes a store".
    pub fn write_over(&mut self, planned: &[MemoryDescriptor], list: &[MemoryDescriptor]) {
        let (planned, list) = (list_of(planned), list_of(list));
        let at = self.planned.store.windows(planned.len()).position(|bytes| *bytes == planned);
        let at = at.expect("the list lies in the store");
        self.planned.store[at..at + list.len()].copy_from_slice(&list);
    }

    /// Writes over a word of the port with a command planned: "any words are a port".
    pub fn write_word(&mut self, at: usize, word: u64) {
        self.planned.words[at] = word;
    }

    /// srp_cut with so many bytes handed out.
    pub fn judge_cut(&mut self, list: &[MemoryDescriptor], limits: Limits, r: u32, from: u64, expected: Piece) {
        let cut = Cut { list: list_of(list), limits, r, handed: from as u32, lent: 32 };
        let outcome = cut.outcome(&mut self.memory, Placement::AT_END);
        let mut answer = [0; 32];
        if let Some([handle, address, length, offset]) = expected {
            let memory = MemoryDescriptor { address, handle: handle as u32, length: length as u32 };
            answer[..16].copy_from_slice(&memory.to_bytes());
            answer[16..20].copy_from_slice(&(offset as u32).to_be_bytes());
        }
        let lengths = lengths_of(list);
        assert_eq!(outcome.returned, 0, "cut at {from}, {limits:?}, R {r}, {list:x?}");
        assert_eq!(outcome.buf, answer, "cut at {from}, {limits:?}, R {r}, {list:x?}");
        self.note(&lengths, from, expected);
    }

    /// A move named on the planned port, and the first step of it.
    pub fn judge_step(&mut self, list: &[MemoryDescriptor], from: u64, count: u32, expected: Piece) {
        self.port.memory.clone_from(&self.planned);
        let (direction, offset) = (self.direction as u32, from as u32);
        let named = self.port.call(&Call::Move { tag: TAG, direction, offset, count });
        let stepped = self.port.call(&Call::Step { tag: TAG, direction });
        let operation = u64::from(direction) + 1;
        let answer = expected
            .map_or([0; 8], |[handle, address, length, offset]| [1, operation, handle, address, length, offset, 1, 0]);
        let lengths = lengths_of(list);
        assert_eq!((named.returned, stepped.returned), (0, 0), "move and step at {from}, {lengths:?}");
        assert_eq!(stepped.answer, answer, "step at {from}, count {count}, {list:x?}");
        self.note(&lengths, from, expected);
    }

    fn note(&mut self, lengths: &[u32], from: u64, expected: Piece) {
        if expected.is_some() {
            self.pieces += 1;
            position::kinds(lengths, from).for_each(|kind| self.kinds.add(kind));
        } else {
            self.kinds.add("done");
        }
    }

    /// Prints the tally, and asserts that each of these kinds and done came up.
    pub fn tell(&self, name: &str, least: u64, kinds: &[&str]) {
        self.tell_pieces(name, least, &[kinds, &["done"]].concat());
    }

    /// As `tell`, without done.
    pub fn tell_pieces(&self, name: &str, least: u64, kinds: &[&str]) {
        println!("{name}: {} pieces", self.pieces);
        self.kinds.print_as(name, "kinds of them");
        self.kinds.assert_each(least, kinds);
    }
}
