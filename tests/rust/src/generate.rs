//! Random arguments for look: valid ones, ones at a bound, and damaged ones. Those for the cut are in `list`, those for
//! the trace in `trace`.

mod list;
pub mod trace;

use crate::calls::Look;
use crate::model::MemoryDescriptor;
use crate::random::Random;

pub use list::{boundary, is_boundary, lengths, list_of, segment};

pub const LONGEST: u32 = 1364;
pub const BOTH_FORMATS: u32 = 0b110;

/// Lengths of the lent buffer: mostly enough, else around 32.
fn lent(random: &mut Random) -> usize {
    if random.one_in(16) {
        random.of(&[0, 1, 16, 31])
    } else {
        random.of(&[32, 32, 32, 33, 40, 64, 132])
    }
}

/// A direction of a command, as an initiator describes it.
#[derive(Clone, Debug)]
pub enum Descriptor {
    None,
    Direct(MemoryDescriptor),
    Indirect { table: MemoryDescriptor, total: u32, copies: Vec<MemoryDescriptor> },
}

impl Descriptor {
    fn format(&self) -> u8 {
        match self {
            Descriptor::None => 0,
            Descriptor::Direct(_) => 1,
            Descriptor::Indirect { .. } => 2,
        }
    }

    fn bytes(&self) -> Vec<u8> {
        match self {
            Descriptor::None => Vec::new(),
            Descriptor::Direct(segment) => segment.to_bytes().to_vec(),
            Descriptor::Indirect { table, total, copies } => {
                let mut bytes = table.to_bytes().to_vec();
                bytes.extend(total.to_be_bytes());
                copies.iter().for_each(|copy| bytes.extend(copy.to_bytes()));
                bytes
            }
        }
    }

    /// The count's byte: without a table it is unread, and may be anything.
    fn count(&self, random: &mut Random) -> u8 {
        match self {
            Descriptor::Indirect { copies, .. } => copies.len() as u8,
            _ => random.u8(),
        }
    }
}

/// An SRP_CMD with 4n additional bytes of CDB. Whatever is not read is random.
pub fn command(random: &mut Random, n: u8, data_out: &Descriptor, data_in: &Descriptor) -> Vec<u8> {
    let mut msg = random.bytes(48);
    msg[0] = 0x02;
    msg[5] = data_out.format() << 4 | data_in.format();
    msg[6] = data_out.count(random);
    msg[7] = data_in.count(random);
    msg[31] = n << 2 | msg[31] & 0b11;
    msg.extend(random.bytes(4 * usize::from(n)));
    msg.extend(data_out.bytes());
    msg.extend(data_in.bytes());
    msg
}

/// The longest command that document 01 allows: n = 63, and 32 copies each way.
pub fn longest_command(random: &mut Random) -> Vec<u8> {
    let (data_out, data_in) = (indirect(random, 32, 512), indirect(random, 32, 512));
    command(random, 63, &data_out, &data_in)
}

fn memory(random: &mut Random) -> MemoryDescriptor {
    MemoryDescriptor { address: random.u64(), handle: random.u32(), length: random.any_size() }
}

pub fn indirect(random: &mut Random, count: usize, table_length: u32) -> Descriptor {
    let copies: Vec<MemoryDescriptor> = (0..count).map(|_| memory(random)).collect();
    let total = copies.iter().fold(0u32, |sum, copy| sum.wrapping_add(copy.length));
    Descriptor::Indirect { table: MemoryDescriptor { length: table_length, ..memory(random) }, total, copies }
}

/// Table lengths around the copies' length, around the bounds 16 and 512, not multiples of 16, and huge ones.
fn table_length(random: &mut Random, count: usize) -> u32 {
    let copies = 16 * count as u32;
    match random.below(8) {
        0 | 1 => copies,
        2 => random.of(&[copies.saturating_sub(16), copies.saturating_sub(1), copies + 1, copies + 8, copies + 16]),
        3 => random.of(&[0, 1, 15, 16, 17, 24, 32, 496, 504, 511, 512, 513, 520, 528]),
        4 => copies + 16 * random.up_to(32u64.saturating_sub(count as u64)) as u32,
        5 => 16 * random.up_to(64) as u32,
        6 => random.of(&[0x1_0000, 0x1_0010, 0x1_0200, 0x8000_0010, 0xffff_fe00, 0xffff_fff0, 0xffff_ffff]),
        _ => random.any_size(),
    }
}

fn descriptor(random: &mut Random, most_copies: usize) -> Descriptor {
    match random.below(4) {
        0 => Descriptor::None,
        1 => Descriptor::Direct(memory(random)),
        _ => {
            let count = if random.one_in(4) { random.below(3) } else { random.below(most_copies + 1) };
            let length = table_length(random, count);
            indirect(random, count, length)
        }
    }
}

/// A command with random descriptors, of up to 32 copies each, and any additional CDB.
fn any_command(random: &mut Random) -> Vec<u8> {
    let (data_out, data_in) = (descriptor(random, 32), descriptor(random, 32));
    let n = if random.one_in(2) { random.below(3) } else { random.below(64) } as u8;
    command(random, n, &data_out, &data_in)
}

/// A command with more than 32 copies in a direction, as far as a message can hold them.
fn many_copies(random: &mut Random) -> Vec<u8> {
    let count = if random.one_in(8) { 33 + random.below(223) } else { 31 + random.below(50) };
    let length = random.of(&[16 * count as u32, 512, 4096, u32::MAX]);
    let (many, other) = (indirect(random, count, length), descriptor(random, 2));
    if random.one_in(2) {
        command(random, 0, &many, &other)
    } else {
        command(random, 0, &other, &many)
    }
}

/// A command in which one byte that look reads was changed: type, formats, counts, n, or a byte of a descriptor.
fn changed_field(random: &mut Random) -> Vec<u8> {
    let mut msg = any_command(random);
    let at = match random.below(8) {
        0..=4 => random.of(&[0, 5, 5, 6, 7, 31]),
        _ => 48 + random.below(msg.len().saturating_sub(48)),
    };
    if let Some(field) = msg.get_mut(at) {
        *field = if random.one_in(2) { *field ^ 1 << random.below(8) } else { random.u8() };
    }
    msg
}

fn damaged(random: &mut Random) -> Vec<u8> {
    let mut msg = any_command(random);
    let at = random.below(msg.len());
    match random.below(5) {
        0 => msg[at] = random.u8(),
        1 => msg[at] ^= 1 << random.below(8),
        2 => msg.truncate(at),
        3 => msg.truncate(msg.len() - 1),
        _ => {
            let more = random.of(&[1, 1, 4, 16, 20]);
            msg.extend(random.bytes(more));
        }
    }
    msg
}

fn another_type(random: &mut Random) -> Vec<u8> {
    let length = random.of(&[15, 16, 17, 36, 47, 48, 49, 52, 64, 100]);
    let mut msg = random.bytes(length);
    msg[0] = random.of(&[0x00, 0x01, 0x03, 0x12, 0x22, 0x40, 0x41, 0x42, 0x80, 0x81, 0x82, 0xc0, 0xc1, 0xc2]);
    msg
}

fn random_bytes(random: &mut Random) -> Vec<u8> {
    let most = random.of(&[4, 48, 64, 200, 1500]);
    let length = random.below(most + 1);
    let mut msg = random.bytes(length);
    if let (Some(first), true) = (msg.first_mut(), random.one_in(2)) {
        *first = 0x02;
    }
    msg
}

fn agreed_length(random: &mut Random, length: usize) -> u32 {
    let length = length as u32;
    match random.below(32) {
        0 => random.of(&[0, 16, 48, 63, 1365, 1366, 0x1_0040, 0x8000_0000, u32::MAX]),
        1 => random.of(&[64, 65, 1363, 1364]),
        2 => length.saturating_sub(1),
        3 => length,
        4 => length.saturating_add(1),
        5 => 64 + random.below(1301) as u32,
        6 => random.any_size(),
        _ => LONGEST,
    }
}

fn agreed_formats(random: &mut Random) -> u32 {
    match random.below(32) {
        0 => random.of(&[1, 3, 5, 7, 8, 9, 14, 0x106, 0x8000_0006, 0xffff_fff9, u32::MAX]),
        1 => random.any_size(),
        2..=5 => random.of(&[0, 2, 4]),
        _ => BOTH_FORMATS,
    }
}

impl Look {
    pub fn random(random: &mut Random) -> Self {
        let msg = match random.below(16) {
            0..=7 => any_command(random),
            8 => longest_command(random),
            9 => many_copies(random),
            10 | 11 => changed_field(random),
            12 | 13 => damaged(random),
            14 => another_type(random),
            _ => random_bytes(random),
        };
        let (agreed, formats) = (agreed_length(random, msg.len()), agreed_formats(random));
        Look { msg, agreed, formats, lent: lent(random) }
    }
}
