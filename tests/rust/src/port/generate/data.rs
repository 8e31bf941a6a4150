//! A direction of a command: its descriptor, and the table to lend with it.

use crate::generate::{lengths, list_of, segment, Descriptor};
use crate::limits::Limits;
use crate::model::MemoryDescriptor;
use crate::random::Random;

#[derive(Clone, Debug)]
pub struct Data {
    pub descriptor: Descriptor,
    /// What is lent: F bytes, unless it was damaged.
    pub table: Vec<u8>,
}

/// Segments that a command may have: their sum fits 32 bits, and none passes 2^64.
fn segments(random: &mut Random, count: usize, limits: Limits) -> Vec<MemoryDescriptor> {
    let mut left = u64::from(u32::MAX);
    let fitting = lengths(random, count, limits.m).into_iter().map(|length| {
        let length = u64::from(length).min(left);
        left -= length;
        length as u32
    });
    let lengths: Vec<u32> = fitting.collect();
    lengths.into_iter().map(|length| segment(random, length, limits.q, false)).collect()
}

fn total(segments: &[MemoryDescriptor]) -> u32 {
    segments.iter().fold(0, |sum, segment| sum.wrapping_add(segment.length))
}

fn memory(random: &mut Random, length: u32) -> MemoryDescriptor {
    MemoryDescriptor { address: random.u64(), handle: random.u32(), length }
}

impl Data {
    pub fn none() -> Self {
        Data { descriptor: Descriptor::None, table: Vec::new() }
    }

    /// In one of the agreed formats, and without a fault; `most` is the number of segments that may come up.
    pub fn lawful(random: &mut Random, formats: u32, limits: Limits, most: usize) -> Self {
        let agreed: Vec<u32> = [0, 1, 1, 2, 2].into_iter().filter(|&at| at == 0 || formats & 1 << at != 0).collect();
        match agreed[random.below(agreed.len())] {
            0 => Data::none(),
            1 => Data { descriptor: Descriptor::Direct(segments(random, 1, limits)[0]), table: Vec::new() },
            _ => Data::indirect(random, limits, most),
        }
    }

    fn indirect(random: &mut Random, limits: Limits, most: usize) -> Self {
        let count = match random.below(8) {
            0..=2 => 1 + random.below(3.min(most)),
            3 | 4 => most,
            _ => 1 + random.below(most),
        };
        let segments = segments(random, count, limits);
        let copied = match random.below(3) {
            0 => 0,
            1 => count,
            _ => random.below(count + 1),
        };
        let table = memory(random, 16 * count as u32);
        let copies = segments[..copied].to_vec();
        let lent = if copied == count { Vec::new() } else { list_of(&segments) };
        Data { descriptor: Descriptor::Indirect { table, total: total(&segments), copies }, table: lent }
    }

    /// Makes a field bad that draws 10, 7 or 8, or 5 or 6; or one that draws nothing.
    pub fn damage(&mut self, random: &mut Random) {
        let Data { descriptor, table: lent } = self;
        match descriptor {
            Descriptor::None => {}
            Descriptor::Direct(segment) => past_the_end(random, segment),
            Descriptor::Indirect { table, total, copies } => match random.below(10) {
                0 => *total = total.wrapping_add(random.of(&[1, u32::MAX, 0x100, 0x8000_0000])),
                1 => change_a_byte(random, lent),
                2 | 3 => change_a_copy(random, copies),
                4 => pass_the_end(random, copies, lent),
                5 => *self = sum_of_2_32(random),
                6 => *self = many_copies(random),
                _ => {
                    table.length = table_length(random, table.length, copies.len() as u32);
                    lent.truncate(random.of(&[0, 0, 0, 512]));
                }
            },
        }
    }
}

/// Moves a segment so that it ends at 2^64 or one byte or more past it.
fn past_the_end(random: &mut Random, segment: &mut MemoryDescriptor) {
    let last = 0u64.wrapping_sub(u64::from(segment.length));
    segment.address = random.of(&[last, last.wrapping_add(1), last.wrapping_add(1), u64::MAX]);
}

fn change_a_byte(random: &mut Random, bytes: &mut [u8]) {
    if !bytes.is_empty() {
        bytes[random.below(bytes.len())] ^= 1 << random.below(8);
    }
}

fn change_a_copy(random: &mut Random, copies: &mut [MemoryDescriptor]) {
    let at = random.below(copies.len());
    if let Some(copy) = copies.get_mut(at) {
        match random.below(3) {
            0 => copy.address ^= 1 << random.below(64),
            1 => copy.handle ^= 1 << random.below(32),
            _ => copy.length ^= 1 << random.below(32),
        }
    }
}

/// In copies and table alike.
fn pass_the_end(random: &mut Random, copies: &mut [MemoryDescriptor], lent: &mut [u8]) {
    let count = copies.len().max(lent.len() / 16);
    let at = random.below(count);
    let mut segment = match copies.get(at) {
        Some(copy) => *copy,
        None => MemoryDescriptor::read(&lent[16 * at..]),
    };
    past_the_end(random, &mut segment);
    if let Some(copy) = copies.get_mut(at) {
        *copy = segment;
    }
    if !lent.is_empty() {
        lent[16 * at..16 * at + 16].copy_from_slice(&segment.to_bytes());
    }
}

/// Two segments whose lengths sum up to 2^32 or some more, and a total that has the lowest 32 bits of that.
fn sum_of_2_32(random: &mut Random) -> Data {
    let first = 1 + random.u32() / 2;
    let lengths = [first, 0u32.wrapping_sub(first).wrapping_add(random.of(&[0, 1, 600]))];
    let segments = lengths.map(|length| segment(random, length, 0, false)).to_vec();
    let table = memory(random, 32);
    Data { table: Vec::new(), descriptor: Descriptor::Indirect { table, total: total(&segments), copies: segments } }
}

/// More than 32 copies.
fn many_copies(random: &mut Random) -> Data {
    let count = 33 + random.below(4);
    let segments = segments(random, count, 512.into());
    let length = random.of(&[16 * count as u32, 512, 4096]);
    let table = memory(random, length);
    Data { table: Vec::new(), descriptor: Descriptor::Indirect { table, total: total(&segments), copies: segments } }
}

/// Another table length: too short for the copies, not a multiple of 16, 0, above 512.
fn table_length(random: &mut Random, length: u32, copies: u32) -> u32 {
    let copied = 16 * copies;
    match random.below(4) {
        0 => random.of(&[copied.saturating_sub(1), copied.saturating_sub(16)]),
        1 => random.of(&[copied + 1, copied + 8, length + 4, length + 15]),
        2 => random.of(&[0, 520, 528, 0x1_0000 + length, 0x8000_0000 + length, 0xffff_fff0]),
        _ => copied,
    }
}
