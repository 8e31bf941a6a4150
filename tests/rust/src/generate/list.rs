//! Random lists of segments, and arguments for the cut.

use super::lent;
use crate::calls::Cut;
use crate::limits::Limits;
use crate::model::MemoryDescriptor;
use crate::random::Random;

/// The bytes of a list of memory descriptors.
pub fn list_of(segments: &[MemoryDescriptor]) -> Vec<u8> {
    segments.iter().flat_map(|segment| segment.to_bytes()).collect()
}

/// A segment of that length; its end may be the last byte of memory or just miss it. With a boundary, often a multiple
/// of Q stands in it or at its ends.
pub fn segment(random: &mut Random, length: u32, q: u64, may_pass: bool) -> MemoryDescriptor {
    let last = 0u64.wrapping_sub(u64::from(length)); // address + length = 2^64; 0 for length 0
    let address = match random.below(8) {
        _ if is_boundary(q) && random.one_in(2) => before_multiple(random, q, length),
        0 => last,
        1 => last.wrapping_sub(1),
        2 if may_pass => last.wrapping_add(1),
        3 if may_pass => random.u64() | 0xffff_ffff_0000_0000,
        4 => 0,
        5 => u64::MAX,
        _ => random.u64() >> 1,
    };
    let passes = u128::from(address) + u128::from(length) > 1 << 64;
    MemoryDescriptor { address: if passes && !may_pass { last } else { address }, handle: handle(random), length }
}

/// Whether Q is good and not 0.
pub fn is_boundary(q: u64) -> bool {
    (512..=1 << 32).contains(&q) && q.is_power_of_two()
}

/// An address up to a segment's length before a multiple of Q, or one byte behind it.
fn before_multiple(random: &mut Random, q: u64, length: u32) -> u64 {
    let multiple = (random.u64() >> 1 | 1 << 33) / q * q; // at least 2^33
    let (length, below) = (u64::from(length), random.up_to(length.into()));
    multiple + 1 - random.of(&[0, 1, 2, below, below, below, length, length + 1])
}

/// Q of a login or of the cut: 0 for none, small ones, any good one, and bad ones.
pub fn boundary(random: &mut Random) -> u64 {
    let any = random.u64();
    match random.below(16) {
        0 => random.of(&[1, 2, 256, 511, 513, 768, (1 << 32) + 512, 1 << 33, 1 << 63, u64::MAX, any]),
        1..=5 => 0,
        6..=10 => random.of(&[512, 512, 1024, 4096]),
        _ => 1 << (9 + random.below(24)),
    }
}

fn handle(random: &mut Random) -> u32 {
    if random.one_in(6) {
        random.of(&[0, 1, 1 << 31, u32::MAX])
    } else {
        random.u32()
    }
}

/// Lengths of segments, of one manner throughout: some of them 0.
pub fn lengths(random: &mut Random, count: usize, m: u32) -> Vec<u32> {
    let manner = random.below(6);
    let length = |random: &mut Random| match manner {
        0 => random.of(&[0, 1, 2, 3]),
        1 => random.below(2000) as u32,
        2 => random.of(&[m.wrapping_sub(1), m, m.wrapping_add(1), m.wrapping_mul(2), m.wrapping_mul(3), 1]) % (1 << 24),
        3 => random.any_size() >> 8,
        4 => random.any_size(),
        _ => random.u32() / count.max(1) as u32,
    };
    let mut lengths: Vec<u32> = (0..count).map(|_| if random.one_in(5) { 0 } else { length(random) }).collect();
    match random.below(6) {
        0 => lengths.iter_mut().take(1 + random.below(2)).for_each(|length| *length = 0),
        1 => lengths.iter_mut().rev().take(1 + random.below(2)).for_each(|length| *length = 0),
        _ => {}
    }
    lengths
}

/// Changes lengths so that their sum is `target`, if segments of that count can have it.
fn bring_sum_to(lengths: &mut [u32], target: u64) {
    let mut sum: u64 = lengths.iter().map(|&length| u64::from(length)).sum();
    for length in lengths {
        let rest = sum - u64::from(*length);
        *length = target.saturating_sub(rest).min(u64::from(u32::MAX)) as u32;
        sum = rest + u64::from(*length);
    }
}

fn sum_near_2_32(random: &mut Random) -> u64 {
    let bound = 1u64 << 32;
    let near = random.of(&[bound - 2, bound - 1, bound, bound + 1, bound + 600]);
    if random.one_in(4) {
        bound + near
    } else {
        near
    }
}

/// A number near `bound`, or anywhere up to it.
fn near(random: &mut Random, bound: u64) -> u64 {
    match random.below(6) {
        0 => bound.saturating_sub(1),
        1 | 2 => bound,
        3 => bound + 1,
        4 => random.of(&[0, 1, u64::from(u32::MAX)]),
        _ => random.up_to(bound),
    }
}

/// A number of bytes handed out: near the end, near a segment's end, a multiple of M, or anywhere up to the end.
fn handed_out(random: &mut Random, lengths: &[u32], m: u32, end: u64) -> u64 {
    match random.below(8) {
        0 => near(random, end),
        1 | 2 => {
            let ends: u64 = lengths.iter().take(random.below(lengths.len() + 1)).map(|&length| u64::from(length)).sum();
            (ends + random.up_to(2)).saturating_sub(1)
        }
        3 => u64::from(m) * random.up_to(end.min(1 << 32) / u64::from(m.max(1))),
        4 => random.of(&[0, 0, 1, end.saturating_sub(u64::from(m))]),
        _ => random.up_to(end),
    }
}

fn longest_piece(random: &mut Random) -> u32 {
    match random.below(12) {
        0 => random.of(&[0, 1_048_577, 1_048_578, 0x8000_0000, 0xffff_fe00, u32::MAX]),
        1 => random.of(&[1, 1_048_575, 1_048_576]),
        2 => random.any_size(),
        3..=6 => 512,
        7 => random.of(&[1, 2, 3, 7]),
        _ => 1 + random.below(1_048_576) as u32,
    }
}

impl Cut {
    pub fn random(random: &mut Random) -> Self {
        let (m, q) = (longest_piece(random), boundary(random));
        let counts = if random.one_in(24) { (33, 35) } else { random.of(&[(0, 3), (0, 32), (0, 32), (32, 32)]) };
        let count = counts.0 + random.below(counts.1 - counts.0 + 1);
        let mut lengths = lengths(random, count, m);
        if random.one_in(8) {
            bring_sum_to(&mut lengths, sum_near_2_32(random));
        }
        let may_pass = random.one_in(8);
        let segments: Vec<MemoryDescriptor> =
            lengths.iter().map(|&length| segment(random, length, q, may_pass)).collect();
        let b: u64 = lengths.iter().map(|&length| u64::from(length)).sum();
        let r = near(random, b).min(u64::from(u32::MAX)) as u32;
        let handed = handed_out(random, &lengths, m, b.min(u64::from(r))).min(u64::from(u32::MAX)) as u32;
        let mut list = list_of(&segments);
        if random.one_in(24) {
            let length = (list.len() + random.below(31)).saturating_sub(15);
            list.resize(length, random.u8());
        }
        Cut { list, limits: Limits { m, q }, r, handed, lent: lent(random) }
    }
}
