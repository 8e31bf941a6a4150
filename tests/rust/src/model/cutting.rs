//! Segments and the cut.

use std::iter;

use super::{MemoryDescriptor, Refusal};
use crate::limits::Limits;

/// The part of a segment that one RDMA operation moves, and its place in the buffer.
#[derive(Clone, Copy, Debug, PartialEq, Eq)]
pub struct Piece {
    pub memory: MemoryDescriptor,
    pub offset: u32,
}

/// The segments of a list of memory descriptors, in order.
pub fn segments(list: &[u8]) -> impl Iterator<Item = MemoryDescriptor> + '_ {
    list.chunks_exact(MemoryDescriptor::BYTES).map(MemoryDescriptor::read)
}

/// "B is the sum of lengths."
pub fn sum_of_lengths(list: &[u8]) -> u64 {
    segments(list).map(|segment| u64::from(segment.length)).sum()
}

/// "Settings: .. M 1 to 1,048,576"; "Q, 0 for none, or a power of two from 512 to 2^32".
pub fn are_lawful(limits: Limits) -> bool {
    let mut powers = iter::successors(Some(512), |power| Some(2 * power)).take_while(|&power| power <= 1 << 32);
    (1..=1_048_576).contains(&limits.m) && (limits.q == 0 || powers.any(|power| power == limits.q))
}

/// The cut: the next piece, or None for done. "It refuses 2 for M out of range; 11 for a list not a multiple of 16 up
/// to 512 bytes, or more handed out than min(R, B); 10 for a segment past 2^64 or a sum above 2^32 - 1; the list's 11
/// before 10, the other after." "A bad Q draws refusal 2."
pub fn cut(list: &[u8], limits: Limits, r: u32, handed: u32) -> Result<Option<Piece>, Refusal> {
    if !are_lawful(limits) {
        return Err(Refusal::Setting);
    }
    if list.len() % MemoryDescriptor::BYTES != 0 || list.len() > 512 {
        return Err(Refusal::Argument);
    }
    let b = sum_of_lengths(list);
    if segments(list).any(past_the_end) || b > u64::from(u32::MAX) {
        return Err(Refusal::BadFields);
    }
    let end = u64::from(r).min(b);
    if u64::from(handed) > end {
        return Err(Refusal::Argument);
    }
    Ok(next_piece(list, limits, u64::from(handed), end))
}

/// "A segment with address + length above 2^64 (equal is fine)."
pub fn past_the_end(segment: MemoryDescriptor) -> bool {
    u128::from(segment.address) + u128::from(segment.length) > 1 << 64
}

/// "The segment that holds an offset", and "the sum of the earlier lengths"; None behind the last byte.
fn holding(list: &[u8], offset: u64) -> Option<(MemoryDescriptor, u64)> {
    let mut earlier = 0;
    for segment in segments(list) {
        let end = earlier + u64::from(segment.length);
        if offset < end {
            return Some((segment, earlier));
        }
        earlier = end;
    }
    None
}

/// "The first min(R, B) bytes are cut segment by segment, zero-length segments skipped, each piece as long as possible
/// up to M." "A piece now ends at the nearest of M, the segment's end, the move's end and the next multiple of Q above
/// its first address." Here the bytes up to `end`, which is at most B, after the first `handed`. Where a piece ends is
/// an address too; it may be 2^64.
pub fn next_piece(list: &[u8], limits: Limits, handed: u64, end: u64) -> Option<Piece> {
    if handed >= end {
        return None;
    }
    let (segment, earlier) = holding(list, handed)?;
    let address = segment.address + (handed - earlier);
    let first = u128::from(address);
    let ends = [
        Some(first + u128::from(limits.m)),
        Some(u128::from(segment.address) + u128::from(segment.length)),
        Some(first + u128::from(end - handed)),
        next_multiple(first, limits.q),
    ];
    let nearest = ends.into_iter().flatten().min()?;
    let memory = MemoryDescriptor { address, handle: segment.handle, length: (nearest - first) as u32 };
    Some(Piece { memory, offset: handed as u32 })
}

/// "The next multiple of Q above" an address; none where Q is 0.
fn next_multiple(address: u128, q: u64) -> Option<u128> {
    let q = u128::from(q);
    address.checked_div(q).map(|below| (below + 1) * q)
}
