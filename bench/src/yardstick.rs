//! The yardstick of the segment search: a search that sums the earlier lengths anew for each segment, so that its time
//! grows with the square of the segments. It is timed beside the library's search and used for nothing else; it is not
//! part of the plain port.

use std::hint::black_box;

use crate::search::Search;
use crate::stateless::{length_of, Segment};

pub struct Yardstick;

impl Search for Yardstick {
    #[inline(always)]
    fn in_cut(segments: &[Segment], offset: u64) -> Option<(&Segment, u64)> {
        let (at, within) = find(segments.iter().map(length_of), offset)?;
        Some((&segments[at], within))
    }

    /// In each step, as the library.
    #[inline(always)]
    fn in_step(lengths: impl Iterator<Item = u32> + Clone, offset: u32) -> Option<(usize, u32)> {
        let (at, within) = find(lengths.map(u64::from), offset.into())?;
        Some((at, within as u32))
    }
}

/// The first segment up to which the lengths, added up from nothing, are above the offset; and the byte's place in it.
#[inline(always)]
fn find(lengths: impl Iterator<Item = u64> + Clone, offset: u64) -> Option<(usize, u64)> {
    lengths.clone().enumerate().find_map(|(at, length)| {
        // One by one, as the library reads them; else the compiler adds several at a time, with SIMD instructions.
        let sum: u64 = lengths.clone().take(at + 1).map(black_box).sum();
        (offset < sum).then(|| (at, offset + length - sum))
    })
}
