//! How the segment that holds a byte is found: a parameter of the cut and of step, so that the yardstick differs from
//! the plain port in the search alone.

use crate::stateless::{length_of, Segment};

pub trait Search {
    /// In the cut: the segment that holds the byte at an offset, and the byte's place in it. None where there is none.
    fn in_cut(segments: &[Segment], offset: u64) -> Option<(&Segment, u64)>;

    /// In a step: the index of that segment, and the byte's place in it. None where the port's own place is used.
    fn in_step(lengths: impl Iterator<Item = u32> + Clone, offset: u32) -> Option<(usize, u32)>;
}

/// The plain port's: the cut takes off the lengths that it passes, and a step goes on from the place of the last one.
pub struct Plain;

impl Search for Plain {
    #[inline(always)]
    fn in_cut(segments: &[Segment], offset: u64) -> Option<(&Segment, u64)> {
        let mut within = offset; // bytes of the segment at hand that were handed out
        for segment in segments {
            let length = length_of(segment);
            if within < length {
                return Some((segment, within));
            }
            within -= length;
        }
        None
    }

    #[inline(always)]
    fn in_step(_lengths: impl Iterator<Item = u32> + Clone, _offset: u32) -> Option<(usize, u32)> {
        None
    }
}
