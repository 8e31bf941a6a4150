//! Pieces judged byte by byte, by document 01's words and not by the model.

use std::ops::Range;

use crate::limits::Limits;
use crate::model::MemoryDescriptor;
use crate::tally::Tally;

/// One byte of a buffer: the segment that has it, its handle and its address.
#[derive(Clone, Copy, Debug, PartialEq)]
pub struct Byte {
    pub segment: usize,
    pub handle: u32,
    pub address: u64,
}

/// A buffer, byte after byte, segment by segment.
pub fn bytes_of(segments: &[MemoryDescriptor]) -> Vec<Byte> {
    let mut bytes = Vec::new();
    for (at, segment) in segments.iter().enumerate() {
        for i in 0..u64::from(segment.length) {
            bytes.push(Byte { segment: at, handle: segment.handle, address: segment.address + i });
        }
    }
    bytes
}

/// Whether a multiple of Q stands at an address, or at 2^64, which is 0 here.
pub fn is_multiple(address: u64, q: u64) -> bool {
    address.checked_rem(q) == Some(0)
}

/// What ends a piece, whatever Q is.
pub const ENDS: [&str; 3] = ["piece of M bytes", "piece up to its segment's end", "piece up to the end, in a segment"];

/// What ends a piece where nothing of these does.
pub const AT_MULTIPLE: &str = "piece up to a multiple of Q";

/// Panics unless the pieces, each with its offset, are what is due of a buffer: they cover it in order, once, each is
/// at most M long and as long as possible, and none crosses a segment's end or a multiple of Q. Counts what ended each.
pub fn judge(
    bytes: &[Byte],
    due: Range<usize>,
    limits: impl Into<Limits>,
    pieces: &[(MemoryDescriptor, u32)],
    tally: &mut Tally,
) {
    let (Limits { m, q }, mut covered) = (limits.into(), Vec::new());
    for (memory, offset) in pieces {
        let (start, end) = (*offset as usize, *offset as usize + memory.length as usize);
        assert_eq!(start, due.start + covered.len(), "in order");
        assert!(start < end && end <= due.end, "an empty piece, or one past what is due");
        let segment = bytes[start].segment;
        assert!(bytes[start..end].iter().all(|byte| byte.segment == segment), "crosses a segment");
        assert!(!bytes[start + 1..end].iter().any(|byte| is_multiple(byte.address, q)), "crosses a multiple of Q");
        let at_segment = bytes.get(end).is_none_or(|byte| byte.segment != segment);
        let at_multiple = is_multiple(bytes[end - 1].address.wrapping_add(1), q);
        assert!(memory.length <= m, "longer than M");
        let ends = [(memory.length == m, ENDS[0]), (at_segment, ENDS[1]), (end == due.end, ENDS[2])];
        let ended = ends.into_iter().chain([(at_multiple, AT_MULTIPLE)]).find(|(ends, _)| *ends);
        tally.add(ended.expect("could be longer").1);
        let byte = |i| Byte { segment, handle: memory.handle, address: memory.address.wrapping_add(i) };
        covered.extend((0..u64::from(memory.length)).map(byte));
    }
    assert!(covered == bytes[due], "the pieces do not cover what is due");
}
