//! One direction of a command: its segments, its current move, and how far they were handed out.

use super::message::Residual;
use super::request::{u32_at, u64_at};
use super::Refusal;
use crate::search::Search;
use crate::stateless::room_before;

#[derive(Clone, Copy, Debug, PartialEq)]
pub enum Direction {
    Out = 0,
    In = 1,
}

#[derive(Clone, Copy, PartialEq)]
struct Segment {
    address: u64,
    handle: u32,
    length: u32,
}

#[derive(Clone, Copy)]
pub struct SegmentList([Segment; 32]);

/// A piece to be moved by one RDMA operation.
#[derive(Debug, PartialEq, Eq)]
pub struct Piece {
    pub handle: u32,
    pub address: u64,
    pub length: u32,
    pub offset: u32,
}

#[derive(Clone, Copy)]
pub struct Transfer {
    /// The sum of the segments' lengths, B.
    length: u32,
    /// What the SCSI command requires, R; 0 until planned.
    pub required: u32,
    /// The highest offset handed out + 1, h.
    pub reached: u32,
    /// What is left of the current move, and the operations handed out for it.
    at: u32,
    end: u32,
    number: u32,
    /// The segment at hand, and the place in it of the next byte.
    segment: usize,
    within: u32,
}

impl Segment {
    fn read(bytes: &[u8]) -> Self {
        Segment { address: u64_at(bytes, 0), handle: u32_at(bytes, 8), length: u32_at(bytes, 12) }
    }

    /// Whether address + length is above 2^64.
    fn ends_past_memory(&self) -> bool {
        self.length > 0 && self.address.checked_add(u64::from(self.length - 1)).is_none()
    }
}

impl SegmentList {
    pub const EMPTY: SegmentList = SegmentList([Segment { address: 0, handle: 0, length: 0 }; 32]);

    /// Holds the segments of up to 512 bytes; gives the sum of their lengths, None where a segment is bad.
    fn load(&mut self, bytes: &[u8]) -> Option<u64> {
        let mut sum = 0;
        for (segment, bytes) in self.0.iter_mut().zip(bytes.chunks_exact(16)) {
            *segment = Segment::read(bytes);
            if segment.ends_past_memory() {
                return None;
            }
            sum += u64::from(segment.length);
        }
        Some(sum)
    }

    /// Holds the segments of a message, whatever they are.
    pub fn keep(&mut self, bytes: &[u8]) {
        for (segment, bytes) in self.0.iter_mut().zip(bytes.chunks_exact(16)) {
            *segment = Segment::read(bytes);
        }
    }

    /// Whether the segments kept, so many, are the first of a table.
    pub fn begins(&self, kept: usize, table: &[u8]) -> bool {
        let entries = table.chunks_exact(16).map(Segment::read);
        kept <= table.len() / 16 && self.0[..kept].iter().copied().eq(entries.take(kept))
    }

    /// The sum of the lengths of the segments kept, so many; None where one is bad.
    fn sum(&self, kept: usize) -> Option<u64> {
        let kept = &self.0[..kept];
        let bad = kept.iter().any(Segment::ends_past_memory);
        (!bad).then(|| kept.iter().map(|segment| u64::from(segment.length)).sum())
    }

    /// The segment that has the byte at an offset, and the byte's place in it. Any where no segment has it.
    fn place(&self, offset: u32) -> (usize, u32) {
        let mut within = offset;
        for (segment, Segment { length, .. }) in self.0.iter().enumerate() {
            if within < *length {
                return (segment, within);
            }
            within -= length;
        }
        (0, 0)
    }

    fn lengths(&self) -> impl Iterator<Item = u32> + Clone + '_ {
        self.0.iter().map(|segment| segment.length)
    }
}

impl Transfer {
    pub const EMPTY: Transfer =
        Transfer { length: 0, required: 0, reached: 0, at: 0, end: 0, number: 0, segment: 0, within: 0 };

    /// A transfer of these segments, which `list` then holds. None where they are bad or the total is not their sum.
    pub fn new(list: &mut SegmentList, bytes: &[u8], total: Option<u32>) -> Option<Self> {
        Transfer::of_length(list.load(bytes)?, total)
    }

    /// A transfer of segments that `list` has kept, so many.
    pub fn kept(list: &SegmentList, count: usize, total: Option<u32>) -> Option<Self> {
        Transfer::of_length(list.sum(count)?, total)
    }

    fn of_length(sum: u64, total: Option<u32>) -> Option<Self> {
        let length = u32::try_from(sum).ok()?;
        let right = total.is_none_or(|total| total == length);
        right.then_some(Transfer { length, ..Transfer::EMPTY })
    }

    /// Begins a move of `count` bytes from `offset` on, trimmed at min(R, B).
    pub fn name_move(&mut self, list: &SegmentList, offset: u32, count: u32) -> Result<(), Refusal> {
        let due = self.required.min(self.length);
        if offset > due {
            return Err(Refusal::Offset);
        }
        if self.at < self.end {
            return Err(Refusal::Unfinished);
        }
        self.at = offset;
        self.end = offset.saturating_add(count).min(due);
        self.number = 0;
        (self.segment, self.within) = list.place(offset);
        Ok(())
    }

    /// The next piece of the current move, or None: done.
    pub fn next_piece<S: Search>(&mut self, list: &SegmentList, max_piece: u32, boundary: u64) -> Option<Piece> {
        let left = self.end - self.at;
        if left == 0 {
            return None;
        }
        if let Some(place) = S::in_step(list.lengths(), self.at) {
            (self.segment, self.within) = place;
        }
        // Bytes are left, so a segment ahead has some; those of length 0 are skipped.
        while list.0[self.segment].length == self.within {
            self.segment += 1;
            self.within = 0;
        }
        let segment = list.0[self.segment];
        let address = segment.address + u64::from(self.within);
        let most = (segment.length - self.within).min(left).min(max_piece);
        let length = room_before(boundary, address).min(most.into()) as u32;
        let piece = Piece { handle: segment.handle, address, length, offset: self.at };
        self.within += length;
        self.at += length;
        self.number += 1;
        self.reached = self.reached.max(self.at);
        Some(piece)
    }

    /// Whether some of the current move is left.
    pub fn has_pieces(&self) -> bool {
        self.at < self.end
    }

    /// The operations handed out so far for the current move.
    pub fn number(&self) -> u32 {
        self.number
    }

    pub fn residual(&self) -> Residual {
        if self.required > self.length {
            Residual::Over(self.required - self.length)
        } else if self.reached < self.length {
            Residual::Under(self.length - self.reached)
        } else {
            Residual::None
        }
    }
}

#[cfg(test)]
mod tests {
    use super::*;
    use crate::search::Plain;

    /// A transfer of segments with these lengths, at 4096, 8192 and so on, with a move of all that is required.
    fn transfer(lengths: &[u32], required: u32) -> (SegmentList, Transfer) {
        let mut bytes = Vec::new();
        for (at, length) in lengths.iter().enumerate() {
            bytes.extend((4096 * (at as u64 + 1)).to_be_bytes());
            bytes.extend(7u32.to_be_bytes());
            bytes.extend(length.to_be_bytes());
        }
        let mut list = SegmentList::EMPTY;
        let transfer = Transfer::new(&mut list, &bytes, None).expect("no bad field");
        let mut transfer = Transfer { required, ..transfer };
        transfer.name_move(&list, 0, required).expect("a move");
        (list, transfer)
    }

    #[test]
    fn segments_of_length_zero_in_a_row_are_skipped() {
        let (list, mut transfer) = transfer(&[0, 0, 600, 0, 0, 100, 0], 700);
        let mut next =
            || transfer.next_piece::<Plain>(&list, 512, 0).map(|piece| (piece.address, piece.length, piece.offset));
        assert_eq!(next(), Some((12288, 512, 0)));
        assert_eq!(next(), Some((12288 + 512, 88, 512)));
        assert_eq!(next(), Some((24576, 100, 600)));
        assert_eq!(next(), None);
        assert_eq!(next(), None);
    }

    #[test]
    fn moves_from_inside_a_segment() {
        let (list, mut transfer) = transfer(&[0, 600, 0, 100], 650);
        assert_eq!(transfer.name_move(&list, 0, 1), Err(Refusal::Unfinished));
        while transfer.next_piece::<Plain>(&list, 512, 0).is_some() {}
        assert_eq!((transfer.name_move(&list, 651, 0), transfer.number()), (Err(Refusal::Offset), 3));
        for (offset, count, expected) in [
            (599, u32::MAX, vec![(8192 + 599, 1, 599), (16384, 50, 600)]),
            (50, 513, vec![(8192 + 50, 512, 50), (8192 + 562, 1, 562)]),
            (600, 1, vec![(16384, 1, 600)]),
            (650, 9, vec![]),
        ] {
            assert_eq!((transfer.name_move(&list, offset, count), transfer.number()), (Ok(()), 0));
            let pieces = std::iter::from_fn(|| transfer.next_piece::<Plain>(&list, 512, 0));
            let pieces: Vec<_> = pieces.map(|piece| (piece.address, piece.length, piece.offset)).collect();
            assert_eq!(pieces, expected, "{count} bytes from {offset} on");
            assert_eq!(transfer.number(), expected.len() as u32, "{count} bytes from {offset} on");
        }
        assert_eq!((transfer.reached, transfer.residual()), (650, Residual::Under(50)));
    }

    #[test]
    fn pieces_up_to_a_boundary() {
        for (boundary, expected) in [
            (0, vec![(4096, 2048), (6144, 952), (8192, 700)]),
            (1024, vec![(4096, 1024), (5120, 1024), (6144, 952), (8192, 700)]),
            (8192, vec![(4096, 2048), (6144, 952), (8192, 700)]),
        ] {
            let (list, mut transfer) = transfer(&[3000, 700], 3700);
            let pieces = std::iter::from_fn(|| transfer.next_piece::<Plain>(&list, 2048, boundary));
            let pieces: Vec<_> = pieces.map(|piece| (piece.address, piece.length)).collect();
            assert_eq!(pieces, expected, "boundary {boundary}");
        }
    }

    #[test]
    fn residuals_after_some_pieces() {
        for (required, pieces, expected) in [
            (800, 0, Residual::Over(100)),
            (800, 1, Residual::Over(100)),
            (700, 0, Residual::Under(700)),
            (700, 1, Residual::Under(188)),
            (650, 2, Residual::Under(50)),
            (700, 2, Residual::None),
        ] {
            let (list, mut transfer) = transfer(&[700], required);
            for _ in 0..pieces {
                transfer.next_piece::<Plain>(&list, 512, 0).expect("a piece");
            }
            assert_eq!(transfer.residual(), expected, "required {required}, pieces {pieces}");
        }
    }
}
