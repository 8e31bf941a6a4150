//! A direction's moves and their operations. The segments are those that the model read; the cut is a second one, that
//! takes a move's bytes out of the list, keeps its place in them, and calls nothing of the model's.

use crate::limits::Limits;
use crate::model::MemoryDescriptor;
use crate::position;
use crate::random::Random;

/// An operation's handle, address, length and offset in the buffer.
pub type Operation = [u64; 4];

/// Address, handle and length of a segment, or of a part of one.
type Part = (u64, u64, u64);

#[derive(Clone, Debug)]
pub struct Pieces {
    segments: Vec<Part>,
    /// R.
    required: u64,
    /// min(R, B).
    due: u64,
    /// What is left of the current move, its last part first, and the offset in the buffer where that begins.
    left: Vec<Part>,
    at: u64,
    /// The length of the current move's cut list, and how many operations were handed out since it was named.
    pub list: u64,
    pub number: u64,
    /// Whether the last operation ended before its segment's part of the move did.
    pub inside: bool,
    /// h: "the highest offset handed out + 1".
    pub highest: u64,
    /// Bytes handed out, once or again.
    pub handed: u64,
}

impl Pieces {
    /// "Unplanned: R = 0."
    pub fn new(segments: &[MemoryDescriptor]) -> Self {
        let numbers = |segment: &MemoryDescriptor| (segment.address, segment.handle.into(), segment.length.into());
        let segments = segments.iter().map(numbers).collect();
        let (list, number, inside, highest, handed) = (0, 0, false, 0, 0);
        Pieces { segments, required: 0, due: 0, left: Vec::new(), at: 0, list, number, inside, highest, handed }
    }

    /// Whether the current move has pieces left.
    pub fn are_left(&self) -> bool {
        !self.left.is_empty()
    }

    /// Whether all pieces of the current move, one at least, were handed out.
    pub fn are_handed_out(&self) -> bool {
        self.number > 0 && !self.are_left()
    }

    pub fn due(&self) -> u64 {
        self.due
    }

    /// "Plan alone starts none."
    pub fn plan(&mut self, r: u32) {
        self.required = r.into();
        self.due = self.required.min(self.buffer());
    }

    /// Where a segment begins, as an offset in the buffer: mostly the last one.
    pub fn start(&self, random: &mut Random) -> u64 {
        let last = self.segments.len().saturating_sub(1);
        let earlier = if random.one_in(3) { random.below(last + 1) } else { last };
        self.segments[..earlier].iter().map(|(_, _, length)| length).sum()
    }

    /// Where among the segments an offset stands.
    pub fn position(&self, offset: u32) -> impl Iterator<Item = &'static str> {
        let lengths: Vec<u32> = self.segments.iter().map(|&(_, _, length)| length as u32).collect();
        position::kinds(&lengths, offset.into())
    }

    /// B.
    fn buffer(&self) -> u64 {
        self.segments.iter().map(|(_, _, length)| length).sum()
    }

    /// Its flags, over the lower one, and its count: "R > B: over, R - B. Else moved < B: under, B - moved", with h for
    /// what moved. "Else no flag, count 0".
    pub fn residual(&self) -> (u8, u64) {
        let b = self.buffer();
        if self.required > b {
            (0b01, self.required - b)
        } else if self.highest < b {
            (0b10, b - self.highest)
        } else {
            (0, 0)
        }
    }

    /// "31 offset above min(R, B); 32 the direction's earlier move still has pieces."
    pub fn refusal_of_move(&self, offset: u32) -> u32 {
        if u64::from(offset) > self.due {
            31
        } else if self.are_left() {
            32
        } else {
            0
        }
    }

    /// Names a move that is not refused. "A move is trimmed at min(R, B)."
    pub fn name(&mut self, offset: u32, count: u32, limits: Limits) {
        self.at = offset.into();
        let (mut before, mut wanted) = (self.at, (self.due - self.at).min(count.into()));
        for &(address, handle, length) in &self.segments {
            let skipped = before.min(length);
            let part = wanted.min(length - skipped);
            before -= skipped;
            wanted -= part;
            if part > 0 {
                self.left.insert(0, (address + skipped, handle, part));
            }
        }
        self.list = self.left.iter().map(|&(address, _, part)| operations(address, part, limits)).sum();
        self.number = 0;
    }

    /// The next of the operations that are cut from the current move: "segment by segment, zero-length segments
    /// skipped, each piece as long as possible up to M", and up to the next multiple of Q. None where all of them were
    /// handed out.
    pub fn next(&mut self, limits: Limits) -> Option<Operation> {
        let (address, handle, length) = self.left.pop()?;
        let piece = length.min(limits.m.into()).min(up_to_multiple(address, limits.q));
        self.inside = piece < length;
        if self.inside {
            self.left.push((address + piece, handle, length - piece));
        }
        let operation = [handle, address, piece, self.at];
        self.at += piece;
        self.highest = self.highest.max(self.at);
        self.handed += piece;
        Some(operation)
    }
}

/// How many bytes from an address on lie before "the next multiple of Q above" it.
fn up_to_multiple(address: u64, q: u64) -> u64 {
    address.checked_rem(q).map_or(u64::MAX, |past| q - past)
}

/// The length of the cut list of a segment's part: of the bytes up to the first multiple of Q, of each Q bytes behind
/// it and of the rest as many operations as pieces of M bytes cover them.
fn operations(address: u64, part: u64, Limits { m, q }: Limits) -> u64 {
    let pieces = |bytes: u64| bytes.div_ceil(m.into());
    let first = part.min(up_to_multiple(address, q));
    let rest = part - first;
    pieces(first) + rest.checked_div(q).map_or(0, |whole| whole * pieces(q) + pieces(rest % q))
}
