//! The line: the moves that have pieces left, in the order in which turns serve them.

use super::{Direction, Piece, Port, Refusal, MAX_BUFFERS};
use crate::search::Search;

/// Both moves of each command.
const MAX_MOVES: usize = 2 * MAX_BUFFERS;

/// A ring of moves, each by its command's slot and its direction.
#[derive(Clone)]
pub struct Line {
    ring: [(u8, Direction); MAX_MOVES],
    first: usize,
    count: usize,
}

/// What a turn hands out.
#[derive(Debug)]
pub struct Turn {
    pub tag: u64,
    pub direction: Direction,
    pub piece: Piece,
    pub number: u32,
}

impl Line {
    pub const EMPTY: Line = Line { ring: [(0, Direction::Out); MAX_MOVES], first: 0, count: 0 };

    pub fn join(&mut self, slot: usize, direction: Direction) {
        self.ring[(self.first + self.count) % MAX_MOVES] = (slot as u8, direction);
        self.count += 1;
    }

    /// The first one leaves.
    fn next(&mut self) -> Option<(usize, Direction)> {
        if self.count == 0 {
            return None;
        }
        let (slot, direction) = self.ring[self.first];
        self.first = (self.first + 1) % MAX_MOVES;
        self.count -= 1;
        Some((slot.into(), direction))
    }

    /// Those that the test names leave; the others close up.
    fn remove(&mut self, leaves: impl Fn(usize, Direction) -> bool) {
        let (first, count) = (self.first, self.count);
        self.count = 0;
        for at in 0..count {
            let (slot, direction) = self.ring[(first + at) % MAX_MOVES];
            if !leaves(slot.into(), direction) {
                self.join(slot.into(), direction);
            }
        }
    }

    pub fn leave(&mut self, slot: usize, direction: Direction) {
        self.remove(|other, way| other == slot && way == direction);
    }

    /// Both moves of a command.
    pub fn leave_with(&mut self, slot: usize) {
        self.remove(|other, _| other == slot);
    }
}

impl Port {
    /// The next piece of the move that is first in line, or None: idle.
    pub fn turn<S: Search>(&mut self) -> Result<Option<Turn>, Refusal> {
        let channel = self.channel.as_mut().ok_or(Refusal::Closed)?;
        let Some((slot, direction)) = channel.line.next() else {
            return Ok(None);
        };
        let command = channel.commands[slot].as_mut().ok_or(Refusal::TagNotOpen)?;
        let transfer = &mut command.transfers[direction as usize];
        let list = &self.lists[slot][direction as usize];
        let piece = transfer.next_piece::<S>(list, channel.max_piece, channel.boundary);
        if transfer.has_pieces() {
            channel.line.join(slot, direction);
        }
        Ok(piece.map(|piece| Turn { tag: command.tag, direction, piece, number: transfer.number() }))
    }
}
