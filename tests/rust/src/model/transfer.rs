//! Plan, move and step.

use super::channel::{Channel, OpenCommand, Port, Transfer};
use super::cutting::next_piece;
use super::turns::{Line, Place};
use super::writing::Answer;
use super::Refusal;
use crate::limits::Limits;

impl OpenCommand {
    /// "Direction: 0 out, else in."
    pub(super) fn transfer(&mut self, direction: u32) -> &mut Transfer {
        if direction == 0 {
            &mut self.data_out
        } else {
            &mut self.data_in
        }
    }
}

/// An open command, M and Q, and the line.
struct Found<'a> {
    command: &'a mut OpenCommand,
    limits: Limits,
    line: &'a mut Line,
}

impl Port {
    /// The open command with that tag. "21 closed .. 24 tag not open", then 33.
    fn command(&mut self, tag: u64) -> Result<Found<'_>, Refusal> {
        let channel: &mut Channel = self.channel.as_mut().ok_or(Refusal::Closed)?;
        let place = channel.place_of(tag).ok_or(Refusal::TagNotOpen)?;
        let Channel { agreement, commands, line, .. } = channel;
        commands[place].refused_while_waiting()?;
        Ok(Found { command: &mut commands[place], limits: agreement.limits, line })
    }

    /// As `command`, then 29.
    fn planned(&mut self, tag: u64) -> Result<Found<'_>, Refusal> {
        let found = self.command(tag)?;
        if !found.command.planned {
            return Err(Refusal::Unplanned);
        }
        Ok(found)
    }

    /// "Plan states once per command, for each direction, R." 21, 24, 33, 30. "Plan alone starts none": no move.
    pub fn plan(&mut self, tag: u64, r_out: u32, r_in: u32) -> u32 {
        let command = match self.command(tag) {
            Err(refusal) => return refusal.number(),
            Ok(found) => found.command,
        };
        if command.planned {
            return Refusal::PlannedAlready.number();
        }
        command.planned = true;
        command.data_out.required = r_out;
        command.data_in.required = r_in;
        0
    }

    /// "After plan, the owner names a move: direction, offset, count." 21, 24, 33, 29, 31, 32.
    pub fn name_move(&mut self, tag: u64, direction: u32, offset: u32, count: u32) -> u32 {
        let Found { command, line, .. } = match self.planned(tag) {
            Err(refusal) => return refusal.number(),
            Ok(found) => found,
        };
        let transfer = command.transfer(direction);
        let (due, start) = (transfer.due(), u64::from(offset));
        if start > due {
            return Refusal::Offset.number();
        }
        if !transfer.current.is_empty() {
            return Refusal::EarlierMove.number();
        }
        // "A move is trimmed at min(R, B)."
        transfer.current = start..due.min(start + u64::from(count));
        transfer.number = 0;
        // "Each named move with pieces joins a line at its end."
        if !transfer.current.is_empty() {
            line.push_back(Place::new(tag, direction));
        }
        0
    }

    /// "Step names a tag and a direction and hands out the next piece there, or says done"; "step serves the pieces of
    /// that direction's current move". 21, 24, 33, 29.
    pub fn step(&mut self, tag: u64, direction: u32, answer: &mut Answer) -> u32 {
        *answer = [0; 8];
        let Found { command, limits, line } = match self.planned(tag) {
            Err(refusal) => return refusal.number(),
            Ok(found) => found,
        };
        let transfer = command.transfer(direction);
        hand_out(transfer, direction, limits, answer);
        // "A single step's last piece" removes the move; with any other one it keeps its place.
        if transfer.current.is_empty() {
            line.retain(|place| *place != Place::new(tag, direction));
        }
        0
    }
}

/// "An operation is kind, handle, address, length, offset in the buffer." "Step's answers carry the number handed out
/// so far for the current move, their own piece included": done's too.
pub(super) fn hand_out(transfer: &mut Transfer, direction: u32, limits: Limits, answer: &mut Answer) {
    // "Data-out gives RDMA Reads, data-in RDMA Writes."
    let operation = if direction == 0 { 1 } else { 2 };
    let current = &mut transfer.current;
    if let Some(piece) = next_piece(&transfer.segments, limits, current.start, current.end) {
        let (memory, offset) = (piece.memory, u64::from(piece.offset));
        current.start += u64::from(memory.length);
        transfer.reached = transfer.reached.max(current.start);
        transfer.number += 1;
        *answer = [1, operation, u64::from(memory.handle), memory.address, u64::from(memory.length), offset, 0, 0];
    }
    answer[6] = transfer.number;
}
