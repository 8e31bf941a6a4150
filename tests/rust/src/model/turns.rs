//! Turns: "one call that picks the next piece".

use std::collections::VecDeque;

use super::channel::{Channel, Port};
use super::transfer::hand_out;
use super::writing::Answer;
use super::Refusal;

/// A move in the line, by its command's tag and its direction.
#[derive(Clone, Copy, Debug, PartialEq, Eq)]
pub struct Place {
    pub tag: u64,
    /// 0 out, 1 in.
    pub direction: u32,
}

/// The next to be served first.
pub type Line = VecDeque<Place>;

impl Place {
    /// "Direction: 0 out, else in."
    pub fn new(tag: u64, direction: u32) -> Self {
        Place { tag, direction: u32::from(direction != 0) }
    }
}

impl Port {
    /// 21. Answer: as step's, with the tag behind the number; all 0 for idle.
    pub fn turn(&mut self, answer: &mut Answer) -> u32 {
        *answer = [0; 8];
        match &mut self.channel {
            None => Refusal::Closed.number(),
            Some(channel) => {
                channel.serve_first(answer);
                0
            }
        }
    }
}

impl Channel {
    /// "The call serves the first and puts it back at the end if pieces remain." "The call says idle only with an empty
    /// line."
    fn serve_first(&mut self, answer: &mut Answer) {
        let Some(first) = self.line.pop_front() else {
            return;
        };
        let limits = self.agreement.limits;
        let Some(place) = self.place_of(first.tag) else {
            return;
        };
        let transfer = self.commands[place].transfer(first.direction);
        hand_out(transfer, first.direction, limits, answer);
        // "A piece comes with its tag, direction and Job 4's number."
        answer[7] = first.tag;
        if !transfer.current.is_empty() {
            self.line.push_back(first);
        }
    }

    /// "Aborts, endings .. remove it": both moves of each command that is not open any more.
    pub(super) fn leave_with_commands(&mut self) {
        let commands = &self.commands;
        self.line.retain(|place| commands.iter().any(|command| command.request.tag == place.tag));
    }
}
