//! The owner's events: the calls on the port, but for those of moves. Each asserts the refusal that `expected` says.

use super::ends::{delta, Open, Sent, Waiting};
use super::expected::{has_fetch, Message};
use super::pieces::Pieces;
use super::{Call, Channel, Machine, Outcome, Target};
use crate::model::{segments, Command};
use crate::random::Random;

/// 132 bytes or more, else too short.
pub(super) fn buffer(random: &mut Random) -> Vec<u8> {
    let length = random.of(&[132, 132, 132, 132, 133, 140, 160, 200, 131, 16, 0]);
    vec![0x5b; if random.one_in(2) { 132 } else { length }]
}

/// Of an SRP_RSP each way: "18 flags; .. 20-23 out residual; 24-27 in residual", "2 DOOVER, 3 DOUNDER, 4 DIOVER, 5
/// DIUNDER".
fn residuals_in(message: &[u8]) -> [(u8, u64); 2] {
    let count = |at: usize| message[at..at + 4].iter().fold(0, |count, &byte| count << 8 | u64::from(byte));
    [(message[18] >> 2 & 0b11, count(20)), (message[18] >> 4 & 0b11, count(24))]
}

/// The pieces of a direction with these segments.
pub(super) fn pieces_of(list: &[u8]) -> Pieces {
    Pieces::new(&segments(list).collect::<Vec<_>>())
}

impl<T: Target> Machine<T> {
    /// "Take gets that queue's front." On refusal 1 "the message stays there, else it leaves".
    pub(super) fn take(&mut self) -> Channel {
        let Some(Sent { msg, tables }) = self.ends.to_port.front().cloned() else {
            return Channel::Open;
        };
        let buf = buffer(&mut self.random);
        let expected = self.ends.refusal_of_take(&msg, buf.len());
        let call = Call::Take { msg, buf };
        let outcome = self.counted(&call);
        assert_eq!(outcome.returned, expected, "{call:02x?}");
        assert!(outcome.returned != 22 || !self.fair, "a fair request drew 22");
        if outcome.returned == 1 {
            return Channel::Open;
        }
        self.ends.to_port.pop_front();
        self.taken(call.input(), tables, &outcome)
    }

    /// "A command taken is open until it ends. A task request ends in the same call, as do the open commands that it
    /// aborts and any command that draws 10."
    fn taken(&mut self, msg: &[u8], tables: [Vec<u8>; 2], outcome: &Outcome) -> Channel {
        let Ok(message) = self.ends.read(msg) else {
            return Channel::Closed;
        };
        match (outcome.returned, message) {
            (0, Message::Command(command)) => self.command_taken(command, tables, outcome.answer[6]),
            (0, Message::Task { request, function, task_tag }) => {
                let aborted = |record: &[u64; 4]| match function {
                    0x01 => record[0] == task_tag && record[1] == request.lun,
                    0x02 | 0x04 | 0x08 => record[1] == request.lun,
                    _ => false,
                };
                self.note_abort(aborted);
                self.ends.open.retain(|command| !aborted(&command.record()));
                self.ends.line.leave(&self.ends.open);
                self.written(outcome);
            }
            (0, Message::CreditResponse) => self.ends.unanswered = false,
            (10, _) => self.written(outcome),
            _ => return Channel::Closed,
        }
        Channel::Open
    }

    /// "With a fetch named, the command is open and waiting."
    fn command_taken(&mut self, command: Command, tables: [Vec<u8>; 2], waits: u64) {
        let Command { request, data_out, data_in, .. } = command;
        let fetch = has_fetch([&data_out, &data_in]);
        assert_eq!(waits, fetch.into(), "whether the command waits");
        let pieces = match fetch {
            true => [[], []].map(|none| Pieces::new(&none)),
            false => [&data_out, &data_in].map(|data| pieces_of(&data.segment_list(&[]))),
        };
        if self.ends.taken.contains(&request.tag) {
            self.states.add("a tag used again");
        }
        self.ends.taken.push(request.tag);
        let waiting = fetch.then_some(Waiting { descriptors: [data_out, data_in], tables });
        self.ends.open.push(Open { tag: request.tag, lun: request.lun, waiting, planned: false, pieces });
    }

    fn note_abort(&mut self, aborted: impl Fn(&[u64; 4]) -> bool) {
        if self.ends.in_the_middle(&aborted) {
            self.states.add("aborted in the middle");
        }
        if self.ends.open.iter().any(|command| command.waiting.is_some() && aborted(&command.record())) {
            self.states.add("aborted while it waited");
        }
    }

    /// An SRP_RSP or an SRP_CRED_REQ, which the call must have written.
    pub(super) fn written(&mut self, outcome: &Outcome) {
        let message = outcome.message();
        let name = if message[0] == 0x81 { "SRP_CRED_REQ" } else { "SRP_RSP" };
        let lift = ["0", "1", "more"][delta(message).unwrap_or(0).clamp(0, 2) as usize];
        self.states.add(format!("{name} lifts {lift}"));
        self.ends.join(message);
    }

    /// Mostly of an open command.
    pub(super) fn tag(&mut self) -> u64 {
        let open = &self.ends.open;
        if open.is_empty() || self.random.one_in(12) {
            self.random.up_to(40)
        } else {
            open[self.random.below(open.len())].tag
        }
    }

    /// "Unrefused, finish ends its command."
    pub(super) fn finish(&mut self) {
        let (tag, buf) = (self.tag(), buffer(&mut self.random));
        let (status, length) = self.random.of(&[(0, 0), (0, 0), (0, 0), (2, 0), (2, 18), (2, 96), (2, 97), (8, 1)]);
        let expected = self.ends.refusal_of_finish(tag, status, length, buf.len());
        let outcome = self.counted(&Call::Finish { tag, status, sense: vec![0x70; length], buf });
        assert_eq!(outcome.returned, expected, "finish");
        if let (0, Some(place)) = (outcome.returned, self.ends.place_of(tag)) {
            if self.ends.in_the_middle(|record| record[0] == tag) {
                self.states.add("finished in the middle");
            }
            let command = self.ends.open.swap_remove(place);
            self.ends.line.leave(&self.ends.open);
            let residuals = residuals_in(outcome.message());
            assert_eq!(residuals, [0, 1].map(|at| command.pieces[at].residual()), "the residuals");
            command.pieces.iter().for_each(|pieces| self.note_moves(pieces));
            self.written(&outcome);
        }
    }

    /// What the moves of a finished command came to.
    fn note_moves(&mut self, pieces: &Pieces) {
        let states = [
            (pieces.are_left(), "ended with pieces left"),
            (pieces.highest > pieces.handed, "h above the bytes handed out"),
            (pieces.highest < pieces.handed, "h below the bytes handed out"),
        ];
        states.into_iter().filter(|(is, _)| *is).for_each(|(_, state)| self.states.add(state));
    }

    pub(super) fn add(&mut self) {
        let k = self.random.of(&[0, 1, 1, 1, 2, 3, 8, 16, u32::MAX]);
        let outcome = self.counted(&Call::Add { k });
        assert_eq!(outcome.returned, self.ends.refusal_of_change(k, k.into()), "add");
        if outcome.returned == 0 {
            self.ends.added += i64::from(k);
        }
    }

    pub(super) fn withdraw(&mut self) {
        let k = self.random.of(&[0, 1, 1, 1, 2, 3, 8, 16, u32::MAX]);
        let outcome = self.counted(&Call::Withdraw { k });
        assert_eq!(outcome.returned, self.ends.refusal_of_change(k, -i64::from(k)), "withdraw");
        if outcome.returned == 0 {
            self.ends.withdrawn += i64::from(k);
        }
    }

    pub(super) fn grant(&mut self) {
        let buf = buffer(&mut self.random);
        let expected = self.ends.refusal_of_grant(buf.len());
        let outcome = self.counted(&Call::Grant { buf });
        assert_eq!(outcome.returned, expected, "grant");
        if outcome.returned == 0 {
            self.ends.unanswered = true;
            self.written(&outcome);
        }
    }
}
