//! The two-ended machine of document 01: an initiator with its limit, two queues, and a port with its owner. It "is fed
//! the events' arguments, the calls' refusals and the messages written; of the port's state it is given D alone, as
//! owed". Its own counts say what each message lifts, which operations are handed out and how many of a move, and which
//! call is refused for what went before; what is in a command it reads with the model (`expected`). Its own list of the
//! commands that were open says in which order they are listed, and its own line which move a turn serves (`turns`).
//! "The new call is an event of demand 3": tables are brought for any command at any time (`tables`). "Turns are events
//! of demand 3 too". All of it is asserted of each event, as demand 3 has it, and so is the type of the message that is
//! written. Each message sent is traced too (`lines`).

mod ends;
mod expected;
mod initiator;
mod lines;
mod moves;
mod owner;
mod pieces;
mod tables;
mod turns;

use super::call::{Call, Outcome, Target};
use super::kinds;
use crate::calls::Memory;
use crate::random::Random;
use crate::tally::Tally;
use ends::Ends;

pub struct Machine<T> {
    target: T,
    random: Random,
    /// "Let the initiator send a request only with a limit of at least 1 and answer each credit request at most once."
    fair: bool,
    ends: Ends,
    pub events: Tally,
    /// What the events came to.
    pub states: Tally,
    /// The most turns that a move in line was served after, that turn included.
    pub longest_wait: u64,
    /// The lines of the messages sent, by their way and name, and the memory that they are made in.
    pub lines: Tally,
    memory: Memory,
}

/// Whether the list goes on: "closing ends the list".
#[derive(Clone, Copy, Debug, PartialEq, Eq)]
pub enum Channel {
    Open,
    Closed,
}

impl<T: Target> Machine<T> {
    pub fn new(target: T, seed: u64) -> Self {
        Machine {
            target,
            random: Random::new(seed),
            fair: true,
            ends: Ends::default(),
            events: Tally::default(),
            states: Tally::default(),
            longest_wait: 0,
            lines: Tally::default(),
            memory: Memory::default(),
        }
    }

    /// A list of events after an accepted login, until the channel closes or `most` have happened.
    pub fn list(&mut self, fair: bool, most: usize) {
        self.fair = fair;
        self.log_in();
        self.assert_balance();
        for _ in 0..most {
            if self.event() == Channel::Closed {
                assert_eq!(self.call(&Call::Counters).returned, 21, "closed");
                return;
            }
            self.assert_balance();
        }
    }

    fn event(&mut self) -> Channel {
        match self.random.below(120) {
            108.. => self.turn(),
            100..=107 => self.bring(),
            0..=22 => self.send(),
            23..=37 => self.deliver(),
            38..=56 => return self.take(),
            57..=62 => self.plan(),
            63..=70 => self.name_move(),
            71..=84 => self.step(),
            85..=91 => self.finish(),
            92..=94 => self.add(),
            95..=97 => self.withdraw(),
            _ => self.grant(),
        }
        Channel::Open
    }

    fn call(&mut self, call: &Call) -> Outcome {
        self.target.call(call)
    }

    /// A call that is an event: it writes just the message that it has to, if any.
    fn counted(&mut self, call: &Call) -> Outcome {
        let outcome = self.call(call);
        let message = if call.buf().is_empty() { &[] } else { outcome.message() };
        let expected = self.ends.message_of(call, outcome.returned);
        assert_eq!(message.first().copied(), expected, "the message's type byte\n{call:02x?}\n{outcome:02x?}");
        if expected.is_some() {
            self.trace_written(message);
        }
        self.events.add(kinds::outcome(call, &outcome));
        outcome
    }

    /// "At the start and after every event .. while the channel is open, limit + requests on the way + requests held +
    /// deltas on the way + owed = N + added - withdrawn."
    fn assert_balance(&mut self) {
        let counters = self.call(&Call::Counters);
        assert_eq!(counters.returned, 0, "open");
        let [w, a, h, d, ..] = counters.answer.map(|word| word as i64);
        let ends = &self.ends;
        assert_eq!(ends.first_four() + d, ends.right_side(), "limit + on the way + held + deltas + owed");
        // "Requests held = taken - ended = commands open; H says so, and as many are listed after each call."
        assert_eq!([w, a, h], [ends.right_side(), ends.announced(), ends.held()], "W, A, H");
        self.states.add(format!("owed {}", ["below 0", "0", "above 0"][(d.signum() + 1) as usize]));
        if h == 16 {
            self.states.add("16 commands open");
        }
        if ends.limit < 0 {
            self.states.add("limit below 0");
        }

        let listed = self.call(&Call::List { records: vec![0x5b; 64] });
        let mut expected = self.ends.listing().concat();
        expected.resize(64, 0x5b);
        assert_eq!((listed.returned, listed.answer[0] as i64), (0, h), "as many are listed");
        assert_eq!(listed.records, expected, "the listing");
    }
}

#[cfg(test)]
mod tests {
    use super::Machine;
    use crate::model;

    // The model through the machine: where an event fails over the library and not here, the library is wrong. The
    // lines are the library's here too.
    #[test]
    fn the_model() {
        let mut machine = Machine::new(model::Port::default(), 13);
        while machine.events.total() < 100_000 {
            machine.list(true, 1_000);
            machine.list(false, 1_000);
        }
        machine.events.print_as("machine, over the model", "events");
    }
}
