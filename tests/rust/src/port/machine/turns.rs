//! The event of a turn, and the line that the machine keeps: it is told which moves were named, which had their last
//! piece and which commands ended, and nothing of the port's line.

use super::ends::{Open, Sent};
use super::{Call, Channel, Machine, Target};
use crate::generate::Descriptor;
use crate::limits::Limits;
use crate::model::MemoryDescriptor;
use crate::port::generate::{self, Data};

/// "The line has at most 32 moves, so a move in it is served within 32 of these calls."
pub const MOST: u64 = 32;

/// A move in the line: where it stood when it joined or was put back, 1 for the first, and how many turns there were
/// since.
#[derive(Clone, Copy, Debug)]
struct InLine {
    tag: u64,
    direction: usize,
    place: u64,
    waited: u64,
}

#[derive(Default)]
pub struct Line(Vec<InLine>);

impl Line {
    /// "Each named move with pieces joins a line at its end."
    pub fn join(&mut self, tag: u64, direction: usize) {
        let place = self.0.len() as u64 + 1;
        assert!(place <= MOST, "a line of {place} moves");
        self.0.push(InLine { tag, direction, place, waited: 0 });
    }

    /// "Aborts, endings .. remove it": what is left are the moves of open commands.
    pub fn leave(&mut self, open: &[Open]) {
        self.0.retain(|joined| open.iter().any(|command| command.tag == joined.tag));
    }

    /// "A single step's last piece" removes it. Where it stood, and how many there were.
    fn remove(&mut self, tag: u64, direction: usize) -> (usize, usize) {
        let (found, count) = (|joined: &InLine| (joined.tag, joined.direction) == (tag, direction), self.0.len());
        let place = self.0.iter().position(found).expect("a move that had pieces");
        self.0.remove(place);
        (place, count)
    }

    /// One turn more for each, and the first of them taken off.
    fn next(&mut self) -> Option<InLine> {
        self.0.iter_mut().for_each(|joined| joined.waited += 1);
        (!self.0.is_empty()).then(|| self.0.remove(0))
    }
}

impl<T: Target> Machine<T> {
    /// "The call serves the first and puts it back at the end if pieces remain." "The call says idle only with an empty
    /// line": then no direction of any command has pieces left.
    pub(super) fn turn(&mut self) {
        let outcome = self.counted(&Call::Turn);
        assert_eq!(outcome.returned, 0, "the channel is open");
        let Some(served) = self.ends.line.next() else {
            assert_eq!(outcome.answer, [0; 8], "idle");
            let left = self.ends.open.iter().flat_map(|command| &command.pieces).filter(|pieces| pieces.are_left());
            assert_eq!(left.count(), 0, "moves with pieces, and idle");
            self.states.add(if self.ends.open.is_empty() { "idle, none open" } else { "idle, some open" });
            return;
        };
        let InLine { tag, direction, .. } = served;
        assert_eq!(outcome.answer[7], tag, "whose turn it is");
        let place = self.ends.place_of(tag).expect("a command in line is open");
        self.handed_out(place, direction, &outcome, tag);
        self.note_wait(served);
        let others = if self.ends.line.0.is_empty() { "alone" } else { "before others" };
        if self.ends.open[place].pieces[direction].are_left() {
            self.states.add(format!("served {others}, put back"));
            self.ends.line.join(tag, direction);
        } else {
            self.states.add(format!("served {others}, its last"));
        }
    }

    /// "Served within 32 of these calls unless it has left the line before, for every list of other calls between": and
    /// within as many as its place said.
    fn note_wait(&mut self, served: InLine) {
        let InLine { place, waited, .. } = served;
        assert!(waited <= place && place <= MOST, "{served:?}");
        if self.ends.line.0.iter().any(|joined| joined.waited >= joined.place) {
            panic!("one behind it should have been served: {:?}", self.ends.line.0);
        }
        self.longest_wait = self.longest_wait.max(waited);
        if waited < place {
            self.states.add("served before its place");
        }
    }

    /// The last piece of a move came by a step: it leaves the line from where it stands.
    pub(super) fn last_by_a_step(&mut self, tag: u64, direction: usize) {
        let (place, count) = self.ends.line.remove(tag, direction);
        let stood = match place {
            0 => "first",
            place if place + 1 == count => "last",
            _ => "between others",
        };
        self.states.add(format!("last by a step, {stood}"));
    }

    /// 16 commands, each way of them a move of another length: 32 are in line. Then so many events, mostly turns, some
    /// of them steps and any others.
    pub fn crowded(&mut self, most: usize) {
        self.fair = true;
        self.log_in_with(16, Limits { m: 512, q: 0 }, 1364, 0b110);
        for tag in 0..16 {
            let lengths = [0, 1].map(|_| self.random.of(&[1, 511, 512, 513, 5_000, 100_000, u32::MAX / 2]));
            self.open_with(tag, lengths);
        }
        for _ in 0..most {
            let channel = match self.random.below(60) {
                0 => self.event(),
                1..=14 => self.then(Self::step),
                _ => self.then(Self::turn),
            };
            if channel == Channel::Closed {
                return;
            }
            self.assert_balance();
        }
    }

    fn then(&mut self, event: fn(&mut Self)) -> Channel {
        event(self);
        Channel::Open
    }

    /// A command with a segment each way is sent, taken and planned, and all of it named.
    fn open_with(&mut self, tag: u64, lengths: [u32; 2]) {
        let direct = |way: usize| {
            let segment = MemoryDescriptor { address: (tag + 1) << 40, handle: way as u32, length: lengths[way] };
            Data { descriptor: Descriptor::Direct(segment), table: Vec::new() }
        };
        let msg = generate::command(&mut self.random, tag, tag % 3, 0, &[direct(0), direct(1)]);
        self.ends.to_port.push_back(Sent { msg, tables: Default::default() });
        self.ends.limit -= 1;
        while self.ends.place_of(tag).is_none() {
            self.take(); // with a short buffer now and then
        }
        self.plan_of(tag, u32::MAX, u32::MAX);
        [0, 1].into_iter().for_each(|way| self.move_of(tag, way, 0, u32::MAX));
    }
}
