//! The events of moves: plan, move and step. Each asserts the refusal that `expected` says.

use super::pieces::Pieces;
use super::{Call, Machine, Outcome, Target};
use crate::limits::Limits;

impl<T: Target> Machine<T> {
    /// Mostly a direction that the test names.
    fn tag_and_direction(&mut self, test: fn(&Pieces) -> bool) -> (u64, usize) {
        let (tag, direction) = (self.tag(), self.random.below(2));
        let any = [0, 1].into_iter().flat_map(|at| self.ends.open.iter().map(move |command| (command, at)));
        let some: Vec<(u64, usize)> =
            any.filter(|(command, at)| test(&command.pieces[*at])).map(|(command, at)| (command.tag, at)).collect();
        if some.is_empty() || self.random.one_in(5) {
            (tag, direction)
        } else {
            some[self.random.below(some.len())]
        }
    }

    pub(super) fn plan(&mut self) {
        let tag = self.tag();
        let [r_out, r_in] = [0, 1].map(|_| match self.random.below(3) {
            0 => u32::MAX,
            1 => self.random.below(3000) as u32,
            _ => self.random.any_size(),
        });
        self.plan_of(tag, r_out, r_in);
    }

    pub(super) fn plan_of(&mut self, tag: u64, r_out: u32, r_in: u32) {
        let outcome = self.counted(&Call::Plan { tag, r_out, r_in });
        assert_eq!(outcome.returned, self.ends.refusal_of_plan(tag), "plan");
        if let (0, Some(place)) = (outcome.returned, self.ends.place_of(tag)) {
            let command = &mut self.ends.open[place];
            command.planned = true;
            command.pieces[0].plan(r_out);
            command.pieces[1].plan(r_in);
        }
    }

    /// Offset and count: mostly of a few pieces, and around min(R, B) and a segment's start.
    fn range(&mut self, pieces: &Pieces) -> [u32; 2] {
        let (due, m, random) = (pieces.due(), u64::from(self.ends.login.limits.m), &mut self.random);
        let (below, any) = (random.up_to(due), random.any_size().into());
        let start = (pieces.start(random) + random.up_to(2)).saturating_sub(1).min(due);
        let offset =
            random.of(&[0, 0, below, below, start, start, pieces.highest, due, due.saturating_sub(1), due + 1, any]);
        let rest = due.saturating_sub(offset);
        let (some, any) = (1 + random.up_to(3 * m), random.any_size().into());
        let count = random.of(&[some, some, some, 0, m, rest, rest + 1, any, u32::MAX.into(), (1 << 32) - below]);
        [offset, count].map(|number| number.min(u32::MAX.into()) as u32)
    }

    /// "After plan, the owner names a move"; "the naming of a move as one more event".
    pub(super) fn name_move(&mut self) {
        let (tag, direction) = self.tag_and_direction(|pieces| pieces.due() > 0 && !pieces.are_left());
        let place = self.ends.place_of(tag);
        let pieces = place.map_or(Pieces::new(&[]), |place| self.ends.open[place].pieces[direction].clone());
        let [offset, count] = self.range(&pieces);
        self.move_of(tag, direction, offset, count);
    }

    pub(super) fn move_of(&mut self, tag: u64, direction: usize, offset: u32, count: u32) {
        let place = self.ends.place_of(tag);
        let number = place.map_or(0, |place| self.ends.open[place].pieces[direction].number);
        let call = Call::Move { tag, direction: direction as u32, offset, count };
        let outcome = self.counted(&call);
        assert_eq!(outcome.returned, self.ends.refusal_of_move(tag, direction, offset), "{call:x?}");
        if number > 0 {
            let refused = if outcome.returned == 0 { "" } else { ", refused" };
            self.states.add(format!("move after operations{refused}"));
        }
        if let (0, Some(place)) = (outcome.returned, place) {
            let pieces = &mut self.ends.open[place].pieces[direction];
            pieces.name(offset, count, self.ends.login.limits);
            if pieces.are_left() {
                pieces.position(offset).for_each(|kind| self.states.add(kind));
                self.ends.line.join(tag, direction);
            }
        }
    }

    /// "A command's operations are now the cuts of its moves in the order named." "An unrefused step says done exactly
    /// when all those of its command and direction were handed out before it." Its number is what was handed out since
    /// the move was named, "their own piece included".
    pub(super) fn step(&mut self) {
        let again = self.random.one_in(8);
        let (tag, direction) = self.tag_and_direction(if again { Pieces::are_handed_out } else { Pieces::are_left });
        let outcome = self.counted(&Call::Step { tag, direction: direction as u32 });
        assert_eq!(outcome.returned, self.ends.refusal_of_step(tag), "step");
        if let (0, Some(place)) = (outcome.returned, self.ends.place_of(tag)) {
            self.handed_out(place, direction, &outcome, 0);
            let pieces = &self.ends.open[place].pieces[direction];
            if outcome.answer[0] == 0 {
                assert_eq!(outcome.answer[6], pieces.list, "\"the length of its cut list\"");
                let many = ["none", "one", "several"][pieces.number.min(2) as usize];
                self.states.add(format!("done after {many}"));
            } else if !pieces.are_left() {
                self.last_by_a_step(tag, direction);
            }
        }
    }

    /// The next operation of a direction, or that there is none; in the last word what the call has there.
    pub(super) fn handed_out(&mut self, place: usize, direction: usize, outcome: &Outcome, last: u64) {
        let pieces = &mut self.ends.open[place].pieces[direction];
        pieces.number += u64::from(outcome.answer[0] == 1);
        let expected = match pieces.next(self.ends.login.limits) {
            Some([handle, address, length, offset]) => {
                [1, direction as u64 + 1, handle, address, length, offset, pieces.number, last]
            }
            None => [0, 0, 0, 0, 0, 0, pieces.number, last],
        };
        assert_eq!(outcome.answer, expected, "the operation, or none");
        if let [1, _, _, address, length, ..] = outcome.answer {
            let inside = pieces.inside;
            self.judge_boundary(address, length, inside);
        }
    }

    /// "Adapters fail an operation that crosses a multiple of a power of two": none does, from its first address to its
    /// last.
    fn judge_boundary(&mut self, address: u64, length: u64, inside: bool) {
        let (Limits { m, q }, last) = (self.ends.login.limits, address + (length - 1));
        assert_eq!(address.checked_div(q), last.checked_div(q), "{length} bytes at {address:x}, Q {q}");
        let states = [
            (inside && length < m.into(), "ended by a boundary"),
            (q > 0 && length == q, "from a boundary to the next"),
            (q > 0 && last == u64::MAX, "up to 2^64, with a boundary"),
        ];
        states.into_iter().filter(|(is, _)| *is).for_each(|(_, state)| self.states.add(state));
    }
}
