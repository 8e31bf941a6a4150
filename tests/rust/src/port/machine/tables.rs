//! The event of tables that are brought.

use super::ends::{Ends, Open, Waiting};
use super::owner::{buffer, pieces_of};
use super::{Call, Machine, Target};

impl<T: Target> Machine<T> {
    /// "A new call brings the tables by tag." "Refusals 9 and 10 are made there .., 10 still answering the command."
    pub(super) fn bring(&mut self) {
        let tag = self.waiting_tag();
        let (tables, buf) = (self.tables_of(tag), buffer(&mut self.random));
        let expected = self.ends.refusal_of_tables(tag, tables.each_ref().map(Vec::as_slice), buf.len());
        let call = Call::Tables { tag, tables, buf };
        let outcome = self.counted(&call);
        assert_eq!(outcome.returned, expected, "{call:02x?}");
        let Some(place) = self.ends.place_of(tag) else {
            return;
        };
        match outcome.returned {
            0 => self.brought(place, call.tables()),
            10 => {
                if self.ends.in_the_middle(|record| record[0] == tag) {
                    self.states.add("ended by its tables in the middle");
                }
                self.ends.open.swap_remove(place);
                self.ends.line.leave(&self.ends.open);
                self.written(&outcome);
            }
            _ => {}
        }
    }

    /// Mostly of a command that waits.
    fn waiting_tag(&mut self) -> u64 {
        let waiting: Vec<u64> =
            self.ends.open.iter().filter(|command| command.waiting.is_some()).map(|command| command.tag).collect();
        if waiting.is_empty() || self.random.one_in(5) {
            self.tag()
        } else {
            waiting[self.random.below(waiting.len())]
        }
    }

    /// As they lie in the initiator's memory; now and then exchanged, of another command, of another length or altered.
    fn tables_of(&mut self, tag: u64) -> [Vec<u8>; 2] {
        let tables = |ends: &Ends, tag: u64| {
            let command = ends.place_of(tag).and_then(|place| ends.open[place].waiting.as_ref());
            command.map_or_else(Default::default, |waiting| waiting.tables.clone())
        };
        let (mut own, other) = (tables(&self.ends, tag), self.waiting_other(tag));
        let way = self.random.below(2);
        match self.random.below(20) {
            0 => own.reverse(),
            1 => own[way] = vec![0x5b; self.random.of(&[0, 16, 15])],
            2 => own[way].iter_mut().take(1).for_each(|byte| *byte ^= 0x80),
            3 => own[way].fill(0xff),
            4 => own = other.map_or(own, |other| tables(&self.ends, other)),
            _ => {}
        }
        own
    }

    /// Another command that waits.
    fn waiting_other(&self, tag: u64) -> Option<u64> {
        self.ends.open.iter().filter(|command| command.tag != tag && command.waiting.is_some()).map(|c| c.tag).next()
    }

    /// The command has its segments; its age stays that of its taking.
    fn brought(&mut self, place: usize, tables: [&[u8]; 2]) {
        let age = |ends: &Ends, tag: u64| ends.taken.iter().rposition(|&taken| taken == tag);
        let Open { tag, waiting, .. } = &self.ends.open[place];
        let Some(Waiting { descriptors, .. }) = waiting.clone() else {
            panic!("tables were accepted, and the command did not wait");
        };
        let own = age(&self.ends, *tag);
        let mut waiting = self.ends.open.iter().filter(|other| other.waiting.is_some());
        let older = waiting.any(|other| age(&self.ends, other.tag) < own);
        self.states.add(if older { "tables before those of an older one" } else { "tables of the oldest that waits" });
        let lists = [0, 1].map(|way| descriptors[way].segment_list(tables[way]));
        let command = &mut self.ends.open[place];
        command.waiting = None;
        command.pieces = lists.map(|list| pieces_of(&list));
    }
}
