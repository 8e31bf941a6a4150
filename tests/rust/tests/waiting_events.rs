//! Job 7 of document 02: every list of a few events on commands that wait, told by tag: taken, brought their tables,
//! right ones, of another length, with other content, or those of an earlier command with the tag; aborted, finished.
//! Judged by this file's own list of the commands.

use srp_tests::port::call::{Call, Target};
use srp_tests::port::generate::request_with;
use srp_tests::port::library::Library;
use srp_tests::port::plain::{finish, login, tables, take};
use srp_tests::port::waiting::{draws, Waiting, SHAPES};
use srp_tests::random::Random;
use srp_tests::tally::Tally;

#[derive(Clone, Copy, Debug)]
enum Event {
    Take,
    Bring,
    BringShort,
    BringBad,
    BringOld,
    Abort,
    Finish,
}

use Event::{Abort, Bring, BringBad, BringOld, BringShort, Finish, Take};

const EVENTS: [Event; 7] = [Take, Bring, BringShort, BringBad, BringOld, Abort, Finish];

/// A tag's command, and whether it waits; the one before it; and how many it had.
#[derive(Clone, Default)]
struct Tag {
    open: Option<(Waiting, bool)>,
    earlier: Option<Waiting>,
    serial: u64,
}

/// The library's port, and beside it the commands of two tags, 0 and 1; the tags as they were taken.
struct Followed {
    port: Library,
    tags: [Tag; 2],
    order: Vec<u64>,
    outcomes: Tally,
}

impl Followed {
    fn after_login() -> Self {
        let (mut port, mut random) = (Library::new(71), Random::new(71));
        assert_eq!(port.call(&login(&mut random, 16, 512, 1364, 0b110)).returned, 0, "login");
        Followed { port, tags: Default::default(), order: Vec::new(), outcomes: Tally::default() }
    }

    /// The tables that an event brings; none that fit anything where there is no command.
    fn tables_of(&self, tag: u64, event: Event) -> Call {
        let Tag { open, earlier, .. } = &self.tags[tag as usize];
        let none = Waiting { tag, msg: vec![], segments: Default::default(), tables: [vec![0; 16], vec![]] };
        let mut command = open.as_ref().map_or(none.clone(), |(command, _)| command.clone());
        let [out, inn] = &mut command.tables;
        match event {
            BringShort => drop(if out.is_empty() { inn.pop() } else { out.pop() }),
            BringBad => if out.is_empty() { inn } else { out }.fill(0xff),
            BringOld => command.tables = earlier.as_ref().map_or(none.tables, |earlier| earlier.tables.clone()),
            _ => {}
        }
        tables(tag, [&command.tables[0], &command.tables[1]])
    }

    /// What bringing these draws: 24, 33, 9 and 10 in this order. Whole tables of the command's own lengths are right
    /// where they are its own.
    fn draws(&self, tag: u64, call: &Call) -> u32 {
        match &self.tags[tag as usize].open {
            None => 24,
            Some((_, false)) => 33,
            Some((command, true)) => {
                let own = command.tables.each_ref().map(Vec::as_slice);
                match call.tables() {
                    lent if lent.map(<[u8]>::len) != own.map(<[u8]>::len) => 9,
                    lent if lent != own => 10,
                    _ => 0,
                }
            }
        }
    }

    /// The number of the event is lawful: a tag that is open is not taken once more, since that closes the channel.
    fn can_happen(&self, event: Event, tag: u64) -> bool {
        !matches!(event, Take) || self.tags[tag as usize].open.is_none()
    }

    fn happen(&mut self, event: Event, tag: u64) {
        let returned = match event {
            Take => self.take(tag),
            Abort => self.abort(tag),
            Finish => self.finish(tag),
            _ => self.bring(event, tag),
        };
        self.outcomes.add(format!("{event:?}: {returned}"));
        self.assert_counted();
    }

    /// Every second time the tables are as long as those before.
    fn take(&mut self, tag: u64) -> u32 {
        let serial = self.tags[tag as usize].serial;
        let command = Waiting::new(tag, 2 * serial + tag, SHAPES[(serial / 2 + 2 * tag) as usize % SHAPES.len()]);
        let taken = self.port.call(&take(&command.msg));
        assert_eq!((taken.returned, taken.answer[6]), (0, 1), "taken, and waits");
        assert_eq!(draws(&mut self.port, tag), [33; 4], "plan, move, step and finish while it waits");
        let earlier = self.tags[tag as usize].earlier.take();
        self.tags[tag as usize] = Tag { open: Some((command, true)), earlier, serial: serial + 1 };
        self.order.push(tag);
        0
    }

    fn bring(&mut self, event: Event, tag: u64) -> u32 {
        let call = self.tables_of(tag, event);
        let expected = self.draws(tag, &call);
        let brought = self.port.call(&call);
        assert_eq!(brought.returned, expected, "{event:?} of {tag}");
        match (expected, &mut self.tags[tag as usize].open) {
            (0, Some((command, waits))) => {
                *waits = false;
                let ready = self.port.memory.clone();
                command.assert_carried_out(&mut self.port);
                self.port.memory = ready;
            }
            (10, _) => {
                assert_eq!((brought.message().len(), brought.buf[15], brought.buf[39]), (40, tag as u8, 2), "answered");
                self.end(tag);
            }
            _ => assert_eq!(brought.answer, [0; 8], "nothing is answered"),
        }
        expected
    }

    fn abort(&mut self, tag: u64) -> u32 {
        let mut msg = request_with(vec![0; 48], 0xffff, tag % 2);
        (msg[0], msg[30]) = (0x01, 0x01);
        msg[32..40].copy_from_slice(&tag.to_be_bytes());
        assert_eq!(self.port.call(&take(&msg)).returned, 0, "a task request");
        self.end(tag);
        0
    }

    fn finish(&mut self, tag: u64) -> u32 {
        let expected = match &self.tags[tag as usize].open {
            None => 24,
            Some((_, waits)) => 33 * u32::from(*waits),
        };
        assert_eq!(self.port.call(&finish(tag)).returned, expected, "finish of {tag}");
        if expected == 0 {
            self.end(tag);
        }
        expected
    }

    fn end(&mut self, tag: u64) {
        if let Some((command, _)) = self.tags[tag as usize].open.take() {
            self.tags[tag as usize].earlier = Some(command);
        }
        self.order.retain(|&open| open != tag);
    }

    /// Held are those that wait and those that do not; none is owed, since each end is answered at once.
    fn assert_counted(&mut self) {
        let (held, counters) = (self.order.len() as u64, self.port.call(&Call::Counters).answer);
        assert_eq!(counters, [16, 16 - held, held, 0, 0, 0, 0, 0], "W, A, H, D");
        let listed = self.port.call(&Call::List { records: vec![0x5b; 64] }).records;
        let expected: Vec<u64> = self.order.iter().flat_map(|&tag| [tag, tag % 2, 0, 0]).collect();
        assert_eq!(listed[..expected.len()], expected, "listed as they were taken");
    }

    /// Every list of so many events more, each from the state before it; how many events that were.
    fn every_list(&mut self, tags: u64, most: u32) -> u64 {
        let (memory, own, order) = (self.port.memory.clone(), self.tags.clone(), self.order.clone());
        let mut happened = 0;
        for (event, tag) in EVENTS.into_iter().flat_map(|event| (0..tags).map(move |tag| (event, tag))) {
            if most > 0 && self.can_happen(event, tag) {
                self.happen(event, tag);
                happened += 1 + self.every_list(tags, most - 1);
                self.port.memory.clone_from(&memory);
                self.tags.clone_from(&own);
                self.order.clone_from(&order);
            }
        }
        happened
    }
}

/// What each event comes to.
const OUTCOMES: [&str; 18] = [
    "Abort: 0",
    "Bring: 0",
    "Bring: 24",
    "Bring: 33",
    "BringBad: 10",
    "BringBad: 24",
    "BringBad: 33",
    "BringOld: 10",
    "BringOld: 24",
    "BringOld: 33",
    "BringOld: 9",
    "BringShort: 24",
    "BringShort: 33",
    "BringShort: 9",
    "Finish: 0",
    "Finish: 24",
    "Finish: 33",
    "Take: 0",
];

#[test]
fn every_list_of_four_with_two_tags() {
    let mut port = Followed::after_login();
    let events = port.every_list(2, 4);
    port.outcomes.print_as("waiting, every list of four with two tags", "events");
    assert_eq!(port.outcomes.total(), events);
    port.outcomes.assert_each(50, &OUTCOMES);
}

/// Long enough for a tag to come again twice.
#[test]
fn every_list_of_six_with_one_tag() {
    let mut port = Followed::after_login();
    let events = port.every_list(1, 6);
    port.outcomes.print_as("waiting, every list of six with one tag", "events");
    assert_eq!(port.outcomes.total(), events);
    port.outcomes.assert_each(5, &OUTCOMES);
}

#[test]
fn long_lists() {
    let (mut port, mut random) = (Followed::after_login(), Random::new(72));
    for _ in 0..20_000 {
        let (event, tag) = (random.of(&EVENTS), random.up_to(1));
        if port.can_happen(event, tag) {
            port.happen(event, tag);
        }
    }
    port.outcomes.print_as("waiting, long lists", "events");
    port.outcomes.assert_each(100, &OUTCOMES);
}
