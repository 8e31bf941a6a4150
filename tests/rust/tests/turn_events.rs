//! Job 8 of document 02: every list of a few events on two commands whose moves are in line, judged by this file's own
//! line: moves with pieces and without, steps, turns, endings, a tag used again.

use srp_tests::model::turns::Place;
use srp_tests::port::crowd::{log_in, lun_of, open, operation, served, task, Operation, M};
use srp_tests::port::library::Library;
use srp_tests::port::plain::finish;
use srp_tests::port::{Call, Target};
use srp_tests::random::Random;
use srp_tests::tally::Tally;

/// Pieces that a command has each way.
const PIECES: u32 = 2;

#[derive(Clone, Copy, Debug)]
enum Event {
    Open(u64),
    Move(Place),
    EmptyMove(Place),
    Step(Place),
    Turn,
    Finish(u64),
    Abort(u64),
}

use Event::{Abort, EmptyMove, Finish, Move, Open, Step, Turn};

/// Those on some tags, in both directions.
fn events(tags: u64) -> Vec<Event> {
    let places: Vec<Place> = (0..2 * tags).map(|at| Place::new(at / 2, at as u32 % 2)).collect();
    let of_places: [fn(Place) -> Event; 3] = [Move, EmptyMove, Step];
    let of_tags: [fn(u64) -> Event; 3] = [Open, Finish, Abort];
    let moves = of_places.into_iter().flat_map(|event| places.iter().map(move |&place| event(place)));
    let others = of_tags.into_iter().flat_map(|event| (0..tags).map(event));
    moves.chain(others).chain([Turn]).collect()
}

/// A direction's current move: how many pieces it has, and how many were handed out.
type Current = (u32, u32);

/// The library's port; beside it the moves of the open commands, and the moves in line.
struct Followed {
    port: Library,
    open: [Option<[Current; 2]>; 2],
    line: Vec<Place>,
    outcomes: Tally,
}

impl Followed {
    fn after_login() -> Self {
        let mut port = Library::new(82);
        log_in(&mut port);
        Followed { port, open: [None; 2], line: Vec::new(), outcomes: Tally::default() }
    }

    fn current(&mut self, place: Place) -> Option<&mut Current> {
        self.open[place.tag as usize].as_mut().map(|moves| &mut moves[place.direction as usize])
    }

    /// A tag that is open is not taken once more, since that closes the channel.
    fn can_happen(&self, event: Event) -> bool {
        !matches!(event, Open(tag) if self.open[tag as usize].is_some())
    }

    fn happen(&mut self, event: Event) {
        let (name, came_to) = match event {
            Open(tag) => {
                open(&mut self.port, tag, [PIECES; 2]);
                self.open[tag as usize] = Some([(0, 0); 2]);
                ("open", "done".into())
            }
            Move(place) => ("move", self.name(place, PIECES)),
            EmptyMove(place) => ("move without bytes", self.name(place, 0)),
            Step(place) => ("step", self.step(place)),
            Turn => ("turn", self.turn()),
            Finish(tag) => ("finish", self.finish(tag)),
            Abort(tag) => {
                assert_eq!(self.port.call(&task(1, lun_of(tag), tag)).returned, 0, "a task request");
                self.end(tag);
                ("abort", "done".into())
            }
        };
        self.outcomes.add(format!("{name}: {came_to}"));
    }

    /// "32 the direction's earlier move still has pieces."
    fn name(&mut self, place: Place, pieces: u32) -> String {
        let Place { tag, direction } = place;
        let expected = self.current(place).map_or(24, |&mut (all, handed)| if handed < all { 32 } else { 0 });
        let named = self.port.call(&Call::Move { tag, direction, offset: 0, count: M * pieces });
        assert_eq!(named.returned, expected, "move of {place:?}");
        if let (0, Some(current)) = (expected, self.current(place)) {
            *current = (pieces, 0);
            self.line.extend((pieces > 0).then_some(place));
        }
        named.returned.to_string()
    }

    /// The next piece of a move, if it has one.
    fn next(&mut self, place: Place) -> Option<(Operation, bool)> {
        let (all, handed) = self.current(place).filter(|(all, handed)| handed < all)?;
        *handed += 1;
        Some((operation(place, (*handed).into()), handed == all))
    }

    fn step(&mut self, place: Place) -> String {
        let Place { tag, direction } = place;
        let number = self.current(place).map(|(_, handed)| u64::from(*handed));
        let stepped = self.port.call(&Call::Step { tag, direction });
        let Some(number) = number else {
            assert_eq!((stepped.returned, stepped.answer), (24, [0; 8]), "step of {place:?}");
            return "24".into();
        };
        match self.next(place) {
            None => {
                assert_eq!((stepped.returned, stepped.answer), (0, [0, 0, 0, 0, 0, 0, number, 0]), "{place:?}");
                "done".into()
            }
            Some((piece, last)) => {
                assert_eq!((stepped.returned, &stepped.answer[1..7], stepped.answer[7]), (0, &piece[..], 0));
                let stood = self.line.iter().position(|other| *other == place).expect("in line");
                if last {
                    self.line.remove(stood);
                }
                let whose = if stood == 0 { "first" } else { "another" };
                format!("{} of {whose}", if last { "last" } else { "not last" })
            }
        }
    }

    fn turn(&mut self) -> String {
        let turn = served(&self.port.call(&Call::Turn));
        if self.line.is_empty() {
            assert_eq!(turn, None, "idle");
            return "idle".into();
        }
        let first = self.line.remove(0);
        let (piece, last) = self.next(first).expect("a move in line has pieces");
        assert_eq!(turn, Some((first, piece)), "whose turn it is");
        if !last {
            self.line.push(first);
        }
        if last { "last" } else { "not last" }.into()
    }

    fn finish(&mut self, tag: u64) -> String {
        let expected = if self.open[tag as usize].is_some() { 0 } else { 24 };
        assert_eq!(self.port.call(&finish(tag)).returned, expected, "finish of {tag}");
        self.end(tag);
        expected.to_string()
    }

    fn end(&mut self, tag: u64) {
        self.open[tag as usize] = None;
        self.line.retain(|place| place.tag != tag);
    }

    /// Every list of so many events more, each from the state before it; how many events that were.
    fn every_list(&mut self, events: &[Event], most: u32) -> u64 {
        let (memory, open, line) = (self.port.memory.clone(), self.open, self.line.clone());
        let mut happened = 0;
        for &event in events.iter().filter(|_| most > 0) {
            if self.can_happen(event) {
                self.happen(event);
                happened += 1 + self.every_list(events, most - 1);
                self.port.memory.clone_from(&memory);
                self.open = open;
                self.line.clone_from(&line);
            }
        }
        happened
    }
}

/// What each event comes to.
const OUTCOMES: [&str; 19] = [
    "abort: done",
    "finish: 0",
    "finish: 24",
    "move without bytes: 0",
    "move without bytes: 24",
    "move without bytes: 32",
    "move: 0",
    "move: 24",
    "move: 32",
    "open: done",
    "step: 24",
    "step: done",
    "step: last of another",
    "step: last of first",
    "step: not last of another",
    "step: not last of first",
    "turn: idle",
    "turn: last",
    "turn: not last",
];

/// From a port where two commands are open, and three moves in line.
#[test]
fn every_list_of_four_with_two_tags() {
    let mut port = Followed::after_login();
    let moves = [Place::new(1, 0), Place::new(0, 1), Place::new(1, 1)].map(Move);
    [Open(0), Open(1)].into_iter().chain(moves).for_each(|event| port.happen(event));
    port.outcomes = Tally::default();
    let events = port.every_list(&events(2), 4);
    port.outcomes.print_as("turns, every list of four with two tags", "events");
    assert_eq!(port.outcomes.total(), events);
    port.outcomes.assert_each(30, &OUTCOMES);
}

/// Long enough for moves to be finished, and for a tag to come again.
#[test]
fn every_list_of_five_with_one_tag() {
    let mut port = Followed::after_login();
    port.happen(Open(0));
    let events = port.every_list(&events(1), 5);
    port.outcomes.print_as("turns, every list of five with one tag", "events");
    assert_eq!(port.outcomes.total(), events + 1);
    port.outcomes.assert_each(20, &OUTCOMES);
}

#[test]
fn long_lists() {
    let (mut port, mut random, events) = (Followed::after_login(), Random::new(83), events(2));
    for _ in 0..40_000 {
        let event = if random.one_in(4) { Turn } else { random.of(&events) };
        let ends = matches!(event, Finish(_) | Abort(_));
        if port.can_happen(event) && (!ends || random.one_in(4)) {
            port.happen(event);
        }
    }
    port.outcomes.print_as("turns, long lists", "events");
    port.outcomes.assert_each(100, &OUTCOMES);
}
