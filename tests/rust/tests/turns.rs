//! Job 8 of document 02: turns over 32 moves of very unlike length, by themselves and with other calls between, judged
//! by this file's own line.

use std::collections::{BTreeMap, VecDeque};

use srp_tests::model::turns::Place;
use srp_tests::port::crowd::{
    self, crowded, lun_of, name, open, operation, pieces_of, served, task, Operation, PIECES,
};
use srp_tests::port::library::Library;
use srp_tests::port::plain::{buffer, finish};
use srp_tests::port::{Call, Target};
use srp_tests::random::Random;

type Operations = BTreeMap<(u64, u32), Vec<Operation>>;

fn key(place: Place) -> (u64, u32) {
    (place.tag, place.direction)
}

fn step(port: &mut Library, place: Place) -> Operation {
    let stepped = port.call(&Call::Step { tag: place.tag, direction: place.direction });
    assert_eq!((stepped.returned, stepped.answer[0], stepped.answer[7]), (0, 1, 0), "a piece of {place:?}");
    stepped.answer[1..7].try_into().expect("six words")
}

/// Each move's operations by single steps alone, one move after the other.
fn by_steps_alone() -> Operations {
    let (mut port, places) = crowded(Library::new(1), 1);
    let mut operations = Operations::new();
    for place in places {
        let list = (0..pieces_of(place)).map(|_| step(&mut port, place)).collect();
        operations.insert(key(place), list);
    }
    assert_eq!(served(&port.call(&Call::Turn)), None, "nothing is left");
    operations
}

/// The line with the pieces that each move has left, and what was handed out.
struct Followed {
    port: Library,
    line: VecDeque<(Place, u32)>,
    operations: Operations,
    /// Turns since each move joined or was served, and the most that one was served after.
    waits: BTreeMap<(u64, u32), u64>,
    longest: u64,
}

impl Followed {
    fn new(seed: u64) -> Self {
        let (port, places) = crowded(Library::new(seed), seed);
        let line = places.iter().map(|&place| (place, pieces_of(place))).collect();
        let waits = places.iter().map(|&place| (key(place), 0)).collect();
        Followed { port, line, operations: Operations::new(), waits, longest: 0 }
    }

    fn hand_out(&mut self, place: Place, operation: Operation) {
        self.operations.entry(key(place)).or_default().push(operation);
    }

    fn turn(&mut self) {
        let (place, operation) = served(&self.port.call(&Call::Turn)).expect("a move has pieces left");
        let (first, left) = self.line.pop_front().expect("a move in line");
        assert_eq!(place, first, "whose turn it is");
        if left > 1 {
            self.line.push_back((first, left - 1));
        }
        self.waits.values_mut().for_each(|turns| *turns += 1);
        let waited = self.waits.insert(key(place), 0).expect("a move in line");
        self.longest = self.longest.max(waited);
        self.hand_out(place, operation);
    }

    /// A single step of a move that stands somewhere in line.
    fn step(&mut self, at: usize) {
        let (place, left) = self.line[at];
        let operation = step(&mut self.port, place);
        self.hand_out(place, operation);
        if left > 1 {
            self.line[at].1 = left - 1;
        } else {
            self.line.remove(at);
            self.waits.remove(&key(place));
        }
    }

    /// "The call says idle only with an empty line", and then each time; a step of each says done, with its number.
    fn assert_nothing_left(&mut self) {
        assert_eq!([0; 2].map(|_| served(&self.port.call(&Call::Turn))), [None; 2], "idle");
        for (tag, pieces) in (0..).zip(PIECES) {
            for (direction, pieces) in (0..).zip(pieces) {
                let done = self.port.call(&Call::Step { tag, direction });
                assert_eq!((done.returned, done.answer), (0, [0, 0, 0, 0, 0, 0, pieces.into(), 0]), "{tag}");
            }
        }
    }
}

#[test]
fn by_turns_alone() {
    let mut followed = Followed::new(1);
    while !followed.line.is_empty() {
        followed.turn();
    }
    followed.assert_nothing_left();
    assert_eq!(followed.longest, 32, "turns that a move waited");
    let expected = by_steps_alone();
    assert!(followed.operations == expected, "each command's operations as by steps");
    for (&(tag, direction), list) in &expected {
        let place = Place::new(tag, direction);
        let cut: Vec<Operation> = (1..=pieces_of(place).into()).map(|number| operation(place, number)).collect();
        assert_eq!(*list, cut, "{place:?}");
    }
    println!("by turns alone: {} pieces", expected.values().map(Vec::len).sum::<usize>());
}

#[test]
fn with_steps_between() {
    let (expected, mut pieces) = (by_steps_alone(), 0);
    for seed in 2..12 {
        let (mut followed, mut random) = (Followed::new(seed), Random::new(seed));
        let share = random.of(&[2, 3, 10, 100]);
        while !followed.line.is_empty() {
            if random.one_in(share) {
                followed.step(random.below(followed.line.len()));
            } else {
                followed.turn();
            }
        }
        followed.assert_nothing_left();
        assert!(followed.operations == expected, "each command's operations, seed {seed}");
        assert!(followed.longest <= 32, "{} turns", followed.longest);
        pieces += expected.values().map(Vec::len).sum::<usize>();
    }
    println!("turns with steps between: {pieces} pieces");
}

/// The order of the next turns, as many as there are moves in line.
fn order(port: &mut Library) -> Vec<Place> {
    let mut order = Vec::new();
    while let Some((place, _)) = served(&port.call(&Call::Turn)) {
        if order.contains(&place) {
            break;
        }
        order.push(place);
    }
    order
}

/// From the line as it stands after some turns: each command finished, each aborted by its tag, and those of each LUN.
/// Both moves of a command leave; the others keep their order.
#[test]
fn endings_take_both_moves_out() {
    let mut endings = 0;
    for turns in [0, 1, 5, 31, 32, 700] {
        let mut followed = Followed::new(20 + turns);
        (0..turns).for_each(|_| followed.turn());
        let (memory, line) = (followed.port.memory.clone(), followed.line);
        let mut port = followed.port;
        let mut assert_left = |ending: &Call, ends: &dyn Fn(u64) -> bool| {
            port.memory.clone_from(&memory);
            assert_eq!(port.call(ending).returned, 0, "{ending:x?}");
            let left: Vec<Place> = line.iter().map(|&(place, _)| place).filter(|place| !ends(place.tag)).collect();
            assert_eq!(order(&mut port), left, "after {turns} turns: {ending:x?}");
            endings += 1;
        };
        for ended in 0..16 {
            assert_left(&finish(ended), &|tag| tag == ended);
        }
    }
    assert_eq!(endings, 6 * 16);
}

/// A task request has credit only where a buffer is left: 15 commands are open.
#[test]
fn aborts_take_both_moves_out() {
    let (mut port, places) = crowded(Library::new(31), 31);
    assert_eq!(port.call(&finish(15)).returned, 0, "finish");
    let memory = port.memory.clone();
    let line: Vec<Place> = places.into_iter().filter(|place| place.tag != 15).collect();
    let mut assert_left = |abort: Call, ends: &dyn Fn(u64) -> bool| {
        port.memory.clone_from(&memory);
        assert_eq!(port.call(&abort).returned, 0, "{abort:x?}");
        let left: Vec<Place> = line.iter().copied().filter(|place| !ends(place.tag)).collect();
        assert_eq!(order(&mut port), left, "{abort:x?}");
    };
    for ended in 0..15 {
        assert_left(task(1, lun_of(ended), ended), &|tag| tag == ended);
        assert_left(task(1, lun_of(ended) + 1, ended), &|_| false);
        assert_left(task(0x40, lun_of(ended), ended), &|_| false);
    }
    for (function, lun) in [2, 4, 8].into_iter().flat_map(|function| (0..6).map(move |lun| (function, lun))) {
        assert_left(task(function, lun, 3), &|tag| lun_of(tag) == lun);
    }
}

/// "A tag used again has no move until one is named": a finished command's tag, taken once more and moved.
#[test]
fn a_tag_used_again() {
    let (mut port, places) = crowded(Library::new(32), 32);
    let ended = places[3].tag;
    assert_eq!(port.call(&finish(ended)).returned, 0, "finish");
    let mut line: Vec<Place> = places.into_iter().filter(|place| place.tag != ended).collect();
    open(&mut port, ended, [4, 4]);
    let memory = port.memory.clone();
    assert_eq!(order(&mut port), line, "no move is named");
    port.memory = memory;
    let again = Place::new(ended, 1);
    name(&mut port, again, 4);
    line.push(again);
    let first = operation(again, 1);
    let last = (0..31).map(|_| served(&port.call(&Call::Turn))).last().flatten();
    assert_eq!((last, line.len()), (Some((again, first)), 31), "at the end of the line, with its first piece");
}

/// Close, a logout and a hang-up leave nothing in line, and after a new login nothing is.
#[test]
fn a_closed_port() {
    let (port, _) = crowded(Library::new(33), 33);
    let message = |kind: u8, length: usize| {
        let mut msg = vec![0; length];
        msg[0] = kind;
        Call::Take { msg, buf: buffer(132) }
    };
    let close = Call::Close { reason: 1, buf: buffer(132) };
    for ending in [close, message(0x03, 16), message(0x03, 15), message(0x07, 16)] {
        let mut closed = Library::new(34);
        closed.memory = port.memory.clone();
        closed.call(&ending);
        let turn = closed.call(&Call::Turn);
        assert_eq!((turn.returned, turn.answer), (21, [0; 8]), "{ending:x?}");
        crowd::log_in(&mut closed);
        assert_eq!(served(&closed.call(&Call::Turn)), None, "idle after a login");
        open(&mut closed, 3, [1, 2]);
        assert_eq!(served(&closed.call(&Call::Turn)), None, "no move is named");
    }
}

/// Every bit of a tag: two commands whose tags differ in it are two, and a turn says which.
#[test]
fn each_bit_of_a_tag() {
    for bit in 0..64 {
        let mut port = Library::new(bit);
        crowd::log_in(&mut port);
        let tags = [0x5a5a_0f0f_3c3c_9696, 0x5a5a_0f0f_3c3c_9696 ^ 1 << bit];
        let places = tags.map(|tag| Place::new(tag, 1));
        tags.iter().for_each(|&tag| open(&mut port, tag, [0, 3]));
        places.iter().for_each(|&place| name(&mut port, place, 3));
        let turns = [0; 3].map(|_| served(&port.call(&Call::Turn)).map(|(place, _)| place));
        assert_eq!(turns, [Some(places[0]), Some(places[1]), Some(places[0])], "bit {bit}");
        assert_eq!(port.call(&finish(tags[0])).returned, 0, "finish");
        assert_eq!(order(&mut port), [places[1]], "bit {bit}");
    }
}
