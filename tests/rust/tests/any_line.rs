//! Job 8 of document 02: lines that no calls left, in words written by hand. Any words are a port, so each turn has its
//! outcome.

use srp_tests::model::turns::Place;
use srp_tests::port::crowd::{crowded, lun_of, served, task, PIECES};
use srp_tests::port::library::Library;
use srp_tests::port::plain::finish;
use srp_tests::port::slots::{line, ring, word_of, COUNT, FIRST};
use srp_tests::port::{Call, Target};

const OUT: u32 = 0;
const IN: u32 = 1;
/// The tag of no open command.
const UNKNOWN: u64 = 0x77;

/// 16 commands with moves each way, and these in line, from that place of the ring on.
fn with_line(first: u64, places: &[(u64, u32)]) -> Library {
    let (mut port, _) = crowded(Library::new(91), 91);
    (port.memory.words[FIRST], port.memory.words[COUNT]) = (first, places.len() as u64);
    for (at, &(tag, direction)) in places.iter().enumerate() {
        let at = ring((first % 32) as usize + at);
        (port.memory.words[at], port.memory.words[at + 1]) = (tag, direction.into());
    }
    port
}

fn stands(port: &Library) -> Vec<(u64, u32)> {
    line(&port.memory).iter().map(|place| (place.tag, place.direction)).collect()
}

fn turn(port: &mut Library) -> Option<(u64, u32)> {
    served(&port.call(&Call::Turn)).map(|(Place { tag, direction }, _)| (tag, direction))
}

fn turns<const N: usize>(port: &mut Library) -> [Option<(u64, u32)>; N] {
    [0; N].map(|_| turn(port))
}

/// A move that stands twice is served twice in a round, and each time goes to the end.
#[test]
fn twice_in_line() {
    let mut port = with_line(30, &[(0, IN), (2, OUT), (0, IN)]);
    let round = [Some((0, IN)), Some((2, OUT)), Some((0, IN))];
    assert_eq!([turns::<3>(&mut port), turns::<3>(&mut port)], [round; 2]);
    assert_eq!(stands(&port), [(0, IN), (2, OUT), (0, IN)]);
}

/// Its last piece by a turn takes one of the two away; what is left then has no pieces, and is idle for good.
#[test]
fn twice_in_line_without_pieces() {
    let mut port = with_line(0, &[(3, OUT), (3, OUT), (2, OUT)]);
    assert_eq!(PIECES[3][0], 1, "one piece");
    assert_eq!(turns::<3>(&mut port), [Some((3, OUT)), None, None]);
    assert_eq!(stands(&port), [(3, OUT), (2, OUT)], "idle alters nothing");
}

/// Its last piece by a step takes both away.
#[test]
fn a_step_takes_all_out() {
    let mut port = with_line(31, &[(2, OUT), (3, OUT), (3, IN), (3, OUT)]);
    assert_eq!(port.call(&Call::Step { tag: 3, direction: OUT }).answer[0], 1, "a piece");
    assert_eq!(stands(&port), [(2, OUT), (3, IN)]);
    assert_eq!(turns::<3>(&mut port), [Some((2, OUT)), Some((3, IN)), Some((2, OUT))]);
}

/// The first of the line decides: with a tag that is not open nothing behind it is served.
#[test]
fn an_unknown_tag() {
    let mut port = with_line(5, &[(2, OUT), (UNKNOWN, IN), (2, IN)]);
    assert_eq!(turns::<3>(&mut port), [Some((2, OUT)), None, None]);
    assert_eq!(stands(&port), [(UNKNOWN, IN), (2, IN), (2, OUT)]);
    // No ending takes it out, since no command with its tag ends.
    assert_eq!(port.call(&finish(2)).returned, 0, "finish");
    assert_eq!((stands(&port), turn(&mut port)), (vec![(UNKNOWN, IN)], None));
}

/// More than 32 are read as 32; where the line begins is read modulo 32; only bit 0 of a direction is read.
#[test]
fn numbers_out_of_range() {
    for (first, count) in [(32, 33), (63, 1 << 40), (u64::MAX, u64::MAX), (1 << 32, 32)] {
        let (mut port, places) = crowded(Library::new(92), 92);
        let begins = (first % 32) as usize;
        for (at, place) in places.iter().enumerate() {
            let at = ring(begins + at);
            (port.memory.words[at], port.memory.words[at + 1]) = (place.tag, u64::from(place.direction) + (first << 1));
        }
        (port.memory.words[FIRST], port.memory.words[COUNT]) = (first, count);
        let order: Vec<_> = (0..32).map(|_| turn(&mut port)).collect();
        let expected: Vec<_> = places.iter().map(|place| Some((place.tag, place.direction))).collect();
        assert_eq!(order, expected, "first {first:x}, count {count:x}");
    }
}

/// A move joins no line that is full, and is served by steps alone.
#[test]
fn a_full_line() {
    let mut port = with_line(7, &[(2, OUT); 32]);
    assert_eq!(port.call(&Call::Step { tag: 3, direction: OUT }).answer[0], 1, "its only piece");
    let before = stands(&port);
    assert_eq!(port.call(&Call::Move { tag: 3, direction: OUT, offset: 0, count: 5 }).returned, 0, "move");
    assert_eq!(stands(&port), before);
    assert_eq!(port.call(&Call::Step { tag: 3, direction: OUT }).answer[0], 1, "a piece");
    // With one place free it joins, at the end.
    port.memory.words[COUNT] = 31;
    assert_eq!(port.call(&Call::Move { tag: 3, direction: OUT, offset: 0, count: 5 }).returned, 0, "move");
    assert_eq!(stands(&port), [&before[..31], &[(3, OUT)]].concat());
}

/// Two open commands with one tag: the first of them counts, for turns and for endings.
#[test]
fn two_commands_of_one_tag() {
    let line = [(9, OUT), (4, OUT), (0, IN)];
    let mut port = with_line(0, &line);
    assert_eq!(port.call(&finish(15)).returned, 0, "a buffer for a task request");
    // Commands 4 and 9 are in the slots of these numbers. The second one gets the tag of the first, and another LUN.
    (port.memory.words[word_of(9, 0)], port.memory.words[word_of(9, 1)]) = (4, 7);
    port.memory.words[FIRST] = 1;
    port.memory.words[COUNT] = 2;
    let before = port.memory.clone();
    assert_eq!(port.call(&Call::Turn).answer[3] >> 32, 5, "an address of the first one's");

    port.memory = before;
    assert_eq!(port.call(&task(2, 7, 0)).returned, 0, "the second one ends");
    assert_eq!(stands(&port), line[1..], "its moves stay: the tag's first command has another LUN");
    assert_eq!(port.call(&task(2, lun_of(4), 0)).returned, 0, "the first one ends");
    assert_eq!(stands(&port), line[2..]);
}
