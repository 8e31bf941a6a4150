//! Words that no login made.

use std::collections::BTreeSet;

use srp_tests::interface::PORT_WORDS;
use srp_tests::model::MemoryDescriptor;
use srp_tests::port::garbage::{line, Garbage, InMemory};
use srp_tests::port::generate::{command, Data, Generator};
use srp_tests::port::plain::{fetched, login, open};
use srp_tests::port::{kinds, library::Library, Call, Target};
use srp_tests::random::Random;

/// What stands for Q in the words.
const PIECES: [&str; 4] =
    ["a bad boundary, across a multiple", "a bad boundary, across none", "a boundary", "no boundary"];

/// What the words say of the command that tables are brought for.
const TABLES: [&str; 5] = ["accepted", "accepted, none fetched", "bad fields", "not waiting", "of another length"];

#[test]
fn any_words_are_a_port() {
    let mut garbage = Garbage::new(Library::new(21), 21);
    while garbage.tally.total() < 250_000 {
        garbage.round();
    }
    garbage.tally.print("garbage");
    garbage.pieces.print_as("garbage, by the boundary in the words", "pieces");
    garbage.pieces.assert_each(100, &PIECES);
    garbage.tables.print("garbage, tables by their command's words");
    garbage.tables.assert_each(100, &TABLES);
    garbage.line.print_as("garbage, the line by its words", "changes");
    garbage.line.assert_each(50, &line::KINDS);
    // Every outcome but those of login, which uses nothing of the words.
    let of_words: Vec<&str> = kinds::OUTCOMES.into_iter().filter(|outcome| !outcome.starts_with("login")).collect();
    garbage.tally.assert_at_least(10, &of_words);
}

/// "A login makes a port, using no earlier one."
#[test]
fn login_uses_no_earlier_port() {
    let (mut random, mut generator) = (Random::new(22), Generator::new(22));
    let (mut one, mut other) = (Library::new(1), Library::new(2));
    for _ in 0..5_000 {
        one.memory().words.fill_with(|| random.u64());
        other.memory().words.fill_with(|| random.up_to(20));
        let login = generator.login();
        assert_eq!(one.call(&login), other.call(&login));
        assert_eq!(one.memory().words, other.memory().words, "{login:02x?}");
    }
}

const TAG: u64 = 0x7777;
const STEP: Call = Call::Step { tag: TAG, direction: 1 };

/// A port that has handed out three operations of 100 bytes of a move of 5,000 from offset 0 on.
fn three_handed_out() -> Library {
    let (mut port, mut random) = (Library::new(23), Random::new(23));
    port.call(&login(&mut random, 4, 100, 1364, 0b110));
    let data = [Data::none(), fetched(&[MemoryDescriptor { address: 0x1000, handle: 7, length: 5_000 }])];
    let msg = command(&mut random, TAG, 0, 0, &data);
    open(&mut port, &msg, &data);
    assert_eq!(port.call(&Call::Plan { tag: TAG, r_out: 0, r_in: 5_000 }).returned, 0, "planned");
    assert_eq!(port.call(&Call::Move { tag: TAG, direction: 1, offset: 0, count: 5_000 }).returned, 0, "named");
    let numbers = [0; 3].map(|_| port.call(&STEP).answer[6]);
    assert_eq!(numbers, [1, 2, 3]);
    port
}

/// Each word of a port in turn holds another number. The count of operations stands in one of them, and is read as the
/// smaller of that word and of the next byte's offset.
#[test]
fn the_number_in_altered_words() {
    const NUMBERS: [u64; 9] = [0, 1, 2, 4, 299, 300, 301, 1 << 32, u64::MAX];
    let mut port = three_handed_out();
    let before = port.memory.clone();
    let (mut pieces, mut done, mut counts) = (0, 0, BTreeSet::new());
    for (at, word) in (0..PORT_WORDS).flat_map(|at| NUMBERS.map(|word| (at, word))) {
        port.memory.clone_from(&before);
        port.memory.words[at] = word;
        let stepped = port.call(&STEP);
        let [piece, _, _, _, _, offset, number, _] = stepped.answer;
        match (stepped.returned, piece) {
            (0, 1) if number == offset.min(3) + 1 => pieces += 1,
            (0, 1) => {
                assert_eq!((offset, number), (300, word.min(300) + 1), "word {at} holds {word}");
                counts.insert(at);
            }
            (0, _) => {
                assert_eq!(number, 3, "done, word {at} holds {word}");
                done += 1;
            }
            _ => assert!([21, 24, 29, 33].contains(&stepped.returned), "{stepped:?}"),
        }
    }
    println!("altered words: {pieces} pieces, {done} done");
    assert!(counts.len() == 1 && pieces > 8 * 500 && done > 5, "words {counts:?}, {pieces} pieces, {done} done");
    for (at, word) in counts.into_iter().flat_map(|at| NUMBERS.map(|word| (at, word))) {
        port.memory.clone_from(&before);
        port.memory.words[at] = word;
        assert_eq!(port.call(&STEP).answer[5..7], [300, word.min(300) + 1], "the count's word holds {word}");
    }
}
