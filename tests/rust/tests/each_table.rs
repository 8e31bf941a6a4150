//! Every value of each byte of a table, every length of one, and every bit of the tag that it is brought by, from one
//! state, against the model; and words of the port that say otherwise whether a command waits, and for what.

use srp_tests::model::descriptors::Descriptor;
use srp_tests::port::both::{Both, Saved};
use srp_tests::port::call::{Call, Outcome, Target};
use srp_tests::port::library::Library;
use srp_tests::port::plain::{buffer, login, tables, take};
use srp_tests::port::slots::{self, DIRECTIONS, WAITS};
use srp_tests::port::waiting::{draws, Shape, Waiting};
use srp_tests::port::{frame::Memory, kinds};
use srp_tests::random::Random;
use srp_tests::tally::Tally;

/// Tag 1 waits for both tables, tag 2 for one, tag 3 for none.
fn commands() -> [Waiting; 3] {
    [
        Waiting::new(1, 1, [Shape::Fetched(3, 1), Shape::Fetched(2, 0)]),
        Waiting::new(2, 2, [Shape::Direct, Shape::Fetched(1, 0)]),
        Waiting::new(3, 3, [Shape::Copied(1), Shape::None]),
    ]
}

/// Calls from one state, counted by what they came to.
struct From {
    both: Both,
    state: Saved,
    tally: Tally,
}

impl From {
    fn three_commands() -> Self {
        let (mut both, mut random) = (Both::new(61), Random::new(61));
        both.call(&login(&mut random, 4, 512, 1364, 0b110));
        let waits = commands().map(|command| both.call(&take(&command.msg)).answer[6]);
        assert_eq!(waits, [1, 1, 0]);
        From { state: both.save(), both, tally: Tally::default() }
    }

    fn call(&mut self, call: &Call) -> Outcome {
        self.both.restore(&self.state);
        let outcome = self.both.call(call);
        self.tally.add(kinds::outcome(call, &outcome));
        outcome
    }
}

/// A table of three segments, the first of them copied, and one of two; what is not judged is each handle that was not
/// copied, and each address that leaves its segment below 2^64.
#[test]
fn of_a_byte() {
    let (mut from, [command, ..]) = (From::three_commands(), commands());
    for way in [0, 1] {
        for (at, value) in (0..command.tables[way].len()).flat_map(|at| (0..=255).map(move |value| (at, value))) {
            let mut lent = command.tables.clone();
            lent[way][at] = value;
            from.call(&tables(1, [&lent[0], &lent[1]]));
        }
    }
    from.tally.print("tables, each value of each byte");
    // Of five segments one was copied; of the others' 16 bytes four are the length, and address and handle are free.
    let (all, judged) = (5 * 16 * 256, (16 + 4 * 4) * 255);
    assert_eq!(from.tally.count("tables: refused 10"), judged);
    assert_eq!((from.tally.count("tables: done"), from.tally.total()), (all - judged, all));
}

/// Each length from none to more than the longest table, in one direction or both.
#[test]
fn of_a_length() {
    let (mut from, [both_ways, in_alone, _]) = (From::three_commands(), commands());
    for length in 0..=600 {
        let any = buffer(length);
        for command in [&both_ways, &in_alone] {
            let [out, inn] = &command.tables;
            from.call(&tables(command.tag, [&any, inn]));
            from.call(&tables(command.tag, [out, &any]));
            from.call(&tables(command.tag, [&any, &any]));
        }
        from.call(&tables(3, [&any, &[]]));
    }
    from.tally.print("tables, each length");
    // Of its right length a table is bad here, unless none is due and none is lent.
    let counts = ["tables: refused 10", "tables: done", "tables: refused 33"].map(|kind| from.tally.count(kind));
    assert_eq!(counts, [2 + 1, 1, 601]);
    assert_eq!(from.tally.count("tables: refused 9"), 6 * 601 - 4);
}

#[test]
fn of_a_buffer_s_length() {
    let (mut from, [command, ..]) = (From::three_commands(), commands());
    let (right, mut bad) = (command.tables.clone(), command.tables.clone());
    bad[1].fill(0xff);
    for (length, lent) in (0..=300).flat_map(|length| [(length, &right), (length, &bad)]) {
        from.call(&Call::Tables { tag: 1, tables: lent.clone(), buf: buffer(length) });
    }
    from.tally.print("tables, each length of a lent buffer");
    let counts = ["tables: refused 1", "tables: done", "tables: refused 10"].map(|kind| from.tally.count(kind));
    assert_eq!(counts, [2 * 132, 169, 169]);
}

/// A tag that differs in one bit is another one: of 1, 2 and 3, two bits apart at most, 1 and 3, 2 and 3 become each
/// other.
#[test]
fn of_a_bit_of_the_tag() {
    let mut from = From::three_commands();
    for (bit, command) in (0..64).flat_map(|bit| commands().map(|command| (bit, command))) {
        let [out, inn] = &command.tables;
        from.call(&tables(command.tag ^ 1 << bit, [out, inn]));
    }
    from.tally.print("tables, each bit of the tag");
    assert_eq!(from.tally.count("tables: refused 24"), 64 * 3 - 4);
    assert_eq!(["tables: refused 33", "tables: refused 9"].map(|kind| from.tally.count(kind)), [2, 2]);
}

/// The library's port with the three commands.
fn three_commands() -> Library {
    let (mut port, mut random) = (Library::new(62), Random::new(62));
    port.call(&login(&mut random, 4, 512, 1364, 0b110));
    commands().iter().for_each(|command| assert_eq!(port.call(&take(&command.msg)).returned, 0));
    port
}

/// Tables of the lengths that a slot's words name, the command's own where they are as long.
fn fitting(memory: &Memory, slot: usize, own: &Waiting) -> [Vec<u8>; 2] {
    let due = slots::waiting(memory, slot).map(|descriptors| descriptors.each_ref().map(Descriptor::fetch_length));
    let due = due.unwrap_or_default();
    [0, 1].map(|way| if own.tables[way].len() == due[way] { own.tables[way].clone() } else { vec![0; due[way]] })
}

/// Any words are a port: each word that says whether a command waits and for what holds other numbers. A table that is
/// accepted is judged by what they say; and whether a command waits is read beside all else, so that 33 comes first.
#[test]
fn in_altered_words() {
    const NUMBERS: [u64; 14] = [0, 1, 2, 3, 4, 16, 31, 32, 33, 48, 64, 1 << 32, (1 << 32) + 32, u64::MAX];
    let (mut port, commands, mut tally) = (three_commands(), commands(), Tally::default());
    let before = port.memory.clone();
    let words = [WAITS].into_iter().chain(DIRECTIONS.into_iter().flat_map(|at| at..at + 4));
    for (word, number) in words.flat_map(|word| NUMBERS.map(|number| (word, number))) {
        for (slot, command) in commands.iter().enumerate() {
            port.memory.clone_from(&before);
            port.memory.words[slots::word_of(slot, word)] = number;
            let lent = fitting(&port.memory, slot, command);
            let expected = match slots::waiting(&port.memory, slot) {
                None => 33,
                Some([out, inn]) if out.bad_count() || inn.bad_count() => continue,
                Some([out, inn]) => {
                    10 * u32::from(out.bad_field(&lent[0]).is_some() || inn.bad_field(&lent[1]).is_some())
                }
            };
            let waits = expected != 33;
            assert_eq!(draws(&mut port, command.tag)[..3] == [33; 3], waits, "word {word} holds {number}");
            port.memory.clone_from(&before);
            port.memory.words[slots::word_of(slot, word)] = number;
            let brought = port.call(&tables(command.tag, [&lent[0], &lent[1]])).returned;
            assert_eq!(brought, expected, "word {word} of slot {slot} holds {number}");
            tally.add(format!("refused {brought}"));
        }
    }
    tally.print("tables, words that say otherwise");
    tally.assert_each(20, &["refused 0", "refused 10", "refused 33"]);
}

/// A planned command of which a word says that it waits, with its plan and a move as they were.
#[test]
fn planned_and_waiting() {
    let (mut port, [_, _, command]) = (three_commands(), commands());
    assert_eq!(port.call(&Call::Plan { tag: 3, r_out: 4, r_in: 0 }).returned, 0, "planned");
    assert_eq!(port.call(&Call::Move { tag: 3, direction: 0, offset: 0, count: 4 }).returned, 0, "a move");
    port.memory.words[slots::word_of(2, WAITS)] = 1;
    assert_eq!(draws(&mut port, 3), [33; 4], "33 before 30 and 32");
    DIRECTIONS.into_iter().for_each(|at| port.memory.words[slots::word_of(2, at)] = 0);
    assert_eq!(port.call(&tables(3, [&[], &[]])).returned, 0, "no format, no table, no bad field");
    let without = Waiting { segments: Default::default(), ..command };
    without.assert_carried_out(&mut port);
}
