//! Job 7 of document 02, by hand: which refusals tables draw and in which order, what 9 and 10 leave, what the port has
//! of a message after its take. Messages and answers are those of document 01's layouts.

use srp_tests::port::call::{Call, Outcome, Target};
use srp_tests::port::generate::request_with;
use srp_tests::port::library::Library;
use srp_tests::port::plain::{buffer, finish, login, tables, take, Plain};
use srp_tests::port::waiting::{draws, Shape, Waiting, SHAPES};
use srp_tests::random::Random;

const NONE: [&[u8]; 2] = [&[], &[]];

fn after_login(n: u32) -> Library {
    let (mut port, mut random) = (Library::new(91), Random::new(91));
    assert_eq!(port.call(&login(&mut random, n, 512, 1364, 0b110)).returned, 0, "login");
    port
}

/// A port with one command, which waits.
fn waiting(command: &Waiting) -> Library {
    let mut port = after_login(4);
    let taken = port.call(&take(&command.msg));
    assert_eq!((taken.returned, taken.answer[6]), (0, 1), "taken, and waits");
    port
}

fn counters(port: &mut Library) -> [i64; 4] {
    let [w, a, h, d, ..] = port.call(&Call::Counters).answer.map(|word| word as i64);
    [w, a, h, d]
}

fn with_buffer(call: Call, length: usize) -> Call {
    match call {
        Call::Tables { tag, tables, .. } => Call::Tables { tag, tables, buf: buffer(length) },
        call => call,
    }
}

/// An SRP_TSK_MGMT.
fn task(tag: u64, lun: u64, function: u8, managed: u64) -> Call {
    let mut msg = request_with(vec![0; 48], tag, lun);
    (msg[0], msg[30]) = (0x01, function);
    msg[32..40].copy_from_slice(&managed.to_be_bytes());
    take(&msg)
}

/// 1, 21, 24, 33, 9, 10: each call has all the later faults too.
#[test]
fn refusals_in_their_order() {
    let command = Waiting::new(5, 5, [Shape::Fetched(2, 1), Shape::None]);
    let (mut bad, mut long) = (command.tables[0].clone(), command.tables[0].clone());
    bad[0] ^= 0x80;
    long[0] ^= 0x80;
    long.push(0);
    let returned = |port: &mut Library, call: Call| port.call(&call).returned;
    let mut closed = after_login(4);
    closed.memory.words.fill(0);
    assert_eq!(returned(&mut closed, with_buffer(tables(5, [&long, &[]]), 131)), 1, "1 before 21");
    assert_eq!(returned(&mut closed, tables(5, [&long, &[]])), 21, "21 before 24");

    let mut port = waiting(&command);
    let lent: [[&[u8]; 2]; 4] = [[&long, &[]], [&bad, &[]], NONE, [&command.tables[0], &[]]];
    for tables_of in lent {
        assert_eq!(returned(&mut port, with_buffer(tables(6, tables_of), 131)), 1, "1 before 24");
        assert_eq!(returned(&mut port, tables(6, tables_of)), 24, "24 before 33, 9 and 10");
    }
    assert_eq!(returned(&mut port, with_buffer(tables(5, lent[0]), 131)), 1, "1 before 9");
    assert_eq!(returned(&mut port, tables(5, lent[0])), 9, "9 before 10: the length is judged before the content");
    assert_eq!(returned(&mut port, tables(5, lent[2])), 9, "none where one is due");
    assert_eq!(returned(&mut port, tables(5, [&command.tables[0], &[0]])), 9, "one where none is due");
    assert_eq!(returned(&mut port, command.bring()), 0, "the command waited on");
    for tables_of in lent {
        assert_eq!(returned(&mut port, tables(5, tables_of)), 33, "33 before 9 and 10: brought twice");
    }
    assert_eq!(returned(&mut port, with_buffer(command.bring(), 131)), 1, "1 before 33");
    command.assert_carried_out(&mut port);
}

/// A command without a fetch has no tables to bring.
#[test]
fn tables_without_a_fetch() {
    let mut port = after_login(4);
    for (tag, shapes) in [(1, [Shape::None; 2]), (2, [Shape::Direct; 2]), (3, [Shape::Copied(2), Shape::Copied(1)])] {
        let command = Waiting::new(tag, tag, shapes);
        let taken = port.call(&take(&command.msg));
        assert_eq!((taken.returned, taken.answer[6]), (0, 0), "taken, and does not wait");
        assert_eq!(port.call(&tables(tag, NONE)).returned, 33);
        assert_eq!(port.call(&tables(tag, [&[0; 16], &[]])).returned, 33);
        command.assert_carried_out(&mut port);
    }
}

/// "33 plan, move, step or finish on a waiting command .. directly after 24": before 30, 29, 31 and 32, behind finish's
/// 1, 21 and 11. No refusal alters anything.
#[test]
fn a_waiting_command_is_not_carried_out() {
    for shapes in SHAPES {
        let command = Waiting::new(7, 7, shapes);
        let mut port = waiting(&command);
        let before = port.memory.words.clone();
        assert_eq!(draws(&mut port, 7), [33; 4]);
        assert_eq!(port.call(&Call::Move { tag: 7, direction: 1, offset: u32::MAX, count: 0 }).returned, 33);
        assert_eq!(draws(&mut port, 8), [24; 4]);
        let bad_finish = |tag| Call::Finish { tag, status: 0, sense: vec![0x70], buf: buffer(132) };
        assert_eq!([7, 8].map(|tag| port.call(&bad_finish(tag)).returned), [11, 11], "11 before 24 and 33");
        let short = Call::Finish { tag: 7, status: 0, sense: vec![0x70], buf: buffer(131) };
        assert_eq!(port.call(&short).returned, 1, "1 before 33");
        assert_eq!(port.memory.words, before, "as it was");
        assert_eq!(port.call(&command.bring()).returned, 0);
        command.assert_carried_out(&mut port);
    }
}

/// The bytes of an SRP_RSP with RSP_CODE 02h.
fn answered(solnt: bool, delta: u8, tag: u64) -> Vec<u8> {
    let mut msg = vec![0; 40];
    (msg[0], msg[1], msg[7], msg[18], msg[35], msg[39]) = (0xc1, u8::from(solnt), delta, 0x01, 4, 0x02);
    msg[8..16].copy_from_slice(&tag.to_be_bytes());
    msg
}

/// A command whose message has these notification bits.
fn notified(bits: u8) -> Waiting {
    let mut command = Waiting::new(0x1234_5678_9abc_def0, 3, [Shape::Fetched(2, 1), Shape::Direct]);
    command.msg[1] = bits;
    command
}

fn bring_bad(port: &mut Library, command: &Waiting) -> Outcome {
    let bad = vec![0xff; command.tables[0].len()];
    port.call(&tables(command.tag, [&bad, &command.tables[1]]))
}

/// SOLNT by UCSOLNT (bit 2) and not by SCSOLNT (bit 1); the delta is what is owed after the ending.
#[test]
fn ten_answers_and_ends_the_command() {
    for (bits, withdrawn, added, delta) in [(0x04, 0, 0, 1), (0x02, 0, 2, 3), (0xfb, 1, 0, 0), (0xff, 2, 0, 0)] {
        let command = notified(bits);
        let mut port = waiting(&command);
        if withdrawn + added > 0 {
            let change = if added > 0 { Call::Add { k: added } } else { Call::Withdraw { k: withdrawn } };
            assert_eq!(port.call(&change).returned, 0);
        }
        let (wanted, owed) = (i64::from(4 + added - withdrawn), i64::from(added) - i64::from(withdrawn));
        assert_eq!(counters(&mut port), [wanted, 3, 1, owed], "held from its taking");
        let brought = bring_bad(&mut port, &command);
        assert_eq!((brought.returned, brought.answer), (10, [40, 0, 0, 0, 0, 0, 0, 0]));
        assert_eq!(brought.message(), answered(bits & 0x04 != 0, delta, command.tag));
        let announced = 3 + i64::from(delta);
        assert_eq!(counters(&mut port), [wanted, announced, 0, owed + 1 - i64::from(delta)], "H - 1, D + 1, the delta");
        assert_eq!(port.call(&Call::List { records: vec![0; 64] }).answer[0], 0, "not open");
        assert_eq!((port.call(&command.bring()).returned, draws(&mut port, command.tag)), (24, [24; 4]));
        assert_eq!(port.call(&take(&command.msg)).returned, 0, "its tag may be used again");
    }
}

/// F bytes of FFh draw 10 for every command that waits, in whichever direction has a fetch.
#[test]
fn bytes_of_ffh_draw_10() {
    for (shapes, way) in SHAPES.into_iter().flat_map(|shapes| [(shapes, 0), (shapes, 1)]) {
        let command = Waiting::new(9, 9, shapes);
        let mut lent = command.tables.clone();
        if lent[way].is_empty() {
            continue;
        }
        lent[way].fill(0xff);
        let mut port = waiting(&command);
        assert_eq!(port.call(&tables(9, [&lent[0], &lent[1]])).returned, 10, "{shapes:?}, {way}");
        assert_eq!(counters(&mut port), [4, 4, 0, 0]);
    }
}

/// Of two tables of one length the out table for in, and in for out, draws 10; of other lengths 9.
#[test]
fn tables_exchanged() {
    let alike = Waiting::new(1, 1, [Shape::Fetched(3, 0), Shape::Fetched(3, 1)]);
    let unlike = Waiting::new(2, 2, [Shape::Fetched(3, 0), Shape::Fetched(2, 0)]);
    for (command, exchanged, twice) in [(&alike, 10, 10), (&unlike, 9, 9)] {
        let [out, inn] = &command.tables;
        assert_eq!(waiting(command).call(&tables(command.tag, [inn, out])).returned, exchanged);
        assert_eq!(waiting(command).call(&tables(command.tag, [out, out])).returned, twice, "out for in");
        assert_eq!(waiting(command).call(&tables(command.tag, [inn, inn])).returned, twice, "in for out");
        assert_eq!(waiting(command).call(&command.bring()).returned, 0);
    }
}

/// "Refusals 9 and 10 are made there": of the other direction too, a bad direct segment or a bad table length.
#[test]
fn the_other_direction_is_judged_with_the_tables() {
    for (shape, field, value) in [
        (Shape::Direct, 48..56, 0xff),    // address of the segment, which has two bytes
        (Shape::Copied(2), 63..64, 33),   // length of the table, no multiple of 16
        (Shape::Copied(2), 64..68, 0xff), // total length
    ] {
        let mut command = Waiting::new(1, 1, [shape, Shape::Fetched(2, 0)]);
        command.msg[field].fill(value);
        let mut port = waiting(&command);
        assert_eq!(counters(&mut port), [4, 3, 1, 0], "open, and no 10 yet");
        assert_eq!(port.call(&tables(1, NONE)).returned, 9, "9 before 10");
        assert_eq!((port.call(&command.bring()).returned, counters(&mut port)), (10, [4, 4, 0, 0]));
    }
}

/// The message's memory holds something else as soon as take returns.
#[test]
fn the_message_is_written_over_after_take() {
    for (shapes, bytes) in SHAPES.into_iter().flat_map(|shapes| [(shapes, 0x00), (shapes, 0xff), (shapes, 0x5b)]) {
        let mut command = Waiting::new(3, 3, shapes);
        let (mut port, mut buf) = (Plain::after_login(2, 512), [0; 132]);
        assert_eq!((port.port().take(&command.msg, &mut buf), port.answer[6]), (0, 1), "waits");
        command.msg.fill(bytes);
        let [out, inn] = &command.tables;
        assert_eq!(port.port().tables(3, [out, inn], &mut buf), 0, "{shapes:?}");
        let mut carried_out = after_login(2);
        carried_out.memory = port.memory;
        command.assert_carried_out(&mut carried_out);
    }
}

/// A tag used again: tables of the aborted command are judged by the new one's message, and the new one's are accepted.
#[test]
fn a_tag_used_again() {
    let old = Waiting::new(4, 40, [Shape::Fetched(2, 1), Shape::None]);
    for (shapes, with_old) in [
        ([Shape::Fetched(2, 0), Shape::None], 10),
        ([Shape::Fetched(3, 1), Shape::None], 9),
        ([Shape::None, Shape::Fetched(2, 1)], 9),
    ] {
        let new = Waiting::new(4, 41, shapes);
        for (call, expected) in [(old.bring(), with_old), (new.bring(), 0)] {
            let mut port = waiting(&old);
            assert_eq!(port.call(&task(9, 0, 0x01, 4)).answer[..2], [40, 2], "aborted");
            assert_eq!(port.call(&old.bring()).returned, 24, "of an aborted command");
            assert_eq!(port.call(&take(&new.msg)).answer[6], 1, "the tag again");
            assert_eq!(port.call(&call).returned, expected);
            if expected == 0 {
                new.assert_carried_out(&mut port);
            }
        }
    }
}

/// Waiting commands use up the credit, and their tags are open: 22 and 23, which drop them all.
#[test]
fn credit_and_tags_of_waiting_commands() {
    let commands: Vec<Waiting> = (0..4).map(Waiting::with_tag).collect();
    for (call, refusal) in [(take(&Waiting::with_tag(9).msg), 22), (task(9, 0, 0x08, 0), 22)] {
        let mut port = after_login(4);
        commands.iter().for_each(|command| assert_eq!(port.call(&take(&command.msg)).answer[6], 1));
        assert_eq!((counters(&mut port), port.call(&call).returned), ([4, 0, 4, 0], refusal));
        assert_eq!(port.call(&commands[0].bring()).returned, 21, "closed");
    }
    for call in [take(&commands[2].msg), task(2, 0, 0x01, 2)] {
        let mut port = after_login(4);
        commands[..3].iter().for_each(|command| assert_eq!(port.call(&take(&command.msg)).answer[6], 1));
        assert_eq!(port.call(&call).returned, 23, "its tag is open");
        assert_eq!(port.call(&commands[2].bring()).returned, 21, "closed");
    }
}

/// A task request ends those that wait and those that do not; what is left waits on.
#[test]
fn aborted_while_waiting() {
    for (function, managed, left) in
        [(0x01, 2, vec![0, 1, 3]), (0x02, 9, vec![1, 3]), (0x04, 9, vec![1, 3]), (0x08, 9, vec![1, 3])]
    {
        let mut port = after_login(8);
        let commands: Vec<Waiting> = (0..4).map(Waiting::with_tag).collect();
        commands.iter().for_each(|command| assert_eq!(port.call(&take(&command.msg)).answer[6], 1));
        assert_eq!(port.call(&commands[0].bring()).returned, 0, "the first waits no more");
        let aborted = port.call(&task(99, 0, function, managed));
        assert_eq!((aborted.buf[7], aborted.buf[39]), (5 - left.len() as u8, 0), "delta and RSP_CODE");
        for command in commands {
            let (tag, open) = (command.tag, left.contains(&command.tag));
            let expected = [24, 33, 0][usize::from(open) + usize::from(open && tag > 0)];
            assert_eq!(port.call(&command.bring()).returned, expected, "tag {tag}, function {function}");
            if open {
                command.assert_carried_out(&mut port);
                assert_eq!(port.call(&finish(tag)).returned, 0);
            }
        }
        assert_eq!(counters(&mut port), [8, 8, 0, 0]);
    }
}
