//! Plan, moves, step and the pieces of both directions; finish.

mod messages;

use messages::*;
use srp_target::{Direction, Kind, Message, Operation, Port, Record, Refusal, Settings, Step, Taken, SENSE_BYTES};

/// Data-out: 3000h, handle 5, 600 bytes. Data-in: a table in the message, the segments of P2.
fn both_ways(tag: u64) -> Vec<u8> {
    let copies = vec![memory(0x2000, 6, 0), memory(0x3000, 6, 600), memory(0x5000, 8, 100)];
    let table = Data::Indirect { table: memory(0x9000, 3, 48), total: 700, copies };
    command(tag, 0, Data::Direct(memory(0x3000, 5, 600)), table)
}

fn read(handle: u32, address: u64, length: u32, offset: u32) -> Operation {
    Operation { kind: Kind::Read, handle, address, length, offset }
}

fn write(handle: u32, address: u64, length: u32, offset: u32) -> Operation {
    Operation { kind: Kind::Write, handle, address, length, offset }
}

/// A step with an operation, and the operations of its move so far.
fn stepped(operation: Operation, number: u32) -> Result<Step, Refusal> {
    Ok(Step { operation: Some(operation), number })
}

/// A step that says done, after so many operations.
fn done(number: u32) -> Result<Step, Refusal> {
    Ok(Step { operation: None, number })
}

/// The pieces of a move of a direction's first bytes.
fn first(port: &mut Port, tag: u64, direction: Direction, count: u32) -> Vec<Operation> {
    port.pieces(tag, direction, 0, count).expect("no refusal").collect()
}

/// Flags, status and both residuals of a response.
fn outcome(message: Message) -> (u8, u8, [u8; 4], [u8; 4]) {
    (message[18], message[19], message[20..24].try_into().unwrap(), message[24..28].try_into().unwrap())
}

#[test]
fn both_directions() {
    let mut port = open_port();
    take_command(&mut port, &both_ways(9));
    port.plan(9, 600, 700).unwrap();
    assert_eq!(port.step(9, Direction::In), done(0), "plan alone starts no move");
    assert_eq!(port.name_move(9, Direction::In, 0, 700), Ok(()));
    assert_eq!(port.step(9, Direction::In), stepped(write(6, 0x3000, 512, 0), 1));
    assert_eq!(first(&mut port, 9, Direction::Out, 600), [read(5, 0x3000, 512, 0), read(5, 0x3200, 88, 512)]);
    assert_eq!(port.step(9, Direction::In), stepped(write(6, 0x3200, 88, 512), 2));
    assert_eq!(port.step(9, Direction::In), stepped(write(8, 0x5000, 100, 600), 3));
    assert_eq!((port.step(9, Direction::In), port.step(9, Direction::Out)), (done(3), done(2)));
    let mut buf = lent();
    assert_eq!(outcome(port.finish(9, 0, &[], &mut buf).unwrap()), (0, 0, [0; 4], [0; 4]));
}

/// R of each direction in its place: P3's last piece of 50 and under 50 in, P4's over 100 out.
#[test]
fn residuals() {
    let mut port = open_port();
    take_command(&mut port, &both_ways(9));
    port.plan(9, 700, 650).unwrap();
    assert_eq!(first(&mut port, 9, Direction::Out, 700).len(), 2);
    assert_eq!(first(&mut port, 9, Direction::In, 650).last(), Some(&write(8, 0x5000, 50, 600)));
    let mut buf = lent();
    let message = port.finish(9, 0, &[], &mut buf).unwrap();
    assert_eq!(outcome(message), (0b10_0100, 0, [0, 0, 0, 100], [0, 0, 0, 50]));
}

/// The end before the start, with M counted from each move's offset. The listing and the residual take h.
#[test]
fn moves_in_any_order() {
    let mut port = open_port();
    take_command(&mut port, &both_ways(9));
    port.plan(9, 600, 700).unwrap();
    let mut moved = |offset, count| port.pieces(9, Direction::In, offset, count).unwrap().collect::<Vec<Operation>>();
    assert_eq!(moved(550, 100), [write(6, 0x3226, 50, 550), write(8, 0x5000, 50, 600)]);
    assert_eq!(moved(20, 530), [write(6, 0x3014, 512, 20), write(6, 0x3214, 18, 532)]);
    assert_eq!(moved(20, 1), [write(6, 0x3014, 1, 20)], "once more");
    assert_eq!((moved(20, 0), moved(700, 1)), (vec![], vec![]));
    assert_eq!(port.list(&mut [Record::default(); 16]).unwrap()[0].data_in, 650);
    let mut buf = lent();
    let message = port.finish(9, 0, &[], &mut buf).unwrap();
    assert_eq!(outcome(message), (0b10_1000, 0, [0, 0, 2, 88], [0, 0, 0, 50]), "under 600 out, 50 in");
}

/// Trimmed at min(R, B); the sum of offset and count does not wrap.
#[test]
fn a_move_past_the_end() {
    let mut port = open_port();
    take_command(&mut port, &p1(9));
    port.plan(9, 0, 1200).unwrap();
    let mut moved =
        |offset, count| port.pieces(9, Direction::In, offset, count).map(|pieces| pieces.collect::<Vec<_>>());
    assert_eq!(moved(1000, u32::MAX), Ok(vec![write(7, 0x13e8, 200, 1000)]));
    assert_eq!(moved(1199, 2), Ok(vec![write(7, 0x14af, 1, 1199)]));
    assert_eq!((moved(1200, 2), moved(1201, 0)), (Ok(vec![]), Err(Refusal::Offset)));
}

/// An iterator that is dropped leaves the rest to step, and until then no other move of that direction is named. Other
/// commands' pieces are their own.
#[test]
fn a_move_goes_on_where_it_stopped() {
    let mut port = open_port();
    take_command(&mut port, &p1(9));
    take_command(&mut port, &p1(10));
    port.plan(9, 0, 1300).unwrap();
    port.plan(10, 0, 600).unwrap();
    assert_eq!(port.pieces(9, Direction::In, 0, 1300).unwrap().next(), Some(write(7, 0x1000, 512, 0)));
    assert_eq!(first(&mut port, 10, Direction::In, 600), [write(7, 0x1000, 512, 0), write(7, 0x1200, 88, 512)]);
    assert_eq!(port.pieces(9, Direction::In, 512, 1).err(), Some(Refusal::Unfinished));
    assert_eq!(port.name_move(9, Direction::In, 1300, 0), Err(Refusal::Unfinished));
    assert_eq!(port.name_move(9, Direction::In, 1301, 0), Err(Refusal::Offset));
    assert_eq!(port.name_move(9, Direction::Out, 0, 1), Ok(()), "the other direction");
    assert_eq!(port.step(9, Direction::In), stepped(write(7, 0x1200, 512, 512), 2));
    assert_eq!(port.step(9, Direction::In), stepped(write(7, 0x1400, 276, 1024), 3));
    let mut pieces = port.pieces(9, Direction::In, 1024, 276).unwrap();
    assert_eq!(pieces.next(), Some(write(7, 0x1400, 276, 1024)));
    assert_eq!((pieces.next(), pieces.next()), (None, None));
}

/// Each move has its own number, an empty one too, and each direction. A refused move or plan leaves it.
#[test]
fn the_number_of_a_move() {
    let mut port = open_port();
    take_command(&mut port, &both_ways(9));
    assert_eq!(port.step(9, Direction::In), Err(Refusal::Unplanned));
    port.plan(9, 600, 700).unwrap();
    assert_eq!((port.step(9, Direction::Out), port.step(9, Direction::In)), (done(0), done(0)), "before any move");
    port.name_move(9, Direction::In, 0, 700).unwrap();
    assert_eq!(port.step(9, Direction::In), stepped(write(6, 0x3000, 512, 0), 1));
    assert_eq!(port.step(9, Direction::In), stepped(write(6, 0x3200, 88, 512), 2));
    assert_eq!(port.name_move(9, Direction::In, 0, 700), Err(Refusal::Unfinished));
    assert_eq!(port.name_move(9, Direction::In, 701, 0), Err(Refusal::Offset));
    assert_eq!(port.plan(9, 600, 700), Err(Refusal::Planned));
    assert_eq!(port.step(8, Direction::In), Err(Refusal::TagNotOpen));
    port.name_move(9, Direction::Out, 0, 600).unwrap();
    assert_eq!(port.step(9, Direction::Out), stepped(read(5, 0x3000, 512, 0), 1));
    assert_eq!(port.step(9, Direction::In), stepped(write(8, 0x5000, 100, 600), 3));
    assert_eq!([port.step(9, Direction::In), port.step(9, Direction::In)], [done(3), done(3)], "done, and done again");
    assert_eq!(
        (port.name_move(9, Direction::In, 701, 0), port.step(9, Direction::In)),
        (Err(Refusal::Offset), done(3))
    );
    port.name_move(9, Direction::In, 0, 1).unwrap();
    assert_eq!(port.step(9, Direction::In), stepped(write(6, 0x3000, 1, 0), 1), "another move");
    assert_eq!((port.step(9, Direction::In), port.name_move(9, Direction::In, 5, 0)), (done(1), Ok(())));
    assert_eq!((port.step(9, Direction::In), port.step(9, Direction::In)), (done(0), done(0)), "an empty move");
    assert_eq!(port.step(9, Direction::Out), stepped(read(5, 0x3200, 88, 512), 2));
    assert_eq!((port.step(9, Direction::Out), port.step(9, Direction::In)), (done(2), done(0)));
}

/// A command in the place of another, with its tag: no move was named of it.
#[test]
fn the_number_of_a_tag_used_again() {
    let mut port = open_port();
    for _ in 0..2 {
        take_command(&mut port, &both_ways(9));
        port.plan(9, 600, 700).unwrap();
        assert_eq!((port.step(9, Direction::Out), port.step(9, Direction::In)), (done(0), done(0)));
        assert_eq!(first(&mut port, 9, Direction::Out, 600).len(), 2);
        assert_eq!(first(&mut port, 9, Direction::In, 700).len(), 3);
        assert_eq!((port.step(9, Direction::Out), port.step(9, Direction::In)), (done(2), done(3)));
        assert_eq!(port.finish(9, 0, &[], &mut lent()).unwrap()[0], 0xc1);
        assert_eq!(port.step(9, Direction::In), Err(Refusal::TagNotOpen));
    }
}

/// An iterator tells the operations of its own move, which a step goes on counting.
#[test]
fn pieces_are_numbered() {
    let mut port = open_port();
    take_command(&mut port, &p1(9));
    port.plan(9, 0, 1300).unwrap();
    for _ in 0..2 {
        let mut pieces = port.pieces(9, Direction::In, 0, 1300).unwrap();
        let mut numbers = vec![pieces.number()];
        while pieces.next().is_some() {
            numbers.push(pieces.number());
        }
        assert_eq!((numbers, pieces.next(), pieces.number()), (vec![0, 1, 2, 3], None, 3));
    }
    let mut empty = port.pieces(9, Direction::In, 1300, 1).unwrap();
    assert_eq!((empty.next(), empty.number()), (None, 0));
    let mut pieces = port.pieces(9, Direction::In, 512, 788).unwrap();
    assert_eq!((pieces.next(), pieces.number()), (Some(write(7, 0x1200, 512, 512)), 1));
    assert_eq!(port.step(9, Direction::In), stepped(write(7, 0x1400, 276, 1024), 2));
}

/// Operations end at multiples of Q, from one of them on they may be Q long, and they are counted with the others. The
/// port's next login has a boundary of its own.
#[test]
fn operations_up_to_a_boundary() {
    let bounded = Settings { maximum: 8192, boundary: 4096, ..SETTINGS };
    let mut port = port_with(&bounded);
    for (settings, expected) in [
        (bounded, vec![write(7, 0x1f00, 256, 0), write(7, 0x2000, 4096, 256), write(7, 0x3000, 1648, 4352)]),
        (Settings { boundary: 0, ..bounded }, vec![write(7, 0x1f00, 6000, 0)]),
        (Settings { boundary: 1 << 32, ..bounded }, vec![write(7, 0x1f00, 6000, 0)]),
    ] {
        assert_eq!(port.renew(&settings, &OWN, &login_request(), &mut lent()).unwrap()[0], 0xc0);
        take_command(&mut port, &command(9, 0, Data::None, Data::Direct(memory(0x1f00, 7, 6000))));
        port.plan(9, 0, 6000).unwrap();
        assert_eq!(first(&mut port, 9, Direction::In, 6000), expected);
        assert_eq!(port.step(9, Direction::In), done(expected.len() as u32));
    }
}

#[test]
fn a_move_of_an_aborted_command_is_refused_24() {
    let mut port = open_port();
    take_command(&mut port, &p1(9));
    port.plan(9, 0, 1300).unwrap();
    assert!(port.pieces(9, Direction::In, 0, 1300).unwrap().next().is_some());
    abort(&mut port, 9);
    assert_eq!(port.step(9, Direction::In), Err(Refusal::TagNotOpen));
    assert_eq!(port.pieces(9, Direction::In, 0, 1300).err(), Some(Refusal::TagNotOpen));
    assert_eq!(port.finish(9, 0, &[], &mut lent()), Err(Refusal::TagNotOpen));
}

#[test]
fn a_move_without_a_plan_is_refused_29() {
    let mut port = open_port();
    take_command(&mut port, &p1(9));
    assert_eq!(port.pieces(9, Direction::In, 1, 0).err(), Some(Refusal::Unplanned));
    assert_eq!(port.step(9, Direction::In), Err(Refusal::Unplanned));
    port.plan(9, 0, 1300).unwrap();
    assert_eq!(first(&mut port, 9, Direction::In, 1300).len(), 3);
}

#[test]
fn plan_is_refused_24_and_30() {
    let mut port = open_port();
    assert_eq!(port.plan(9, 0, 0), Err(Refusal::TagNotOpen));
    take_command(&mut port, &p1(9));
    assert_eq!(port.plan(9, 0, 1300), Ok(()));
    assert_eq!(port.plan(9, 0, 1), Err(Refusal::Planned));
    assert_eq!(first(&mut port, 9, Direction::In, 1300).len(), 3);
}

#[test]
fn finish_with_sense() {
    let mut port = open_port();
    take_command(&mut port, &p1(9));
    let sense: Vec<u8> = (1..=SENSE_BYTES as u8).collect();
    let mut buf = lent();
    let message = port.finish(9, 0x02, &sense, &mut buf).unwrap();
    assert_eq!(message.len(), 132);
    assert_eq!((message[1], outcome(message)), (1, (0b10_0010, 0x02, [0; 4], [0, 0, 0x05, 0x14])));
    assert_eq!((&message[28..36], &message[36..]), (&[0, 0, 0, 96, 0, 0, 0, 0][..], &sense[..]));
    assert!(is_untouched(&buf[132..]));
}

/// 1, 11 and 24 in that order; then the command is still there to be finished.
#[test]
fn finish_refused_alters_nothing() {
    let mut port = open_port();
    take_command(&mut port, &p1(9));
    let (mut small, mut buf) = (short(), lent());
    assert_eq!(port.finish(8, 0x02, &[0; 97], &mut small), Err(Refusal::ShortBuffer));
    assert_eq!(port.finish(8, 0x02, &[0; SENSE_BYTES + 1], &mut buf), Err(Refusal::Argument));
    assert_eq!(port.finish(8, 0x08, &[0; 1], &mut buf), Err(Refusal::Argument));
    assert_eq!(port.finish(8, 0x08, &[], &mut buf), Err(Refusal::TagNotOpen));
    assert!(is_untouched(&small) && is_untouched(&buf));
    assert_eq!(port.counters().unwrap().held, 1);
    assert_eq!(port.finish(9, 0x08, &[], &mut buf).map(|message| message[19]), Ok(0x08));
    assert!(matches!(port.take(&p1(9), &mut buf), Ok(Taken::Command { tag: 9, .. })));
}
