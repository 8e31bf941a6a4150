//! Turns: whose operation comes next, what joins the line and what leaves it.

mod messages;

use messages::*;
use srp_target::{Direction, Kind, Operation, Port, Refusal, Settings, Step, Turn};

/// 600 bytes at 3000h, handle 5, each way; in operations of up to 512 bytes each move has two.
fn both_ways(tag: u64) -> Vec<u8> {
    command(tag, 0, Data::Direct(memory(0x3000, 5, 600)), Data::Direct(memory(0x3000, 5, 600)))
}

/// Two commands with four moves in line: 9 in, 10 out, 10 in, 9 out.
fn four_moves() -> Port {
    let mut port = open_port();
    for tag in [9, 10] {
        take_command(&mut port, &both_ways(tag));
        port.plan(tag, 600, 600).unwrap();
    }
    for (tag, direction) in [(9, Direction::In), (10, Direction::Out), (10, Direction::In), (9, Direction::Out)] {
        assert_eq!(port.name_move(tag, direction, 0, 600), Ok(()));
    }
    port
}

/// A turn with the first or the second operation of a move.
fn turn(tag: u64, direction: Direction, number: u32) -> Turn {
    let kind = if direction == Direction::Out { Kind::Read } else { Kind::Write };
    let (address, length, offset) = if number == 1 { (0x3000, 512, 0) } else { (0x3200, 88, 512) };
    Turn { tag, direction, operation: Operation { kind, handle: 5, address, length, offset }, number }
}

/// Whose turns they were.
fn order(turns: impl Iterator<Item = Turn>) -> Vec<(u64, Direction, u32)> {
    turns.map(|Turn { tag, direction, number, .. }| (tag, direction, number)).collect()
}

#[test]
fn each_in_its_turn() {
    let mut port = four_moves();
    let mut expected = Vec::new();
    for number in [1, 2] {
        expected.push(turn(9, Direction::In, number));
        expected.push(turn(10, Direction::Out, number));
        expected.push(turn(10, Direction::In, number));
        expected.push(turn(9, Direction::Out, number));
    }
    assert_eq!(port.turns().unwrap().collect::<Vec<Turn>>(), expected);
    assert_eq!([port.turn(), port.turn()], [Ok(None); 2], "idle");
    assert_eq!(port.step(9, Direction::In), Ok(Step { operation: None, number: 2 }));
}

/// An iterator that is dropped leaves the rest as it stands, and a step in between keeps the place of its move.
#[test]
fn some_turns_and_a_step() {
    let mut port = four_moves();
    let first = order(port.turns().unwrap().take(2));
    assert_eq!(first, [(9, Direction::In, 1), (10, Direction::Out, 1)]);
    assert_eq!(port.step(10, Direction::In).map(|step| step.number), Ok(1));
    assert_eq!(port.turn(), Ok(Some(turn(10, Direction::In, 2))), "where it stood");
    assert_eq!(port.step(9, Direction::In).map(|step| step.number), Ok(2), "its last");
    let rest = order(port.turns().unwrap());
    assert_eq!(rest, [(9, Direction::Out, 1), (10, Direction::Out, 2), (9, Direction::Out, 2)]);
}

/// The pieces of a move by its own iterator, dropped early: the move is in line all the while.
#[test]
fn pieces_and_turns() {
    let mut port = open_port();
    take_command(&mut port, &both_ways(9));
    port.plan(9, 600, 600).unwrap();
    assert!(port.pieces(9, Direction::In, 0, 600).unwrap().next().is_some());
    assert_eq!(port.turn(), Ok(Some(turn(9, Direction::In, 2))));
    assert_eq!((port.turn(), port.pieces(9, Direction::Out, 600, 1).unwrap().count()), (Ok(None), 0));
    assert_eq!(port.pieces(9, Direction::Out, 0, 600).unwrap().count(), 2);
    assert_eq!(port.turn(), Ok(None), "all by its own iterator");
}

#[test]
fn endings_leave_the_others() {
    let mut port = four_moves();
    assert_eq!(port.finish(9, 0, &[], &mut lent()).unwrap()[0], 0xc1);
    assert_eq!(order(port.turns().unwrap().take(2)), [(10, Direction::Out, 1), (10, Direction::In, 1)]);
    take_command(&mut port, &both_ways(9));
    port.plan(9, 600, 600).unwrap();
    assert_eq!(port.turn(), Ok(Some(turn(10, Direction::Out, 2))), "the tag used again has no move");
    port.name_move(9, Direction::Out, 0, 600).unwrap();
    abort(&mut port, 10);
    assert_eq!(order(port.turns().unwrap()), [(9, Direction::Out, 1), (9, Direction::Out, 2)]);
}

#[test]
fn a_closed_port_is_refused_21() {
    let mut port = four_moves();
    assert_eq!(port.close(0, &mut lent()).unwrap()[0], 0x80);
    assert_eq!(port.turn(), Err(Refusal::Closed));
    assert_eq!(port.turns().err(), Some(Refusal::Closed));
    assert_eq!(Port::closed().turn(), Err(Refusal::Closed));
    assert_eq!(port.renew(&SETTINGS, &OWN, &login_request(), &mut lent()).unwrap()[0], 0xc0);
    assert_eq!(port.turn(), Ok(None), "idle after a login");
}

/// 16 commands, both ways: each of 32 moves once in 32 turns.
#[test]
fn a_whole_line() {
    let mut port = port_with(&Settings { buffers: 16, ..SETTINGS });
    let mut moves = Vec::new();
    for tag in 0..16 {
        take_command(&mut port, &both_ways(tag << 40));
        port.plan(tag << 40, 600, 600).unwrap();
        for direction in [Direction::In, Direction::Out] {
            port.name_move(tag << 40, direction, 0, 600).unwrap();
            moves.push((tag << 40, direction));
        }
    }
    for number in [1, 2] {
        let expected: Vec<_> = moves.iter().map(|&(tag, direction)| (tag, direction, number)).collect();
        assert_eq!(order(port.turns().unwrap().take(32)), expected);
    }
    assert_eq!(port.turn(), Ok(None));
}
