//! Commands with one segment each way and a move of all of it, for tests of the line: up to 32 moves are in it.

use super::call::{Call, Outcome, Target};
use super::generate::{command, request_with, Data};
use super::plain::{login, take};
use crate::generate::Descriptor;
use crate::model::turns::Place;
use crate::model::MemoryDescriptor;
use crate::random::Random;

/// M of the login; a segment of n times this has n pieces.
pub const M: u32 = 16;

/// So many pieces have the moves of 16 commands, data-out and data-in: from one to 1,500, long ones beside short ones.
#[rustfmt::skip]
pub const PIECES: [[u32; 2]; 16] = [
    [1, 1500], [2, 1], [700, 3], [1, 1], [40, 9], [5, 1200], [33, 32], [1, 2],
    [900, 1], [64, 65], [3, 4], [1, 311], [17, 1000], [6, 1], [2, 128], [31, 250],
];

/// An operation as an answer has it: kind, handle, address, length, offset and number.
pub type Operation = [u64; 6];

pub fn lun_of(tag: u64) -> u64 {
    tag % 5
}

fn direct(tag: u64, way: u32, pieces: u32) -> Data {
    let (address, handle) = ((tag + 1) << 32 | u64::from(way) << 28, way + 1);
    Data { descriptor: Descriptor::Direct(MemoryDescriptor { address, handle, length: M * pieces }), table: Vec::new() }
}

pub fn log_in(target: &mut impl Target) {
    let accepted = target.call(&login(&mut Random::new(81), 16, M, 1364, 0b110));
    assert_eq!((accepted.returned, accepted.answer[1]), (0, 0), "login");
}

/// Takes and plans a command with so many pieces each way.
pub fn open(target: &mut impl Target, tag: u64, [out, inn]: [u32; 2]) {
    let data = [direct(tag, 0, out), direct(tag, 1, inn)];
    let msg = command(&mut Random::new(tag), tag, lun_of(tag), 0, &data);
    assert_eq!(target.call(&take(&msg)).returned, 0, "take of {tag}");
    assert_eq!(target.call(&Call::Plan { tag, r_out: u32::MAX, r_in: u32::MAX }).returned, 0, "plan of {tag}");
}

/// Names a move of so many pieces, from the first byte on.
pub fn name(target: &mut impl Target, Place { tag, direction }: Place, pieces: u32) {
    let named = target.call(&Call::Move { tag, direction, offset: 0, count: M * pieces });
    assert_eq!(named.returned, 0, "move of {tag}");
}

/// The operation of a piece of that move.
pub fn operation(Place { tag, direction }: Place, number: u64) -> Operation {
    let (direction, length) = (u64::from(direction), u64::from(M));
    let offset = length * (number - 1);
    [direction + 1, direction + 1, ((tag + 1) << 32 | direction << 28) + offset, length, offset, number]
}

/// Whose piece a turn handed out, and the piece; None for idle.
pub fn served(outcome: &Outcome) -> Option<(Place, Operation)> {
    assert_eq!(outcome.returned, 0, "turn");
    let [piece, operation @ .., tag] = outcome.answer;
    match piece {
        0 => assert_eq!(outcome.answer, [0; 8], "idle"),
        _ => assert!(piece == 1 && [1, 2].contains(&operation[0]), "{outcome:x?}"),
    }
    (piece == 1).then(|| (Place::new(tag, operation[0] as u32 - 1), operation))
}

/// A task request with the tag FFFFh.
pub fn task(function: u8, lun: u64, task_tag: u64) -> Call {
    let mut msg = request_with(vec![0; 48], 0xffff, lun);
    (msg[0], msg[30]) = (0x01, function);
    msg[32..40].copy_from_slice(&task_tag.to_be_bytes());
    take(&msg)
}

/// A port with 16 commands open and a move each way of each, named in the order of the list that comes with it.
pub fn crowded<T: Target>(mut target: T, seed: u64) -> (T, Vec<Place>) {
    log_in(&mut target);
    let mut places: Vec<Place> = (0..32).map(|at| Place::new(at / 2, at as u32 % 2)).collect();
    for (tag, pieces) in (0..).zip(PIECES) {
        open(&mut target, tag, pieces);
    }
    let mut random = Random::new(seed);
    for at in (1..32).rev() {
        places.swap(at, random.below(at + 1));
    }
    places.iter().for_each(|&place| name(&mut target, place, pieces_of(place)));
    (target, places)
}

pub fn pieces_of(place: Place) -> u32 {
    PIECES[place.tag as usize][place.direction as usize]
}
