//! Moves on a port, judged byte by byte by the words of documents 01 and 02 and not by the model: the pieces of a move
//! cover its bytes from its offset to the smaller of offset + count and min(R, B), cut from there as document 01 cuts
//! and at multiples of Q, and are numbered from 1 on; the listing and the residual take h, which is the highest offset
//! handed out + 1.

use srp_tests::judge::{bytes_of, judge, Byte, AT_MULTIPLE, ENDS};
use srp_tests::limits::Limits;
use srp_tests::model::MemoryDescriptor;
use srp_tests::port::generate::command;
use srp_tests::port::plain::{fetched, finish, login, open};
use srp_tests::port::{library::Library, Call, Target};
use srp_tests::random::Random;
use srp_tests::tally::Tally;

const TAG: u64 = 9;

/// A planned command, and what its owner knows of it.
struct Command {
    port: Library,
    direction: u32,
    limits: Limits,
    bytes: Vec<Byte>,
    r: usize,
    /// The highest offset handed out + 1.
    h: usize,
    /// Operations since the current move was named.
    number: u64,
}

/// Up to 32 segments, some without a byte; half of them begin up to 90 bytes before a multiple of 1,024.
fn segments(random: &mut Random) -> Vec<MemoryDescriptor> {
    let most = random.of(&[1, 3, 32]);
    let count = 1 + random.below(most);
    let length = |random: &mut Random| if random.one_in(4) { 0 } else { random.below(90) as u32 };
    let before = |random: &mut Random| (1 + (random.u64() >> 12)) * 1024 - random.up_to(90);
    let address = |random: &mut Random| if random.one_in(2) { before(random) } else { random.u64() >> 1 };
    let segment = |_| MemoryDescriptor { address: address(random), handle: random.u32(), length: length(random) };
    (0..count).map(segment).collect()
}

impl Command {
    fn new(random: &mut Random) -> Self {
        let (mut port, m) = (Library::new(random.u64()), random.of(&[1, 2, 3, 7, 16, 31, 64, 100, 512]));
        let limits = Limits { m, q: random.of(&[0, 512, 512, 1024, 1 << 32]) };
        port.call(&login(random, 1, limits, 1364, 0b110));
        let (moved, other, direction) = (segments(random), segments(random), random.below(2));
        let data = [0, 1].map(|at| fetched(if at == direction { &moved } else { &other }));
        let msg = command(random, TAG, 0, 0, &data);
        open(&mut port, &msg, &data);
        let bytes = bytes_of(&moved);
        let r = random.of(&[bytes.len(), bytes.len(), bytes.len() + 7, bytes.len().saturating_sub(1), bytes.len() / 2]);
        let mut required = [random.any_size(), random.any_size()];
        required[direction] = r as u32;
        assert_eq!(port.call(&Call::Plan { tag: TAG, r_out: required[0], r_in: required[1] }).returned, 0, "planned");
        Command { port, direction: direction as u32, limits, bytes, r, h: 0, number: 0 }
    }

    /// min(R, B).
    fn due(&self) -> usize {
        self.r.min(self.bytes.len())
    }

    fn name(&mut self, offset: usize, count: u32) -> u32 {
        let (direction, offset) = (self.direction, offset as u32);
        let returned = self.port.call(&Call::Move { tag: TAG, direction, offset, count }).returned;
        if returned == 0 {
            self.number = 0;
        }
        returned
    }

    /// The next piece and its offset, None for done; both with the number of operations.
    fn step(&mut self) -> Option<(MemoryDescriptor, u32)> {
        let outcome = self.port.call(&Call::Step { tag: TAG, direction: self.direction });
        assert_eq!(outcome.returned, 0, "step");
        match outcome.answer {
            [1, _, handle, address, length, offset, number, 0] => {
                self.h = self.h.max((offset + length) as usize);
                self.number += 1;
                assert_eq!(number, self.number, "their own piece included");
                Some((MemoryDescriptor { address, handle: handle as u32, length: length as u32 }, offset as u32))
            }
            answer => {
                assert_eq!(answer, [0, 0, 0, 0, 0, 0, self.number, 0], "done");
                None
            }
        }
    }

    fn assert_listed(&mut self) {
        let records = self.port.call(&Call::List { records: vec![0; 64] }).records;
        assert_eq!(records[2..4][self.direction as usize], self.h as u64, "h, where bytes were handed out");
        assert_eq!(records[2..4][1 - self.direction as usize], 0, "h, where none were");
    }

    /// Over by R - B, else under by B - h, else none.
    fn assert_residual(mut self) {
        let response = self.port.call(&finish(TAG)).buf;
        let (b, at) = (self.bytes.len(), 4 * self.direction as usize);
        let (flag, count) = if self.r > b {
            (0b01, self.r - b)
        } else if self.h < b {
            (0b10, b - self.h)
        } else {
            (0b00, 0)
        };
        assert_eq!(response[18] >> (2 + 2 * self.direction) & 0b11, flag, "over, under or none");
        assert_eq!(response[20 + at..24 + at], (count as u32).to_be_bytes(), "the residual");
    }
}

/// An offset up to min(R, B) or one above, and a count; the sum may pass 2^32.
fn range(random: &mut Random, due: usize) -> (usize, u32) {
    let below = random.below(due + 1);
    let offset = random.of(&[0, below, below, below, due.saturating_sub(1), due, due + 1]);
    let wrapping = 0u32.wrapping_sub(offset as u32);
    let count = random.of(&[0, 1, 40, due as u32, due as u32 + 1, wrapping, wrapping.wrapping_add(9), u32::MAX]);
    (offset, count)
}

/// Names a move and judges its pieces; in the midst of them another move is refused.
fn walk(command: &mut Command, random: &mut Random, tally: &mut Tally) {
    let due = command.due();
    let (offset, count) = range(random, due);
    if offset > due {
        assert_eq!(command.name(offset, count), 31, "offset above min(R, B)");
        return tally.add("refused 31");
    }
    assert_eq!(command.name(offset, count), 0, "move");
    let end = due.min(offset + count as usize);
    let (mut pieces, mut next, tried) = (Vec::new(), offset, random.below(6));
    loop {
        if pieces.len() == tried && next < end {
            assert_eq!([command.name(due, 0), command.name(due + 1, 0)], [32, 31], "pieces are left");
            tally.add("refused 32");
        }
        let Some((memory, at)) = command.step() else { break };
        next += memory.length as usize;
        pieces.push((memory, at));
    }
    judge(&command.bytes, offset..end, command.limits, &pieces, tally);
    tally.add(if offset < end { "move" } else { "empty move" });
}

#[test]
fn every_byte_of_small_moves() {
    let (mut random, mut tally) = (Random::new(9), Tally::default());
    for _ in 0..1_500 {
        let mut command = Command::new(&mut random);
        assert_eq!(command.step(), None, "plan alone starts no move");
        for _ in 0..random.below(6) {
            let before = command.h;
            walk(&mut command, &mut random, &mut tally);
            assert!(command.h >= before, "h never falls");
            command.assert_listed();
        }
        command.assert_residual();
    }
    tally.print("moves, judged byte by byte");
    let kinds = ["move", "empty move", "refused 31", "refused 32", AT_MULTIPLE];
    tally.assert_each(300, &[&kinds, &ENDS[..]].concat());
}
