//! Job 4 of document 02: the number of operations of a move, which is the length of its cut list, and "every other list
//! of operations that covers the same bytes in order, each inside one segment and at most M long, has at least as
//! many"; by job 6 these lists "obey Q too". On small buffers every such list is tried.

use srp_tests::judge::{bytes_of, is_multiple, judge, Byte, AT_MULTIPLE, ENDS};
use srp_tests::limits::Limits;
use srp_tests::model::MemoryDescriptor;
use srp_tests::port::generate::{command, Data};
use srp_tests::port::plain::{copied, Plain};
use srp_tests::random::Random;
use srp_tests::rivals::{by_segment, by_stretch, fewest, rivals};
use srp_tests::search;
use srp_tests::tally::Tally;

const TAG: u64 = 9;

/// A piece, and its offset in the buffer.
type Piece = (MemoryDescriptor, u32);

/// A planned command with some segments in one direction. In the other direction all of a segment was moved.
struct Command {
    plain: Plain,
    direction: u32,
    /// Operations of the other direction's move.
    other: usize,
}

impl Command {
    /// Every descriptor stands in the message.
    fn new(segments: &[MemoryDescriptor], limits: impl Into<Limits>, direction: u32) -> Self {
        let mut plain = Plain::after_login(1, limits);
        let mut data = [0, 1].map(|_| copied(&[MemoryDescriptor { address: 0x9999, handle: 99, length: 9 }]));
        data[direction as usize] = if segments.is_empty() { Data::none() } else { copied(segments) };
        let msg = command(&mut Random::new(5), TAG, 0, 0, &data);
        assert_eq!(plain.port().take(&msg, &mut [0; 132]), 0, "taken");
        assert_eq!(plain.port().plan(TAG, u32::MAX, u32::MAX), 0, "planned");
        let mut other = Command { plain, direction: 1 - direction, other: 0 };
        assert_eq!(other.step(), (None, 0), "before any move");
        let pieces = other.moved(0, 9).len();
        Command { plain: other.plain, direction, other: pieces }
    }

    /// The piece of a step, none where it says done, and its number.
    fn step(&mut self) -> (Option<Piece>, u64) {
        assert_eq!(self.plain.port().step(TAG, self.direction), 0, "step");
        match self.plain.answer {
            [1, operation, handle, address, length, offset, number, 0] => {
                assert_eq!(operation, u64::from(self.direction) + 1, "RDMA Read or Write");
                let memory = MemoryDescriptor { address, handle: handle as u32, length: length as u32 };
                (Some((memory, offset as u32)), number)
            }
            [0, 0, 0, 0, 0, 0, number, 0] => (None, number),
            answer => panic!("no answer of step: {answer:x?}"),
        }
    }

    /// The pieces of a move, numbered from 1 on; done has the last number, each time again.
    fn moved(&mut self, from: u32, to: u32) -> Vec<Piece> {
        assert_eq!(self.plain.port().name_move(TAG, self.direction, from, to - from), 0, "move");
        let mut pieces = Vec::new();
        while let (Some(piece), number) = self.step() {
            pieces.push(piece);
            assert_eq!(number, pieces.len() as u64, "their own piece included");
            assert!(number <= (to - from).into(), "each piece has a byte");
        }
        assert_eq!([self.step(), self.step()], [(None, pieces.len() as u64); 2], "done");
        pieces
    }

    /// The other direction's number is as it was.
    fn assert_other(&mut self) {
        self.direction = 1 - self.direction;
        assert_eq!(self.step(), (None, self.other as u64), "the other direction");
    }
}

/// What the moves came to.
#[derive(Debug, Default, PartialEq)]
struct Found {
    moves: u64,
    empty: u64,
    /// Rival lists.
    lists: u64,
    /// Moves with a byte whose number is the bound, and those below it.
    at_bound: u64,
    below_bound: u64,
    /// Moves with a multiple of Q inside a segment's part of them, and those whose number is the bound.
    with_q: u64,
    at_bound_with_q: u64,
    /// Moves without a boundary that would need fewer operations if adjoining segments were one.
    joined: u64,
}

impl Found {
    /// A move's number against every rival list and the bound.
    fn judge(&mut self, bytes: &[Byte], from: usize, to: usize, limits: Limits, number: u64) {
        let m = limits.m as usize;
        let all = rivals(&by_segment(bytes, limits.q), from, to, m);
        assert_eq!(number, all.fewest, "{from} to {to}, {limits:?}, {bytes:?}");
        self.lists += all.lists;
        self.joined += u64::from(limits.q == 0 && rivals(&by_stretch(bytes), from, to, m).fewest < number);
        self.judge_bound(&bytes[from..to], limits, number);
    }

    /// "At most (segments with a byte in the move) + (bytes of the move divided by M, rounded down)"; "the bound there
    /// grows by one for each multiple of Q strictly inside a segment's part of the move".
    fn judge_bound(&mut self, moved: &[Byte], limits: Limits, number: u64) {
        let inside = multiples_inside(moved, limits.q);
        let bound = segments_with_a_byte(moved) + moved.len() as u64 / u64::from(limits.m) + inside;
        assert!(number <= bound, "{number} operations, {limits:?}, {moved:?}");
        let some = !moved.is_empty();
        self.moves += 1;
        self.empty += u64::from(!some);
        self.at_bound += u64::from(some && number == bound);
        self.below_bound += u64::from(some && number < bound);
        self.at_bound_with_q += u64::from(inside > 0 && number == bound);
        self.with_q += u64::from(inside > 0);
    }
}

/// "Segments with a byte in the move", byte by byte.
fn segments_with_a_byte(moved: &[Byte]) -> u64 {
    let mut seen: Vec<usize> = Vec::new();
    for byte in moved {
        if !seen.contains(&byte.segment) {
            seen.push(byte.segment);
        }
    }
    seen.len() as u64
}

/// "Each multiple of Q strictly inside a segment's part of the move": bytes at a multiple, behind another of their
/// segment.
fn multiples_inside(moved: &[Byte], q: u64) -> u64 {
    let inside = |pair: &&[Byte]| pair[0].segment == pair[1].segment && is_multiple(pair[1].address, q);
    moved.windows(2).filter(inside).count() as u64
}

/// The list of so many lengths of 0 to 4 that a number has as its digits; and where the segments lie: each behind the
/// last one with the same handle, behind it with another, or apart.
fn list(count: u32, digits: u32) -> Vec<MemoryDescriptor> {
    let (mut address, mut handle) = (0x1000, 7);
    let segment = |at: u32| {
        let length = digits / 5u32.pow(at) % 5;
        match (digits + at) % 3 {
            0 => {}
            1 => handle += 1,
            _ => address += 0x1000,
        }
        let segment = MemoryDescriptor { address, handle, length };
        address += u64::from(length);
        segment
    };
    (0..count).map(segment).collect()
}

/// Every move of the buffer, one after the other on the same command.
fn every_move(list: &[MemoryDescriptor], limits: Limits, direction: u32, found: &mut Found, tally: &mut Tally) {
    let (bytes, mut command) = (bytes_of(list), Command::new(list, limits, direction));
    for from in 0..=bytes.len() {
        for to in from..=bytes.len() {
            let pieces = command.moved(from as u32, to as u32);
            judge(&bytes, from..to, limits, &pieces, tally);
            found.judge(&bytes, from, to, limits, pieces.len() as u64);
        }
    }
    command.assert_other();
}

/// All lists of up to 4 segments of 0 to 4 bytes, M from 1 to 5, all moves. How many rival lists there are follows from
/// the parts of the segments, each cut in as many ways as its length is a sum of numbers up to M.
#[test]
fn every_rival_of_small_moves() {
    let (mut found, mut tally) = (Found::default(), Tally::default());
    for (count, digits) in (0..=4).flat_map(|count| (0..5u32.pow(count)).map(move |digits| (count, digits))) {
        let segments = list(count, digits);
        (1..=5).for_each(|m| every_move(&segments, m.into(), (digits + m) % 2, &mut found, &mut tally));
    }
    println!("fewest, against {} rival lists: {} pieces", found.lists, tally.total());
    assert_eq!((found.moves, found.empty, found.lists), (174_805, 33_205, 1_313_349));
    assert_eq!((found.at_bound, found.below_bound, found.joined), (54_126, 87_474, 16_678));
    assert_eq!(found.with_q, 0);
    tally.assert_each(10_000, &ENDS);
}

/// All lists of up to 3 segments of 0 to 4 bytes, each with a multiple of Q up to 4 bytes behind its first address, M
/// and all moves as above.
#[test]
fn every_rival_around_multiples() {
    let (mut found, mut tally) = (Found::default(), Tally::default());
    for (count, digits) in (1..=3).flat_map(|count| (0..5u32.pow(count)).map(move |digits| (count, digits))) {
        let lengths: Vec<u32> = (0..count).map(|at| digits / 5u32.pow(at) % 5).collect();
        for (before, m) in (0..=4).flat_map(|before| (1..=5).map(move |m| (before, m))) {
            let limits = Limits { m, q: if m % 2 == 0 { 512 } else { 1 << 32 } };
            let list = search::segments_around(&lengths, limits.q, before);
            every_move(&list, limits, (digits + m) % 2, &mut found, &mut tally);
        }
    }
    println!("fewest, against {} rival lists around multiples: {} pieces", found.lists, tally.total());
    assert_eq!((found.moves, found.empty, found.lists), (108_375, 25_375, 311_006));
    assert_eq!((found.at_bound, found.below_bound), (36_732, 46_268));
    assert_eq!((found.with_q, found.at_bound_with_q), (20_965, 4_018));
    tally.assert_each(1_000, &[&ENDS[..], &[AT_MULTIPLE]].concat());
}

/// Moves of up to 4,500 bytes across several multiples of Q, against the fewest operations of all lists for each of
/// their bytes.
#[test]
fn moves_across_many_multiples() {
    let (mut random, mut found, mut tally) = (Random::new(61), Found::default(), Tally::default());
    for _ in 0..300 {
        let m = random.of(&[100, 300, 511, 512, 513, 600, 4096]);
        let limits = Limits { m, q: random.of(&[512, 512, 1024, 2048]) };
        let lengths: Vec<u32> = (0..1 + random.below(3)).map(|_| random.up_to(1500) as u32).collect();
        let list = search::segments_around(&lengths, limits.q, random.up_to(limits.q));
        let (bytes, mut command) = (bytes_of(&list), Command::new(&list, limits, random.below(2) as u32));
        let parts = by_segment(&bytes, limits.q);
        for _ in 0..6 {
            let from = random.below(bytes.len() + 1);
            let to = from + random.below(bytes.len() - from + 1);
            let (from, to) = random.of(&[(0, bytes.len()), (0, to), (from, to), (from, bytes.len())]);
            let pieces = command.moved(from as u32, to as u32);
            judge(&bytes, from..to, limits, &pieces, &mut tally);
            let number = fewest(&parts, from, to, m as usize);
            assert_eq!(pieces.len() as u64, number, "{from} to {to}, {limits:?}, {list:x?}");
            found.judge_bound(&bytes[from..to], limits, number);
        }
    }
    println!("fewest, across many multiples: {} pieces", tally.total());
    assert!(found.with_q > 1_000 && found.at_bound_with_q > 100, "{found:?}");
    tally.assert_each(500, &[&ENDS[..], &[AT_MULTIPLE]].concat());
}

/// The most operations that a move can have with the longest M: each segment ends with a piece of less than M.
#[test]
fn the_most_operations() {
    const M: u32 = 1_048_576;
    let mut lengths = [128 * M + 1; 32];
    lengths[31] = u32::MAX - lengths[..31].iter().sum::<u32>();
    let mut command = Command::new(&search::segments(&lengths), M, 0);
    let pieces = command.moved(0, u32::MAX);
    assert_eq!((pieces.len(), 32 + u32::MAX / M), (4127, 4127));
    assert_eq!(pieces.iter().map(|(memory, _)| u64::from(memory.length)).sum::<u64>(), u64::from(u32::MAX));
    assert_eq!(command.moved(0, 1).len(), 1, "another move");
    command.assert_other();
}

/// With a boundary: each part of n bytes has 1 + n / Q multiples inside it, and all of them 32 + bytes / Q.
#[test]
fn the_most_operations_with_a_boundary() {
    const LIMITS: Limits = Limits { m: 1_048_576, q: 4096 };
    let mut lengths = [(1 << 27) + 2; 32];
    lengths[31] = u32::MAX - lengths[..31].iter().sum::<u32>();
    let segment = |at: usize| MemoryDescriptor { address: ((at as u64 + 1) << 40) - 1, handle: 7, length: lengths[at] };
    let mut command = Command::new(&(0..32).map(segment).collect::<Vec<_>>(), LIMITS, 1);
    let pieces = command.moved(0, u32::MAX);
    assert_eq!((pieces.len(), 32 + 32 + u32::MAX / 4096), (1_048_639, 1_048_639));
    assert_eq!(pieces.iter().map(|(memory, _)| u64::from(memory.length)).sum::<u64>(), u64::from(u32::MAX));
    command.assert_other();
}

/// An operation for each byte.
#[test]
fn pieces_of_one_byte() {
    let mut command = Command::new(&search::segments(&[30_000, 0, 70_000]), 1, 1);
    assert_eq!((command.moved(0, 100_000).len(), command.moved(29_999, 30_001).len()), (100_000, 2));
    command.assert_other();
}
