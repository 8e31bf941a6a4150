//! The segment that holds an offset, as srp_cut and srp_target_step find it. A buffer is laid out byte by byte, so that
//! the piece at an offset is read off a table, with no search and no sum; where its lengths are too large for that, the
//! first and the last byte of each segment are tried.

use std::array;

use srp_tests::limits::Limits;
use srp_tests::model::MemoryDescriptor;
use srp_tests::position::KINDS;
use srp_tests::search::{first_and_last, piece, segments, segments_around, table, Search};

/// The most bytes that a buffer can have, and the highest end of a move.
const MOST: u64 = u32::MAX as u64;

/// Every offset of a list, and its end; gives how many pieces Q made shorter.
fn every_offset(search: &mut Search, list: &[MemoryDescriptor], limits: Limits) -> u64 {
    let (bytes, mut shorter) = (table(list), 0);
    let b = bytes.len() as u64;
    for r in [b, b.saturating_sub(1), MOST] {
        let due = r.min(b);
        search.plan(list, limits, r as u32);
        for from in 0..=due {
            let byte = bytes.get(from as usize);
            let expected = piece(byte, limits, from, due);
            shorter += u64::from(expected != piece(byte, limits.m.into(), from, due));
            search.judge_cut(list, limits, r as u32, from, expected);
            for count in [1, u32::MAX] {
                let to = due.min(from + u64::from(count));
                search.judge_step(list, from, count, piece(byte, limits, from, to));
            }
        }
    }
    shorter
}

/// With no boundary.
fn with_each_m(search: &mut Search, lengths: &[u32]) {
    for m in [1, 2, 512] {
        assert_eq!(every_offset(search, &segments(lengths), m.into()), 0);
    }
}

/// Every list of so many lengths of 0 to 3.
fn small(count: usize) -> impl Iterator<Item = Vec<u32>> {
    (0..1 << (2 * count)).map(move |digits: u32| (0..count).map(|at| digits >> (2 * at) & 3).collect())
}

#[test]
fn every_small_list() {
    let mut search = Search::new(41);
    (0..=4).flat_map(small).for_each(|lengths| with_each_m(&mut search, &lengths));
    let kinds: Vec<&str> = KINDS.into_iter().filter(|kind| !kind.contains("32")).collect();
    search.tell("search, every small list", 1_000, &kinds);
}

/// Each segment has a multiple of Q in it, at its ends or just behind it.
#[test]
fn every_small_list_around_multiples() {
    let (mut search, mut shorter) = (Search::new(46), 0);
    for (lengths, q) in (1..=4).flat_map(small).flat_map(|lengths| [512, 4096, 1 << 32].map(|q| (lengths.clone(), q))) {
        for before in 0..=3 {
            let list = segments_around(&lengths, q, before);
            let m = if before % 2 == 0 { 512 } else { 2 };
            shorter += every_offset(&mut search, &list, Limits { m, q });
        }
    }
    let kinds: Vec<&str> = KINDS.into_iter().filter(|kind| !kind.contains("32")).collect();
    search.tell("search, every small list around multiples", 1_000, &kinds);
    assert!(shorter > 5_000, "{shorter} pieces up to a multiple");
}

/// Lists of so many lengths: alike, unlike, with empty segments first, in the midst, last and in runs, all empty but
/// one wherever it stands, and all empty.
fn long(count: usize) -> Vec<Vec<u32>> {
    let of = |length: fn(usize, usize) -> u32| (0..count).map(|at| length(at, count)).collect();
    let mut lists: Vec<Vec<u32>> = vec![
        of(|_, _| 1),
        of(|_, _| 3),
        of(|at, _| at as u32 % 5),
        of(|at, _| if at == 0 { 0 } else { 2 }),
        of(|at, count| if at == count / 2 { 0 } else { 2 }),
        of(|at, count| if at == count - 1 { 0 } else { 2 }),
        of(|at, count| if at < count / 4 || at >= count - 3 { 0 } else { 2 }),
        of(|at, _| if at % 7 > 2 { 0 } else { 3 }),
        of(|at, count| if at == 0 || at == count - 1 { 3 } else { 0 }),
    ];
    lists.extend((0..=count).map(|only| (0..count).map(|at| if at == only { 4 } else { 0 }).collect()));
    lists
}

#[test]
fn long_lists() {
    let mut search = Search::new(42);
    [8, 16, 31, 32].into_iter().flat_map(long).for_each(|lengths| with_each_m(&mut search, &lengths));
    search.tell("search, long lists", 300, &KINDS);
}

/// Lists of 32 lengths whose sum is 2^32 - 1.
fn large() -> [[u32; 32]; 7] {
    [
        array::from_fn(|at| (1 << 27) - u32::from(at == 31)),
        array::from_fn(|at| if at % 2 == 0 { 0 } else { (1 << 28) - u32::from(at == 31) }),
        array::from_fn(|at| 1 << at),
        array::from_fn(|at| 1 << (31 - at)),
        array::from_fn(|at| if at == 0 { u32::MAX - 31 } else { 1 }),
        array::from_fn(|at| if at == 31 { u32::MAX - 31 } else { 1 }),
        array::from_fn(|at| [0, u32::MAX - 9, 0, 9, 0][at.min(4)]),
    ]
}

/// Each M alone, and with a boundary: by a small one a segment's first piece is Q long.
const LIMITS: [Limits; 6] = [
    Limits { m: 1, q: 0 },
    Limits { m: 512, q: 0 },
    Limits { m: 1_048_576, q: 0 },
    Limits { m: 512, q: 1 << 32 },
    Limits { m: 1_048_576, q: 512 },
    Limits { m: 1_048_576, q: 4096 },
];

#[test]
fn large_lengths() {
    let mut search = Search::new(43);
    for (lengths, limits) in large().into_iter().flat_map(|lengths| LIMITS.map(|limits| (lengths, limits))) {
        let list = segments(&lengths);
        search.plan(&list, limits, u32::MAX);
        for (from, byte) in first_and_last(&list, MOST) {
            search.judge_cut(&list, limits, u32::MAX, from, piece(Some(&byte), limits, from, MOST));
            for count in [1, 600, u32::MAX] {
                let to = MOST.min(from + u64::from(count));
                search.judge_step(&list, from, count, piece(Some(&byte), limits, from, to));
            }
        }
        search.judge_cut(&list, limits, u32::MAX, MOST, None);
        search.judge_step(&list, MOST, u32::MAX, None);
    }
    search.tell("search, large lengths", 20, &KINDS);
}

/// Lists of 32 lengths whose sum is 2^32 or more. A move ends at 2^32 - 1 at most, and that lies before the end of the
/// last segment that it reaches.
fn beyond() -> Vec<[u32; 32]> {
    let alike = [u32::MAX, 1 << 31, 1 << 30, (1 << 27) + 1].map(|length| [length; 32]);
    let then_largest = |lengths: &[u32]| array::from_fn(|at| lengths.get(at).copied().unwrap_or(u32::MAX));
    let unlike = [
        then_largest(&[1]),
        then_largest(&[0, 1, 0]),
        then_largest(&[(1 << 31) + 5]),
        then_largest(&[0, u32::MAX - 1, 0, 2, 0]),
        then_largest(&[1; 31]),
        then_largest(&[1 << 27; 31]),
        array::from_fn(|at| if at == 31 { u32::MAX } else { 1 << at }),
        array::from_fn(|at| if at % 4 == 3 { 0 } else { 1 << 30 }),
    ];
    [&alike[..], &unlike].concat()
}

/// Such lists lie in no store that calls have made. Segments here pass 2^64 too: an address counts modulo that.
#[test]
fn lengths_beyond_2_32() {
    let mut search = Search::new(44);
    let planned = segments(&large()[0]);
    for (lengths, limits) in beyond().into_iter().flat_map(|lengths| LIMITS.map(|limits| (lengths, limits))) {
        let mut list = segments(&lengths);
        list.iter_mut().skip(1).step_by(2).for_each(|segment| segment.address = u64::MAX - 2);
        search.plan(&planned, limits, u32::MAX);
        search.write_over(&planned, &list);
        for (from, byte) in first_and_last(&list, MOST) {
            for count in [1, 600, u32::MAX] {
                let to = MOST.min(from + u64::from(count));
                search.judge_step(&list, from, count, piece(Some(&byte), limits, from, to));
            }
        }
        search.judge_step(&list, MOST, u32::MAX, None);
    }
    search.tell("search, lengths beyond 2^32", 10, &KINDS);
}

/// A list in the store that has fewer bytes than were planned: behind its last byte step says done.
#[test]
fn lists_that_end_early() {
    let (mut search, limits) = (Search::new(45), Limits { m: 2, q: 0 });
    let small = small(3).map(|lengths| (lengths, 3));
    let long = [8, 31, 32].into_iter().flat_map(long).map(|lengths| (lengths, 5));
    for (lengths, most) in small.chain(long) {
        let (planned, list) = (segments(&vec![most; lengths.len()]), segments(&lengths));
        let (b, bytes) = (u64::from(most) * lengths.len() as u64, table(&list));
        search.plan(&planned, limits, b as u32);
        search.write_over(&planned, &list);
        for from in 0..=b {
            search.judge_step(&list, from, u32::MAX, piece(bytes.get(from as usize), limits, from, b));
        }
    }
    search.tell("search, lists that end early", 10, &KINDS);
}
