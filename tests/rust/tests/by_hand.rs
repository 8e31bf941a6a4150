//! P1 to P7 of document 01, and moves of P2's segments, their numbers and turns over them, with the bytes written out.

use srp_tests::interface::Port;
use srp_tests::port::plain::Plain;

const LONGEST: u32 = 1364;
const BOTH_FORMATS: u32 = 0b110;
const FILL: u8 = 0x5b;
const NO_FETCH: [u8; 16] = [0; 16];

/// Look on a buffer of 36 bytes: what it returned, its 32 bytes, and the 4 behind them, which must stay.
fn look(msg: &[u8]) -> (u32, [u8; 32]) {
    let mut buf = [FILL; 36];
    let returned = srp_tests::look(msg, LONGEST, BOTH_FORMATS, &mut buf);
    assert_eq!(buf[32..], [FILL; 4]);
    (returned, buf[..32].try_into().unwrap())
}

fn cut(list: &[u8], m: u32, r: u32, handed: u32) -> (u32, [u8; 32]) {
    let mut buf = [FILL; 36];
    let returned = srp_tests::cut(list, m.into(), r, handed, &mut buf);
    assert_eq!(buf[32..], [FILL; 4]);
    (returned, buf[..32].try_into().unwrap())
}

const UNTOUCHED: [u8; 32] = [FILL; 32];
const DONE: (u32, [u8; 32]) = (0, [0; 32]);

/// The first 48 bytes of an SRP_CMD with tag 1 and LUN 0: formats, out count, in count, byte 31.
#[rustfmt::skip]
const fn head(formats: u8, out_count: u8, in_count: u8, byte_31: u8) -> [u8; 48] {
    [
        0x02, 0x04, 0, 0, 0, formats, out_count, in_count, // type, UCSOLNT, formats, counts
        0, 0, 0, 0, 0, 0, 0, 1,                            // tag
        0, 0, 0, 0, 0, 0, 0, 0,                            // reserved, LUN
        0, 0, 0, 0, 0, 0, 0, byte_31,                      // LUN, reserved, task attribute, reserved, n
        0x28, 0, 0, 0, 0, 0x10, 0, 0,                      // CDB
        0x08, 0, 0, 0, 0, 0, 0, 0,
    ]
}

/// A table at 9000h, handle 7, of 30h bytes; total 700.
#[rustfmt::skip]
const TABLE: [u8; 20] = [
    0, 0, 0, 0, 0, 0, 0x90, 0x00, 0, 0, 0, 7, 0, 0, 0, 0x30,
    0, 0, 0x02, 0xbc,
];
const TABLE_FETCH: [u8; 16] = [0, 0, 0, 0, 0, 0, 0x90, 0x00, 0, 0, 0, 7, 0, 0, 0, 0x30];

/// The segments of P2: 2000h/0, 3000h/600, 5000h/100, handle 7.
#[rustfmt::skip]
const SEGMENTS: [u8; 48] = [
    0, 0, 0, 0, 0, 0, 0x20, 0x00, 0, 0, 0, 7, 0, 0, 0, 0,
    0, 0, 0, 0, 0, 0, 0x30, 0x00, 0, 0, 0, 7, 0, 0, 0x02, 0x58,
    0, 0, 0, 0, 0, 0, 0x50, 0x00, 0, 0, 0, 7, 0, 0, 0, 100,
];

fn joined(parts: &[&[u8]]) -> Vec<u8> {
    parts.concat()
}

fn fetches(data_out: [u8; 16], data_in: [u8; 16]) -> (u32, [u8; 32]) {
    (0, joined(&[&data_out, &data_in]).try_into().unwrap())
}

#[test]
#[rustfmt::skip]
fn p1_direct_in_of_1300_bytes() {
    let segment = [0, 0, 0, 0, 0, 0, 0x10, 0x00, 0, 0, 0, 7, 0, 0, 0x05, 0x14];
    let msg = joined(&[&head(0x01, 0, 0, 0), &segment]);
    assert_eq!(look(&msg), fetches(NO_FETCH, NO_FETCH));
    let list = &msg[48..64];
    assert_eq!(cut(list, 512, 1300, 0), (0, [
        0, 0, 0, 0, 0, 0, 0x10, 0x00, 0, 0, 0, 7, 0, 0, 0x02, 0x00, // 1000h, 512
        0, 0, 0, 0, 0, 0, 0, 0, 0, 0, 0, 0, 0, 0, 0, 0,
    ]));
    assert_eq!(cut(list, 512, 1300, 512), (0, [
        0, 0, 0, 0, 0, 0, 0x12, 0x00, 0, 0, 0, 7, 0, 0, 0x02, 0x00, // 1200h, 512
        0, 0, 0x02, 0x00, 0, 0, 0, 0, 0, 0, 0, 0, 0, 0, 0, 0,
    ]));
    assert_eq!(cut(list, 512, 1300, 1024), (0, [
        0, 0, 0, 0, 0, 0, 0x14, 0x00, 0, 0, 0, 7, 0, 0, 0x01, 0x14, // 1400h, 276
        0, 0, 0x04, 0x00, 0, 0, 0, 0, 0, 0, 0, 0, 0, 0, 0, 0,
    ]));
    assert_eq!(cut(list, 512, 1300, 1300), DONE);
    assert_eq!(cut(list, 512, 1300, 1301), (11, UNTOUCHED));
}

#[test]
#[rustfmt::skip]
fn p2_empty_segment_and_one_above_m() {
    assert_eq!(cut(&SEGMENTS, 512, 700, 0), (0, [
        0, 0, 0, 0, 0, 0, 0x30, 0x00, 0, 0, 0, 7, 0, 0, 0x02, 0x00, // 3000h, 512
        0, 0, 0, 0, 0, 0, 0, 0, 0, 0, 0, 0, 0, 0, 0, 0,
    ]));
    assert_eq!(cut(&SEGMENTS, 512, 700, 512), (0, [
        0, 0, 0, 0, 0, 0, 0x32, 0x00, 0, 0, 0, 7, 0, 0, 0, 88,      // 3200h, 88
        0, 0, 0x02, 0x00, 0, 0, 0, 0, 0, 0, 0, 0, 0, 0, 0, 0,
    ]));
    assert_eq!(cut(&SEGMENTS, 512, 700, 600), (0, [
        0, 0, 0, 0, 0, 0, 0x50, 0x00, 0, 0, 0, 7, 0, 0, 0, 100,     // 5000h, 100
        0, 0, 0x02, 0x58, 0, 0, 0, 0, 0, 0, 0, 0, 0, 0, 0, 0,
    ]));
    assert_eq!(cut(&SEGMENTS, 512, 700, 700), DONE);
    // P3 and P4, as far as the cut goes: R = 650 shortens the last piece to 50, R = 800 is as R = 700.
    assert_eq!(cut(&SEGMENTS, 512, 650, 600), (0, [
        0, 0, 0, 0, 0, 0, 0x50, 0x00, 0, 0, 0, 7, 0, 0, 0, 50,
        0, 0, 0x02, 0x58, 0, 0, 0, 0, 0, 0, 0, 0, 0, 0, 0, 0,
    ]));
    assert_eq!(cut(&SEGMENTS, 512, 650, 650), DONE);
    assert_eq!(cut(&SEGMENTS, 512, 800, 600), cut(&SEGMENTS, 512, 700, 600));
    assert_eq!(cut(&SEGMENTS, 512, 800, 700), DONE);
}

#[test]
fn p5_no_data() {
    let msg = head(0x00, 0, 0, 0);
    assert_eq!(look(&msg), fetches(NO_FETCH, NO_FETCH));
    assert_eq!(look(&msg[..47]), (3, UNTOUCHED));
}

#[test]
fn p6_additional_cdb_counts_in_four_bytes() {
    let msg = joined(&[&head(0x00, 0, 0, 0x07), &[0xcd; 5]]);
    let returned = [48, 49, 51, 52, 53].map(|length| look(&msg[..length]).0);
    assert_eq!(returned, [3, 3, 3, 0, 3]);
    assert_eq!(look(&msg[..52]), fetches(NO_FETCH, NO_FETCH));
}

#[test]
fn p7_one_indirect() {
    // c = 0: 68 bytes; c = 2: 100 bytes. The table has three entries, so that it is fetched.
    let none = joined(&[&head(0x02, 0, 0, 0), &TABLE]);
    let two = joined(&[&head(0x02, 0, 2, 0), &TABLE, &SEGMENTS[..32]]);
    assert_eq!([none.len(), two.len()], [68, 100]);
    assert_eq!(look(&none), fetches(NO_FETCH, TABLE_FETCH));
    assert_eq!(look(&two), fetches(NO_FETCH, TABLE_FETCH));
    assert_eq!(look(&none[..67]), (3, UNTOUCHED));
    assert_eq!(look(&two[..99]), (3, UNTOUCHED));

    // The same as data-out.
    let none = joined(&[&head(0x20, 0, 0, 0), &TABLE]);
    let two = joined(&[&head(0x20, 2, 0, 0), &TABLE, &SEGMENTS[..32]]);
    assert_eq!(look(&none), fetches(TABLE_FETCH, NO_FETCH));
    assert_eq!(look(&two), fetches(TABLE_FETCH, NO_FETCH));

    // Three copies are the whole table: nothing to fetch. Four are more than it holds.
    let whole = joined(&[&head(0x20, 3, 0, 0), &TABLE, &SEGMENTS]);
    assert_eq!(look(&whole), fetches(NO_FETCH, NO_FETCH));
    let four = joined(&[&head(0x20, 4, 0, 0), &TABLE, &SEGMENTS, &SEGMENTS[..16]]);
    assert_eq!(look(&four), (7, UNTOUCHED));
    let four = joined(&[&head(0x02, 0, 4, 0), &TABLE, &SEGMENTS, &SEGMENTS[..16]]);
    assert_eq!(look(&four), (8, UNTOUCHED));
}

const TAG: u64 = 1;
const OUT: u32 = 0;
const IN: u32 = 1;

/// A port that has taken a command with P2's segments each way, M 512.
struct Taken(Plain);

impl Taken {
    fn new() -> Self {
        let mut taken = Taken(Plain::after_login(1, 512));
        taken.take();
        taken
    }

    fn take(&mut self) {
        let msg = joined(&[&head(0x22, 3, 3, 0), &TABLE, &SEGMENTS, &TABLE, &SEGMENTS]);
        assert_eq!(self.port().take(&msg, &mut [0; 132]), 0);
    }

    fn port(&mut self) -> Port<'_> {
        self.0.port()
    }

    fn name(&mut self, direction: u32, offset: u32, count: u32) -> u32 {
        self.port().name_move(TAG, direction, offset, count)
    }

    fn step(&mut self, direction: u32) -> [u64; 8] {
        assert_eq!(self.port().step(TAG, direction), 0);
        self.0.answer
    }

    fn turn(&mut self) -> [u64; 8] {
        assert_eq!(self.port().turn(), 0);
        self.0.answer
    }

    /// h of data-out and of data-in, as they are listed.
    fn listed(&mut self) -> [u64; 2] {
        let mut records = [0; 64];
        assert_eq!((self.port().list(&mut records), self.0.answer[0]), (0, 1));
        [records[2], records[3]]
    }

    /// Flags, and both residuals.
    fn finish(&mut self) -> (u8, [u8; 8]) {
        let mut buf = [FILL; 132];
        assert_eq!(self.port().finish(TAG, 0, &[], &mut buf), 0);
        (buf[18], buf[20..28].try_into().unwrap())
    }
}

fn read(address: u64, length: u64, offset: u64, number: u64) -> [u64; 8] {
    [1, 1, 7, address, length, offset, number, 0]
}

fn write(address: u64, length: u64, offset: u64, number: u64) -> [u64; 8] {
    [1, 2, 7, address, length, offset, number, 0]
}

fn done(number: u64) -> [u64; 8] {
    [0, 0, 0, 0, 0, 0, number, 0]
}

/// P3 out and P4 in, one move each way, offset 0, count R.
#[test]
fn p3_and_p4_residuals() {
    let mut taken = Taken::new();
    assert_eq!(taken.port().plan(TAG, 650, 800), 0);
    assert_eq!((taken.name(OUT, 0, 650), taken.name(IN, 0, 800)), (0, 0));
    assert_eq!([taken.step(OUT), taken.step(IN)], [read(0x3000, 512, 0, 1), write(0x3000, 512, 0, 1)]);
    assert_eq!([taken.step(OUT), taken.step(IN)], [read(0x3200, 88, 512, 2), write(0x3200, 88, 512, 2)]);
    assert_eq!([taken.step(OUT), taken.step(IN)], [read(0x5000, 50, 600, 3), write(0x5000, 100, 600, 3)]);
    assert_eq!([taken.step(OUT), taken.step(IN)], [done(3); 2]);
    assert_eq!([taken.name(OUT, 650, 50), taken.name(OUT, 651, 0)], [0, 31], "R is below B");
    assert_eq!([taken.name(IN, 700, 100), taken.name(IN, 701, 0)], [0, 31], "B is below R");
    assert_eq!([taken.step(OUT), taken.step(IN)], [done(0); 2]);
    assert_eq!(taken.finish(), (0b01_1000, [0, 0, 0, 50, 0, 0, 0, 100]), "DOUNDER by 50, DIOVER by 100");
}

/// The middle before the start: M counts from a move's own offset, and h stays where the middle ended.
#[test]
fn the_middle_first() {
    let mut taken = Taken::new();
    assert_eq!(taken.name(OUT, 0, 1), 29, "not planned");
    assert_eq!(taken.port().plan(TAG, 700, 700), 0);
    assert_eq!(taken.step(OUT), done(0), "plan alone starts no move");
    assert_eq!((taken.name(OUT, 701, 0), taken.name(OUT, 50, 600)), (31, 0));
    assert_eq!(taken.step(OUT), read(0x3032, 512, 50, 1));
    assert_eq!((taken.name(OUT, 0, 50), taken.name(OUT, 701, 0)), (32, 31), "38 and 50 bytes are left");
    assert_eq!((taken.name(IN, 600, 0), taken.step(IN)), (0, done(0)), "the other direction has a move of its own");
    assert_eq!([taken.step(OUT), taken.step(OUT)], [read(0x3232, 38, 562, 2), read(0x5000, 50, 600, 3)]);
    assert_eq!((taken.step(OUT), taken.listed()), (done(3), [650, 0]));
    assert_eq!((taken.name(OUT, 0, 50), taken.step(OUT), taken.step(OUT)), (0, read(0x3000, 50, 0, 1), done(1)));
    assert_eq!(taken.listed(), [650, 0], "h does not fall");
    assert_eq!((taken.name(IN, 699, u32::MAX), taken.step(IN)), (0, write(0x5063, 1, 699, 1)), "no sum wraps");
    assert_eq!((taken.name(IN, 700, 1), taken.step(IN), taken.listed()), (0, done(0), [650, 700]));
    assert_eq!(taken.finish(), (0b00_1000, [0, 0, 0, 50, 0, 0, 0, 0]), "DOUNDER by 50, data-in none: h is B");
}

/// The number goes with the current move of its own direction, and no refusal changes it.
#[test]
fn the_number_handed_out() {
    let mut taken = Taken::new();
    for _ in 0..2 {
        assert_eq!((taken.port().step(TAG, OUT), taken.0.answer), (29, [0; 8]));
        assert_eq!(taken.port().plan(TAG, 700, 700), 0);
        assert_eq!([taken.step(OUT), taken.step(IN)], [done(0); 2], "before any move");
        assert_eq!(taken.name(OUT, 0, 700), 0);
        assert_eq!([taken.step(OUT), taken.step(OUT)], [read(0x3000, 512, 0, 1), read(0x3200, 88, 512, 2)]);
        assert_eq!([taken.name(OUT, 0, 700), taken.name(OUT, 701, 0), taken.port().plan(TAG, 0, 0)], [32, 31, 30]);
        assert_eq!((taken.name(IN, 650, 50), taken.step(IN), taken.step(IN)), (0, write(0x5032, 50, 650, 1), done(1)));
        assert_eq!((taken.port().step(TAG + 1, OUT), taken.0.answer), (24, [0; 8]));
        assert_eq!([taken.step(OUT), taken.step(OUT), taken.step(OUT)], [read(0x5000, 100, 600, 3), done(3), done(3)]);
        assert_eq!((taken.name(OUT, 701, 0), taken.step(OUT)), (31, done(3)), "refused");
        assert_eq!((taken.name(OUT, 599, 2), taken.step(IN)), (0, done(1)), "of the other direction");
        assert_eq!([taken.step(OUT), taken.step(OUT)], [read(0x3257, 1, 599, 1), read(0x5000, 1, 600, 2)]);
        assert_eq!((taken.step(OUT), taken.name(OUT, 9, 0), taken.step(OUT)), (done(2), 0, done(0)), "an empty move");
        assert_eq!([taken.step(OUT), taken.step(IN)], [done(0), done(1)]);
        taken.finish();
        taken.take(); // the tag once more
    }
}

/// A piece of a turn has the tag behind its number.
fn of_turn(piece: [u64; 8]) -> [u64; 8] {
    std::array::from_fn(|at| if at == 7 { TAG } else { piece[at] })
}

/// Both directions in line, in the order named; a step between counts in the same number and keeps the place.
#[test]
fn both_directions_in_line() {
    let mut taken = Taken::new();
    assert_eq!((taken.turn(), taken.port().plan(TAG, 700, 700), taken.turn()), ([0; 8], 0, [0; 8]), "no move");
    assert_eq!((taken.name(OUT, 0, 0), taken.turn()), (0, [0; 8]), "an empty one");
    assert_eq!([taken.name(IN, 50, 650), taken.name(OUT, 0, 600)], [0, 0]);
    assert_eq!(taken.turn(), of_turn(write(0x3032, 512, 50, 1)));
    assert_eq!((taken.step(OUT), taken.listed()), (read(0x3000, 512, 0, 1), [512, 562]));
    assert_eq!(taken.turn(), of_turn(read(0x3200, 88, 512, 2)), "where it stood, and its last");
    assert_eq!((taken.turn(), taken.name(OUT, 0, 1)), (of_turn(write(0x3232, 38, 562, 2)), 0));
    assert_eq!((taken.name(IN, 0, 1), taken.turn()), (32, of_turn(write(0x5000, 100, 600, 3))));
    assert_eq!([taken.turn(), taken.turn()], [of_turn(read(0x3000, 1, 0, 1)), [0; 8]]);
    assert_eq!((taken.step(OUT), taken.step(IN), taken.listed()), (done(1), done(3), [600, 700]));
}
