//! srp_trace against the model.

use srp_tests::calls::{Call, Memory, Outcome, Placement, Trace};
use srp_tests::generate::trace::{self as generate, FIXED};
use srp_tests::line::{kind, Line, KINDS};
use srp_tests::random::Random;
use srp_tests::tally::Tally;

const TO_PORT: u32 = 0;
const FROM_PORT: u32 = 1;

/// All but the refusal.
const LINES: [&str; 14] = *KINDS.last_chunk().unwrap();

/// Calls on the library and on the model, counted by what they came to.
#[derive(Default)]
struct Compared {
    memory: Memory,
    tally: Tally,
}

impl Compared {
    fn call(&mut self, msg: &[u8], direction: u32, lent: usize) -> Outcome {
        let call = Trace { msg: msg.to_vec(), direction, lent };
        let outcome = call.compared(&mut self.memory, Placement::AT_END);
        self.tally.add(kind(&call, &outcome));
        outcome
    }

    /// Columns of the line.
    fn columns(&mut self, msg: &[u8], first: usize, last: usize) -> String {
        Line::of(&self.call(msg, FROM_PORT, 81)).columns(first..=last).into()
    }
}

/// A message of each type, of its length: the command has both descriptors, one response neither code nor sense, the
/// other both.
fn of_each_type(random: &mut Random) -> Vec<Vec<u8>> {
    let mut messages = FIXED.map(|(kind, length)| generate::of_type(random, kind, length)).to_vec();
    messages.push(generate::command(random, [1, 2], [7, 2], 3));
    messages.push(generate::response(random, 0, 18, 4, 36));
    messages.push(generate::response(random, 0b11, 18, 4, 36 + 4 + 18));
    messages
}

#[test]
fn generated_messages() {
    let (mut random, mut memory) = (Random::new(0x5350_5234), Memory::default());
    let (mut tally, mut columns) = (Tally::default(), Tally::default());
    for _ in 0..300_000 {
        let placement = Placement::random(&mut random);
        let call = Trace::random(&mut random);
        let outcome = call.compared(&mut memory, placement);
        tally.add(kind(&call, &outcome));
        if outcome.returned == 0 {
            let line = Line::of(&outcome);
            columns.add(if line.columns(50..=54) == "*****" { "above 99,999" } else { "up to 99,999, or none" });
            columns.add(line.columns(1..=1));
        }
    }
    tally.print("trace, generated messages");
    columns.print_as("trace, generated messages", "columns");
    tally.assert_each(2_000, &KINDS);
    columns.assert_each(2_000, &["above 99,999", "up to 99,999, or none", ">", "<"]);
}

/// Each type byte with each length from 0 to 1,400, with zeros behind it and with other bytes.
#[test]
fn every_length() {
    let (mut random, mut zeros, mut others) = (Random::new(31), Compared::default(), Compared::default());
    for kind in 0..=255 {
        let mut zero = vec![0; 1400];
        zero[0] = kind;
        let other = generate::of_type(&mut random, kind, 1400);
        for length in 0..=1400 {
            let direction = length as u32 & 1;
            zeros.call(&zero[..length], direction, 81);
            others.call(&other[..length], direction, 83);
        }
    }
    zeros.tally.print("trace, every length of every type, zeros");
    others.tally.print("trace, every length of every type");
    // Each type is known at one length alone; without a byte there is no type.
    let unknown = ["UNKNOWN by its type", "UNKNOWN by its length"].map(|name| zeros.tally.count(name));
    assert_eq!(unknown, [246 * 1401 + 10, 10 * 1399]);
    for name in LINES.into_iter().filter(|name| !name.contains(' ')) {
        assert_eq!(zeros.tally.count(name), 1, "{name}");
        assert!(["CMD", "RSP"].contains(&name) || others.tally.count(name) == 1, "{name}");
    }
}

/// Every pair of formats with some counts, at the length that they make and a byte beside.
#[test]
fn every_pair_of_formats() {
    let (mut random, mut compared) = (Random::new(32), Compared::default());
    for pair in 0..=255 {
        for counts in [[0, 0], [1, 2], [32, 33], [255, 255]] {
            let mut msg = generate::command(&mut random, [pair >> 4, pair & 15], counts, 2);
            compared.call(&msg, TO_PORT, 81);
            msg.push(0);
            compared.call(&msg, TO_PORT, 81);
            compared.call(&msg[..msg.len() - 2], TO_PORT, 81);
        }
    }
    compared.tally.print("trace, every pair of formats");
    let kinds = ["CMD", "UNKNOWN by its length", "UNKNOWN by its format"];
    assert_eq!(kinds.map(|kind| compared.tally.count(kind)), [9 * 4, 9 * 4 * 2, 247 * 4 * 3]);
}

/// Every count each way, and every n: also counts above 32 are known, at their length alone.
#[test]
fn every_count() {
    let (mut random, mut compared) = (Random::new(33), Compared::default());
    for value in 0..=255 {
        let commands = [([2, 0], [value, 9]), ([0, 2], [9, value]), ([2, 2], [value, value]), ([1, 1], [value, value])];
        for (formats, counts) in commands {
            let msg = generate::command(&mut random, formats, counts, value >> 2);
            compared.call(&msg, TO_PORT, 81);
            compared.call(&msg[..msg.len() - 1], TO_PORT, 81);
        }
    }
    compared.tally.print("trace, every count");
    assert_eq!(["CMD", "UNKNOWN by its length"].map(|kind| compared.tally.count(kind)), [256 * 4; 2]);
}

/// All values of each byte up to the 70th of a message of each type.
#[test]
fn every_value_of_a_byte() {
    let (mut random, mut compared) = (Random::new(34), Compared::default());
    for msg in of_each_type(&mut random) {
        for at in 0..msg.len().min(70) {
            for value in 0..=255 {
                let mut msg = msg.clone();
                msg[at] = value;
                compared.call(&msg, FROM_PORT, 100);
            }
        }
    }
    compared.tally.print("trace, every value of a byte");
    compared.tally.assert_each(1, &LINES);
}

/// Each length of the lent buffer from 0 to 200.
#[test]
fn every_buffer() {
    let (mut random, mut compared) = (Random::new(35), Compared::default());
    let messages = [of_each_type(&mut random), vec![vec![], vec![0x42; 16], vec![0xff; 500]]].concat();
    for msg in &messages {
        for lent in 0..=200 {
            compared.call(msg, TO_PORT, lent);
        }
    }
    compared.tally.print("trace, every buffer");
    assert_eq!((compared.tally.count("refused 1"), compared.tally.total()), (14 * 81, 14 * 201));
}

/// "> towards the port, < from it": 0 is towards it, any other word from it, whatever the message.
#[test]
fn directions() {
    let (mut random, mut compared) = (Random::new(36), Compared::default());
    for msg in [of_each_type(&mut random), vec![vec![], vec![0x42; 16]]].concat() {
        let towards = compared.call(&msg, 0, 81).buf;
        assert_eq!(towards[0], b'>');
        for direction in [1, 2, 256, 1 << 16, 1 << 31, u32::MAX - 1, u32::MAX] {
            let from = compared.call(&msg, direction, 81).buf;
            assert_eq!((from[0], &from[1..]), (b'<', &towards[1..]), "direction {direction}");
        }
    }
}

/// What stands in columns 50-54, as text.
const NUMBERS: [(u32, &str); 14] = [
    (0, "    0"),
    (1, "    1"),
    (10, "   10"),
    (256, "  256"),
    (1_000, " 1000"),
    (10_203, "10203"),
    (65_536, "65536"),
    (99_998, "99998"),
    (99_999, "99999"),
    (100_000, "*****"),
    (100_001, "*****"),
    ((1 << 24) + 5, "*****"),
    (1 << 31, "*****"),
    (u32::MAX, "*****"),
];

#[test]
fn deltas() {
    let mut compared = Compared::default();
    for (kind, length) in [(0xc0, 52), (0xc1, 36), (0x81, 16)] {
        let mut msg = vec![0; length];
        msg[0] = kind;
        for (delta, text) in NUMBERS {
            msg[4..8].copy_from_slice(&delta.to_be_bytes());
            assert_eq!(compared.columns(&msg, 50, 54), text, "{kind:02x}, delta {delta}");
        }
    }
    assert_eq!(["LOGIN_RSP", "RSP", "CRED_REQ"].map(|kind| compared.tally.count(kind)), [14; 3]);
}

/// Lengths of messages that are unknown by their type or by their length, up to more than 2^24.
#[test]
fn long_messages() {
    const LONGEST: usize = (1 << 24) + 5;
    let mut compared = Compared { memory: Memory::holding(LONGEST), ..Default::default() };
    let mut msg = vec![0; LONGEST];
    for (length, text) in NUMBERS.into_iter().filter(|(length, _)| (1..=LONGEST).contains(&(*length as usize))) {
        for kind in [0x00, 0x02, 0x42, 0xc1, 0xff] {
            msg[0] = kind;
            assert_eq!(compared.columns(&msg[..length as usize], 50, 54), text, "{kind:02x}, {length} bytes");
        }
    }
    compared.tally.assert_each(11 * 2, &["UNKNOWN by its type", "UNKNOWN by its length"]);
}
