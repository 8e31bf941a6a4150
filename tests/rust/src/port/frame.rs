//! What is true of every call of the library, whatever words and bytes it is given: what it must leave as it was, and
//! what a closed port is. Checked of garbage too; of the model it uses only which refusals hang up.

use super::call::{Call, Outcome, UNWRITTEN};
use super::slots::shares_a_place;
use crate::interface::{PORT_WORDS, STORE_BYTES};
use crate::model::Refusal;

/// A command's place in the store: data-out, and from the middle on data-in.
const PLACE_BYTES: usize = 1024;

/// A port as its owner keeps it.
#[derive(Clone)]
pub struct Memory {
    pub words: Vec<u64>,
    pub store: Vec<u8>,
}

impl Default for Memory {
    /// Before its first login a port's memory may hold anything.
    fn default() -> Self {
        Memory { words: vec![0x1111_2222_3333_4444; PORT_WORDS], store: vec![0xee; STORE_BYTES] }
    }
}

impl Memory {
    /// The store, for a call that is lent it.
    pub fn lent_to(&self, call: &Call) -> &[u8] {
        if call.has_store() {
            &self.store
        } else {
            &[]
        }
    }
}

/// "Every other refusal returns its number and alters nothing": all but 10, of take and of tables, and those that hang
/// up. A login makes a port whatever its outcome.
fn alters_nothing(call: &Call, returned: u32) -> bool {
    match call {
        Call::Login { .. } => false,
        Call::Take { .. } => returned != 0 && returned != 10 && !Refusal::hangs_up(returned),
        Call::Tables { .. } => returned != 0 && returned != 10,
        _ => returned != 0,
    }
}

/// Whether the port is closed by this call.
fn closes(call: &Call, outcome: &Outcome) -> bool {
    match call {
        Call::Login { .. } => outcome.returned != 0 || outcome.answer[1] != 0,
        Call::Take { .. } => Refusal::hangs_up(outcome.returned) || outcome.answer[1] == 4,
        Call::Close { .. } => outcome.returned == 0,
        _ => false,
    }
}

/// The store with one place's bytes at another place, and the tables written over them there.
fn brought(before: &[u8], from: usize, to: usize, call: &Call) -> Vec<u8> {
    let mut expected = before.to_vec();
    expected.copy_within(from..from + PLACE_BYTES, to);
    for (at, table) in [to, to + PLACE_BYTES / 2].into_iter().zip(call.tables()) {
        expected[at..at + table.len()].copy_from_slice(table);
    }
    expected
}

/// What of the store may be written: for a command taken one place of it, for its tables those of its place, each as it
/// was lent, and else nothing. A command that shares its place is first given one of its own.
fn writes_lawfully(call: &Call, outcome: &Outcome, words: &[u64], [before, after]: [&[u8]; 2]) -> bool {
    match call {
        _ if before == after => true,
        Call::Take { .. } if outcome.returned == 0 && outcome.answer[1] == 1 => {
            let places = before.chunks(PLACE_BYTES).zip(after.chunks(PLACE_BYTES));
            places.filter(|(before, after)| before != after).count() == 1
        }
        Call::Tables { .. } if outcome.returned == 0 => {
            let places = || (0..before.len()).step_by(PLACE_BYTES);
            let own = |place| brought(before, place, place, call) == after;
            let moved = |from| places().any(|to| brought(before, from, to, call) == after);
            places().any(own) || (shares_a_place(words) && places().any(moved))
        }
        _ => false,
    }
}

/// Calls that leave the port as it was where they are not refused: the two that only read, a step that says done, and a
/// turn that says idle.
fn only_reads(call: &Call, outcome: &Outcome) -> bool {
    match call {
        Call::Counters | Call::List { .. } => true,
        Call::Step { .. } | Call::Turn => outcome.answer[0] == 0,
        _ => false,
    }
}

/// Bytes that the call says it has written to the lent buffer.
fn written(call: &Call, outcome: &Outcome) -> usize {
    if call.buf().is_empty() || !call.has_answer() {
        0
    } else {
        outcome.answer[0] as usize
    }
}

/// A port's words and its store, before and after a call.
pub struct Change<'a> {
    pub words: [&'a [u64]; 2],
    pub store: [&'a [u8]; 2],
}

/// Panics where the call changed what it must leave.
pub fn check(call: &Call, outcome: &Outcome, change: &Change) {
    let fail = |what: &str| panic!("{what}\n{call:02x?}\n{outcome:02x?}");
    let same_words = change.words[0] == change.words[1];
    let same_store = change.store[0] == change.store[1];
    if alters_nothing(call, outcome.returned) {
        if !same_words || !same_store || outcome.buf != call.buf() || outcome.records != call.records() {
            fail("a refusal that alters nothing altered something");
        }
        if call.has_answer() && outcome.answer != [0; 8] {
            fail("a refusal without a message has an answer");
        }
    }
    if !call.has_answer() && outcome.answer != UNWRITTEN {
        fail("the answer words were written by a call that has none");
    }
    if !writes_lawfully(call, outcome, change.words[0], change.store) {
        fail("the store was written, and not as a command taken or its tables write it");
    }
    if only_reads(call, outcome) && !same_words {
        fail("a call that only reads wrote the port");
    }
    let written = written(call, outcome);
    if written > call.buf().len() || outcome.buf[written..] != call.buf()[written..] {
        fail("a byte past the message was written");
    }
    if closes(call, outcome) && change.words[1].iter().any(|&word| word != 0) {
        fail("a closed port's words are not all 0");
    }
}
