//! What the rows say that calls on a port give.

use super::super::call::{Call, Outcome, UNWRITTEN};
use crate::model::number as field;
use crate::model::writing::Answer;
use crate::rows::{bytes, long};

/// What the row says of the call: "after the call the lent buffer must hold WRITTEN from byte 0 on, and FILL in every
/// other byte".
pub fn read(call: &Call, words: &[&str]) -> Outcome {
    let (mut buf, mut records) = (call.buf().to_vec(), call.records().to_vec());
    let mut answer: Answer = if call.has_answer() { [0; 8] } else { UNWRITTEN };
    let mut write = |written: &str| {
        let written = bytes(written);
        buf[..written.len()].copy_from_slice(&written);
        written.len() as u64
    };
    let mut returned = 0;
    match (call, words) {
        (_, ["refused", n]) => returned = signed(n) as u32,
        (_, ["refused", n, written]) => {
            returned = signed(n) as u32;
            answer[0] = write(written);
        }
        (Call::Login { .. }, ["accepted", written]) => answer[0] = write(written),
        (Call::Login { .. }, ["rejected", reason, written]) => {
            answer = [write(written), long(reason), 0, 0, 0, 0, 0, 0];
        }
        (Call::Take { msg, .. }, [kind, fields @ .., written]) => {
            answer = take_answer(msg, kind, fields);
            answer[0] = write(written);
        }
        (Call::Step { .. }, words) => answer = step_answer(words),
        (Call::Turn, words) => answer = turn_answer(words),
        (Call::Counters, ["ok", counts @ ..]) => {
            answer.iter_mut().zip(counts).for_each(|(word, count)| *word = signed(count) as u64);
        }
        (Call::List { .. }, ["ok", count, listed @ ..]) => {
            answer[0] = long(count);
            let fields = listed.iter().flat_map(|record| record.split(':')).map(long);
            records.iter_mut().zip(fields).for_each(|(word, field)| *word = field);
        }
        (_, ["ok", written]) => answer[0] = write(written),
        (_, ["ok"]) => {}
        _ => panic!("not an answer: {words:?}"),
    }
    Outcome { returned, answer, buf, records }
}

/// `command TAG LUN CDB_OFFSET CDB_LENGTH`, and but for base.rows whether it waits; of a task request the tag and the
/// LUN are the message's.
fn take_answer(msg: &[u8], kind: &str, fields: &[&str]) -> Answer {
    match (kind, fields) {
        ("command", [tag, lun, at, length]) | ("command", [tag, lun, at, length, "ready"]) => {
            [0, 1, long(tag), long(lun), long(at), long(length), 0, 0]
        }
        ("command", [tag, lun, at, length, "waiting"]) => [0, 1, long(tag), long(lun), long(at), long(length), 1, 0],
        ("task", []) => [0, 2, field(&msg[8..16]), field(&msg[20..28]), 0, 0, 0, 0],
        ("credit", []) => [0, 3, 0, 0, 0, 0, 0, 0],
        ("logout", []) => [0, 4, 0, 0, 0, 0, 0, 0],
        _ => panic!("not an answer of take: {kind} {fields:?}"),
    }
}

/// A decimal number that may have a minus sign.
fn signed(word: &str) -> i64 {
    word.parse().expect("a decimal number")
}

/// base.rows has no number; it is read as 0.
fn step_answer(words: &[&str]) -> Answer {
    let said = |number: &[&str]| number.first().map_or(0, |number| long(number));
    match words {
        ["piece", kind, handle, address, length, offset, number @ ..] if number.len() < 2 => {
            [1, operation(kind), long(handle), long(address), long(length), long(offset), said(number), 0]
        }
        ["done", number @ ..] if number.len() < 2 => [0, 0, 0, 0, 0, 0, said(number), 0],
        _ => panic!("not an answer of step: {words:?}"),
    }
}

fn turn_answer(words: &[&str]) -> Answer {
    match *words {
        ["piece", tag, kind, handle, address, length, offset, number] => {
            let [handle, address, length, offset, number, tag] =
                [handle, address, length, offset, number, tag].map(long);
            [1, operation(kind), handle, address, length, offset, number, tag]
        }
        ["idle"] => [0; 8],
        _ => panic!("not an answer of turn: {words:?}"),
    }
}

/// An RDMA Read or Write.
fn operation(kind: &str) -> u64 {
    match kind {
        "R" => 1,
        "W" => 2,
        _ => panic!("not an operation: {kind}"),
    }
}
