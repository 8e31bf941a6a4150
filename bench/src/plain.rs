//! The calls of include/srp_target.h on the plain Rust port, with the same arguments and answers: a port is a pointer
//! to a `Port`, and its store is not used.
//!
//! # Safety
//! As the header says of the C functions. No pointer is null.

use std::slice;

use srp_target_sys::{self as sys, Answer, Own, Store, Words, ANSWER_WORDS};

use crate::port::{Direction, Login, Port, Refusal, Refused, Settings, Taken, Turn};
use crate::search::Search;
use crate::{stateless, trace};

/// Writes the words of an answer, the others 0.
unsafe fn put<const N: usize>(answer: *mut Answer, words: [u64; N]) {
    let answer = unsafe { &mut *answer };
    *answer = [0; ANSWER_WORDS];
    answer[..N].copy_from_slice(&words);
}

fn number<T>(outcome: Result<T, Refusal>) -> u32 {
    outcome.err().map_or(0, |refusal| refusal as u32)
}

/// The answer of a call that writes a message, and the number that it returns.
unsafe fn wrote(outcome: Result<usize, Refusal>, answer: *mut Answer) -> u32 {
    unsafe { put(answer, [outcome.unwrap_or(0) as u64]) };
    number(outcome)
}

#[inline(never)]
pub unsafe extern "C" fn plain_login(
    port: *mut Words,
    settings: *const sys::Settings,
    boundary: u64,
    own: *const Own,
    msg: *const u8,
    msg_len: usize,
    buf: *mut u8,
    buf_len: usize,
    answer: *mut Answer,
) -> u32 {
    let (port, own) = unsafe { (&mut *port.cast::<Port>(), &*own) };
    let (msg, buf) = unsafe { (slice::from_raw_parts(msg, msg_len), slice::from_raw_parts_mut(buf, buf_len)) };
    let [buffers, max_piece, max_message, indirect, solicited] = unsafe { *settings };
    let (indirect, solicited) = (indirect != 0, solicited != 0);
    let settings = Settings { buffers, max_piece, boundary, max_message, indirect, solicited };
    let outcome = port.login(&settings, own, msg, buf);
    let words = match outcome {
        Ok(Login::Accepted { wrote }) => [wrote as u64, 0],
        Ok(Login::Rejected { reason, wrote }) => [wrote as u64, reason.into()],
        Err(_) => [0, 0],
    };
    unsafe { put(answer, words) };
    number(outcome)
}

#[inline(never)]
pub unsafe extern "C" fn plain_take(
    port: *mut Words,
    _store: *mut Store,
    msg: *const u8,
    msg_len: usize,
    buf: *mut u8,
    buf_len: usize,
    answer: *mut Answer,
) -> u32 {
    let (port, msg) = unsafe { (&mut *port.cast::<Port>(), slice::from_raw_parts(msg, msg_len)) };
    let buf = unsafe { slice::from_raw_parts_mut(buf, buf_len) };
    let (number, words) = match port.take(msg, buf) {
        Ok(Taken::Command { tag, lun, cdb_at, cdb_length, waits }) => {
            (0, [0, 1, tag, lun, cdb_at as u64, cdb_length as u64, waits.into()])
        }
        Ok(Taken::Task { tag, lun, wrote }) => (0, [wrote as u64, 2, tag, lun, 0, 0, 0]),
        Ok(Taken::CreditResponse) => (0, [0, 3, 0, 0, 0, 0, 0]),
        Ok(Taken::Logout) => (0, [0, 4, 0, 0, 0, 0, 0]),
        Err(Refused { refusal, wrote }) => (refusal as u32, [wrote as u64, 0, 0, 0, 0, 0, 0]),
    };
    unsafe { put(answer, words) };
    number
}

#[inline(never)]
pub unsafe extern "C" fn plain_tables(
    port: *mut Words,
    _store: *mut Store,
    tag: u64,
    out: *const u8,
    out_len: usize,
    inn: *const u8,
    in_len: usize,
    buf: *mut u8,
    buf_len: usize,
    answer: *mut Answer,
) -> u32 {
    let (port, buf) = unsafe { (&mut *port.cast::<Port>(), slice::from_raw_parts_mut(buf, buf_len)) };
    let (out, inn) = unsafe { (slice::from_raw_parts(out, out_len), slice::from_raw_parts(inn, in_len)) };
    let (number, wrote) = match port.tables(tag, [out, inn], buf) {
        Ok(()) => (0, 0),
        Err(Refused { refusal, wrote }) => (refusal as u32, wrote),
    };
    unsafe { put(answer, [wrote as u64]) };
    number
}

#[inline(never)]
pub unsafe extern "C" fn plain_plan(port: *mut Words, tag: u64, required_out: u32, required_in: u32) -> u32 {
    let port = unsafe { &mut *port.cast::<Port>() };
    number(port.plan(tag, required_out, required_in))
}

fn direction_of(word: u32) -> Direction {
    if word == 0 {
        Direction::Out
    } else {
        Direction::In
    }
}

#[inline(never)]
pub unsafe extern "C" fn plain_move(port: *mut Words, tag: u64, direction: u32, offset: u32, count: u32) -> u32 {
    let port = unsafe { &mut *port.cast::<Port>() };
    number(port.name_move(tag, direction_of(direction), offset, count))
}

#[inline(never)]
pub unsafe extern "C" fn plain_step<S: Search>(
    port: *mut Words,
    _store: *const Store,
    tag: u64,
    direction: u32,
    answer: *mut Answer,
) -> u32 {
    let port = unsafe { &mut *port.cast::<Port>() };
    let operation = if direction == 0 { 1 } else { 2 };
    let outcome = port.step::<S>(tag, direction_of(direction));
    let words = match &outcome {
        Ok((Some(p), n)) => [1, operation, p.handle.into(), p.address, p.length.into(), p.offset.into(), (*n).into()],
        Ok((None, n)) => [0, 0, 0, 0, 0, 0, (*n).into()],
        Err(_) => [0; 7],
    };
    unsafe { put(answer, words) };
    number(outcome)
}

#[inline(never)]
pub unsafe extern "C" fn plain_turn<S: Search>(port: *mut Words, _store: *const Store, answer: *mut Answer) -> u32 {
    let port = unsafe { &mut *port.cast::<Port>() };
    let outcome = port.turn::<S>();
    let words = match &outcome {
        Ok(Some(Turn { tag, direction, piece: p, number })) => {
            let operation = *direction as u64 + 1;
            [1, operation, p.handle.into(), p.address, p.length.into(), p.offset.into(), (*number).into(), *tag]
        }
        _ => [0; 8],
    };
    unsafe { put(answer, words) };
    number(outcome)
}

#[inline(never)]
pub unsafe extern "C" fn plain_finish(
    port: *mut Words,
    tag: u64,
    status: u8,
    sense: *const u8,
    sense_len: usize,
    buf: *mut u8,
    buf_len: usize,
    answer: *mut Answer,
) -> u32 {
    let port = unsafe { &mut *port.cast::<Port>() };
    let (sense, buf) = unsafe { (slice::from_raw_parts(sense, sense_len), slice::from_raw_parts_mut(buf, buf_len)) };
    unsafe { wrote(port.finish(tag, status, sense, buf), answer) }
}

#[inline(never)]
pub unsafe extern "C" fn plain_add(port: *mut Words, k: u32) -> u32 {
    let port = unsafe { &mut *port.cast::<Port>() };
    number(port.add(k))
}

#[inline(never)]
pub unsafe extern "C" fn plain_withdraw(port: *mut Words, k: u32) -> u32 {
    let port = unsafe { &mut *port.cast::<Port>() };
    number(port.withdraw(k))
}

#[inline(never)]
pub unsafe extern "C" fn plain_grant(port: *mut Words, buf: *mut u8, buf_len: usize, answer: *mut Answer) -> u32 {
    let (port, buf) = unsafe { (&mut *port.cast::<Port>(), slice::from_raw_parts_mut(buf, buf_len)) };
    unsafe { wrote(port.grant(buf), answer) }
}

#[inline(never)]
pub unsafe extern "C" fn plain_close(
    port: *mut Words,
    reason: u32,
    buf: *mut u8,
    buf_len: usize,
    answer: *mut Answer,
) -> u32 {
    let (port, buf) = unsafe { (&mut *port.cast::<Port>(), slice::from_raw_parts_mut(buf, buf_len)) };
    unsafe { wrote(port.close(reason, buf), answer) }
}

#[inline(never)]
pub unsafe extern "C" fn plain_counters(port: *const Words, answer: *mut Answer) -> u32 {
    let port = unsafe { &*port.cast::<Port>() };
    let outcome = port.counters();
    let words = match &outcome {
        Ok(c) => [c.wanted.into(), c.announced.into(), c.held.into(), i64::from(c.owed) as u64],
        Err(_) => [0; 4],
    };
    unsafe { put(answer, words) };
    number(outcome)
}

#[inline(never)]
pub unsafe extern "C" fn plain_list(port: *const Words, records: *mut u64, words: usize, answer: *mut Answer) -> u32 {
    let (port, records) = unsafe { (&*port.cast::<Port>(), slice::from_raw_parts_mut(records, words)) };
    unsafe { wrote(port.list(records), answer) }
}

#[inline(never)]
pub unsafe extern "C" fn plain_look(
    msg: *const u8,
    msg_len: usize,
    agreed: u32,
    formats: u32,
    buf: *mut u8,
    buf_len: usize,
) -> u32 {
    let (msg, buf) = unsafe { (slice::from_raw_parts(msg, msg_len), slice::from_raw_parts_mut(buf, buf_len)) };
    stateless::look(msg, agreed, formats, buf).err().unwrap_or(0)
}

#[inline(never)]
pub unsafe extern "C" fn plain_cut<S: Search>(
    list: *const u8,
    list_len: usize,
    m: u32,
    q: u64,
    r: u32,
    handed: u32,
    buf: *mut u8,
    buf_len: usize,
) -> u32 {
    let (list, buf) = unsafe { (slice::from_raw_parts(list, list_len), slice::from_raw_parts_mut(buf, buf_len)) };
    stateless::cut::<S>(list, m, q, r, handed, buf).err().unwrap_or(0)
}

#[inline(never)]
pub unsafe extern "C" fn plain_trace(
    msg: *const u8,
    msg_len: usize,
    direction: u32,
    buf: *mut u8,
    buf_len: usize,
) -> u32 {
    let (msg, buf) = unsafe { (slice::from_raw_parts(msg, msg_len), slice::from_raw_parts_mut(buf, buf_len)) };
    trace::trace(msg, direction, buf).err().unwrap_or(0)
}

#[inline(never)]
pub unsafe extern "C" fn plain_format_counts(formats: u32, answer: *mut Answer) -> u32 {
    let outcome = stateless::format_counts(formats);
    unsafe { put(answer, outcome.unwrap_or([0; 3])) };
    outcome.err().unwrap_or(0)
}
