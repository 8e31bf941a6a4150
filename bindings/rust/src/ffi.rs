//! The calls of libexports.a on slices and references, and the only unsafe code of the crate.
//!
//! The library asks its caller for memory and for nothing else: every value and every content has its outcome, no
//! pointer is kept past the call, and there is no state but what is lent. Each function below is safe, since Rust's
//! types give what the library asks for:
//! - Lengths: a pointer and the length behind it come from one slice; words, store, settings, identifier and answer are
//!   references to arrays of the sizes that the library takes, and so aligned too.
//! - Aliasing: what is written is lent by `&mut`, so it overlaps no other argument, and nobody else reads or writes it
//!   meanwhile; what is only read is lent by `&`.
//! - Content: every pattern of bits is a value of the types lent, so whatever the library writes may be read.
//!
//! Trusted: that the library linked is the one that srp_target_sys declares. [`agrees`] asks it for the size of a port.

use srp_target_sys::*;

use crate::answer::Record;

/// The answer of look and of the cut.
pub type Bytes = [u8; ANSWER_BYTES];

/// What a call with an answer came to: the refusal's number, 0 for none, and the answer's words.
pub struct Outcome {
    pub number: u32,
    pub words: Answer,
}

/// A call with an answer.
fn answered(call: impl FnOnce(&mut Answer) -> u32) -> Outcome {
    let mut words = [0; ANSWER_WORDS];
    let number = call(&mut words);
    Outcome { number, words }
}

/// Whether the library linked has ports of [`PORT_WORDS`] words.
pub fn agrees() -> bool {
    // SAFETY: it has no argument.
    unsafe { srp_target_words() == PORT_WORDS as u64 }
}

pub fn login(port: &mut Words, settings: &Settings, boundary: u64, own: &Own, msg: &[u8], buf: &mut [u8]) -> Outcome {
    let (to, len) = (buf.as_mut_ptr(), buf.len());
    // SAFETY: lengths, aliasing and content as said at the top, here and below.
    answered(|answer| unsafe {
        srp_target_login(port, settings, boundary, own, msg.as_ptr(), msg.len(), to, len, answer)
    })
}

pub fn take(port: &mut Words, store: &mut Store, msg: &[u8], buf: &mut [u8]) -> Outcome {
    let (to, len) = (buf.as_mut_ptr(), buf.len());
    // SAFETY: as said at the top.
    answered(|answer| unsafe { srp_target_take(port, store, msg.as_ptr(), msg.len(), to, len, answer) })
}

pub fn tables(
    port: &mut Words,
    store: &mut Store,
    tag: u64,
    data_out: &[u8],
    data_in: &[u8],
    buf: &mut [u8],
) -> Outcome {
    let (to, len) = (buf.as_mut_ptr(), buf.len());
    let (out, out_len) = (data_out.as_ptr(), data_out.len());
    let (inn, in_len) = (data_in.as_ptr(), data_in.len());
    // SAFETY: as said at the top.
    answered(|answer| unsafe { srp_target_tables(port, store, tag, out, out_len, inn, in_len, to, len, answer) })
}

pub fn plan(port: &mut Words, tag: u64, r_out: u32, r_in: u32) -> u32 {
    // SAFETY: as said at the top.
    unsafe { srp_target_plan(port, tag, r_out, r_in) }
}

pub fn name_move(port: &mut Words, tag: u64, direction: u32, offset: u32, count: u32) -> u32 {
    // SAFETY: as said at the top.
    unsafe { srp_target_move(port, tag, direction, offset, count) }
}

pub fn step(port: &mut Words, store: &Store, tag: u64, direction: u32) -> Outcome {
    // SAFETY: as said at the top.
    answered(|answer| unsafe { srp_target_step(port, store, tag, direction, answer) })
}

pub fn turn(port: &mut Words, store: &Store) -> Outcome {
    // SAFETY: as said at the top.
    answered(|answer| unsafe { srp_target_turn(port, store, answer) })
}

pub fn finish(port: &mut Words, tag: u64, status: u8, sense: &[u8], buf: &mut [u8]) -> Outcome {
    let (to, len) = (buf.as_mut_ptr(), buf.len());
    // SAFETY: as said at the top.
    answered(|answer| unsafe { srp_target_finish(port, tag, status, sense.as_ptr(), sense.len(), to, len, answer) })
}

pub fn add(port: &mut Words, k: u32) -> u32 {
    // SAFETY: as said at the top.
    unsafe { srp_target_add(port, k) }
}

pub fn withdraw(port: &mut Words, k: u32) -> u32 {
    // SAFETY: as said at the top.
    unsafe { srp_target_withdraw(port, k) }
}

pub fn grant(port: &mut Words, buf: &mut [u8]) -> Outcome {
    // SAFETY: as said at the top.
    answered(|answer| unsafe { srp_target_grant(port, buf.as_mut_ptr(), buf.len(), answer) })
}

pub fn close(port: &mut Words, reason: u32, buf: &mut [u8]) -> Outcome {
    // SAFETY: as said at the top.
    answered(|answer| unsafe { srp_target_close(port, reason, buf.as_mut_ptr(), buf.len(), answer) })
}

pub fn counters(port: &Words) -> Outcome {
    // SAFETY: as said at the top.
    answered(|answer| unsafe { srp_target_counters(port, answer) })
}

const _: () = assert!(size_of::<Record>() == 8 * RECORD_WORDS && align_of::<Record>() == align_of::<u64>());

pub fn list(port: &Words, records: &mut [Record]) -> Outcome {
    let (to, words) = (records.as_mut_ptr().cast(), RECORD_WORDS * records.len());
    // SAFETY: as said at the top. A Record is laid out as in C, RECORD_WORDS of u64, so the slice is as many words.
    answered(|answer| unsafe { srp_target_list(port, to, words, answer) })
}

pub fn look(msg: &[u8], agreed: u32, formats: u32, buf: &mut Bytes) -> u32 {
    // SAFETY: as said at the top.
    unsafe { srp_look(msg.as_ptr(), msg.len(), agreed, formats, buf.as_mut_ptr(), buf.len()) }
}

pub fn cut(list: &[u8], m: u32, q: u64, r: u32, handed: u32, buf: &mut Bytes) -> u32 {
    // SAFETY: as said at the top.
    unsafe { srp_cut(list.as_ptr(), list.len(), m, q, r, handed, buf.as_mut_ptr(), buf.len()) }
}

pub fn trace(msg: &[u8], direction: u32, buf: &mut [u8]) -> u32 {
    // SAFETY: as said at the top.
    unsafe { srp_trace(msg.as_ptr(), msg.len(), direction, buf.as_mut_ptr(), buf.len()) }
}

pub fn format_counts(formats: u32) -> Outcome {
    // SAFETY: as said at the top.
    answered(|answer| unsafe { srp_format_counts(formats, answer) })
}
