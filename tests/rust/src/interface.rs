//! The functions of srp_target_sys, on slices.

use std::ptr;

use srp_target_sys::*;

use crate::limits::Limits;

pub use srp_target_sys::{PORT_WORDS, STORE_BYTES};

// SAFETY, of every call below: each pointer leads to as many bytes or words as its length says, or to an array of the
// size that the function needs; and a `&mut` overlaps nothing.

/// "A pointer may be NULL only where its length is 0", and is here.
fn pointer<T>(values: &[T]) -> *const T {
    if values.is_empty() {
        ptr::null()
    } else {
        values.as_ptr()
    }
}

fn pointer_mut<T>(values: &mut [T]) -> *mut T {
    if values.is_empty() {
        ptr::null_mut()
    } else {
        values.as_mut_ptr()
    }
}

pub fn look(msg: &[u8], agreed: u32, formats: u32, buf: &mut [u8]) -> u32 {
    unsafe { srp_look(pointer(msg), msg.len(), agreed, formats, pointer_mut(buf), buf.len()) }
}

pub fn cut(list: &[u8], limits: Limits, r: u32, handed: u32, buf: &mut [u8]) -> u32 {
    unsafe { srp_cut(pointer(list), list.len(), limits.m, limits.q, r, handed, pointer_mut(buf), buf.len()) }
}

pub fn trace(msg: &[u8], direction: u32, buf: &mut [u8]) -> u32 {
    unsafe { srp_trace(pointer(msg), msg.len(), direction, pointer_mut(buf), buf.len()) }
}

pub fn format_counts(formats: u32, answer: &mut [u64]) -> u32 {
    let answer: &mut Answer = answer.try_into().expect("eight words");
    unsafe { srp_format_counts(formats, answer) }
}

pub fn port_words() -> u64 {
    unsafe { srp_target_words() }
}

/// What a call on a port is lent beside its own arguments: the port's words, its store (take, tables, step and turn), and
/// the answer words.
pub struct Port<'a> {
    words: &'a mut Words,
    store: &'a mut [u8],
    answer: &'a mut Answer,
}

impl<'a> Port<'a> {
    pub fn new(words: &'a mut [u64], store: &'a mut [u8], answer: &'a mut [u64]) -> Self {
        let (words, answer) = (words.try_into().expect("a port's words"), answer.try_into().expect("eight words"));
        Port { words, store, answer }
    }

    pub fn login(self, settings: &Settings, boundary: u64, own: &Own, msg: &[u8], buf: &mut [u8]) -> u32 {
        let Port { words, answer, .. } = self;
        let (msg, msg_len, buf, buf_len) = (pointer(msg), msg.len(), pointer_mut(buf), buf.len());
        unsafe { srp_target_login(words, settings, boundary, own, msg, msg_len, buf, buf_len, answer) }
    }

    pub fn take(self, msg: &[u8], buf: &mut [u8]) -> u32 {
        let Port { words, store, answer } = self;
        let store: &mut Store = store.try_into().expect("a store's bytes");
        let (msg, msg_len, buf, buf_len) = (pointer(msg), msg.len(), pointer_mut(buf), buf.len());
        unsafe { srp_target_take(words, store, msg, msg_len, buf, buf_len, answer) }
    }

    pub fn tables(self, tag: u64, [out, inn]: [&[u8]; 2], buf: &mut [u8]) -> u32 {
        let Port { words, store, answer } = self;
        let store: &mut Store = store.try_into().expect("a store's bytes");
        let (out, out_len, inn, in_len) = (pointer(out), out.len(), pointer(inn), inn.len());
        let (buf, buf_len) = (pointer_mut(buf), buf.len());
        unsafe { srp_target_tables(words, store, tag, out, out_len, inn, in_len, buf, buf_len, answer) }
    }

    pub fn plan(self, tag: u64, r_out: u32, r_in: u32) -> u32 {
        unsafe { srp_target_plan(self.words, tag, r_out, r_in) }
    }

    pub fn name_move(self, tag: u64, direction: u32, offset: u32, count: u32) -> u32 {
        unsafe { srp_target_move(self.words, tag, direction, offset, count) }
    }

    pub fn step(self, tag: u64, direction: u32) -> u32 {
        let store: &Store = (&*self.store).try_into().expect("a store's bytes");
        unsafe { srp_target_step(self.words, store, tag, direction, self.answer) }
    }

    pub fn turn(self) -> u32 {
        let store: &Store = (&*self.store).try_into().expect("a store's bytes");
        unsafe { srp_target_turn(self.words, store, self.answer) }
    }

    pub fn finish(self, tag: u64, status: u8, sense: &[u8], buf: &mut [u8]) -> u32 {
        let (buf, buf_len) = (pointer_mut(buf), buf.len());
        unsafe { srp_target_finish(self.words, tag, status, pointer(sense), sense.len(), buf, buf_len, self.answer) }
    }

    pub fn add(self, k: u32) -> u32 {
        unsafe { srp_target_add(self.words, k) }
    }

    pub fn withdraw(self, k: u32) -> u32 {
        unsafe { srp_target_withdraw(self.words, k) }
    }

    pub fn grant(self, buf: &mut [u8]) -> u32 {
        unsafe { srp_target_grant(self.words, pointer_mut(buf), buf.len(), self.answer) }
    }

    pub fn close(self, reason: u32, buf: &mut [u8]) -> u32 {
        unsafe { srp_target_close(self.words, reason, pointer_mut(buf), buf.len(), self.answer) }
    }

    pub fn counters(self) -> u32 {
        unsafe { srp_target_counters(self.words, self.answer) }
    }

    pub fn list(self, records: &mut [u64]) -> u32 {
        unsafe { srp_target_list(self.words, pointer_mut(records), records.len(), self.answer) }
    }
}
