//! The C interface of the SRP target port, libexports.a, as include/srp_target.h has it: the functions, and the numbers
//! under the header's names without its prefix SRP_. The header says what each is, and what a caller owes.
//!
//! Crate srp_target is the same in safe Rust.

#![no_std]

mod numbers;

pub use numbers::*;

/// A port's words, and its store. Any words are a port, any bytes a store.
pub type Words = [u64; PORT_WORDS];
pub type Store = [u8; STORE_BYTES];

/// What a login is given beside its boundary: N, M, X, indirect, solicited; and the target port identifier.
pub type Settings = [u32; SETTINGS];
pub type Own = [u8; 16];

/// The answer of a call on a port, and of srp_format_counts.
pub type Answer = [u64; ANSWER_WORDS];

extern "C" {
    pub fn srp_target_words() -> u64;
    pub fn srp_target_login(
        port: *mut Words,
        settings: *const Settings,
        boundary: u64,
        own: *const Own,
        msg: *const u8,
        msg_len: usize,
        buf: *mut u8,
        buf_len: usize,
        answer: *mut Answer,
    ) -> u32;
    pub fn srp_target_take(
        port: *mut Words,
        store: *mut Store,
        msg: *const u8,
        msg_len: usize,
        buf: *mut u8,
        buf_len: usize,
        answer: *mut Answer,
    ) -> u32;
    pub fn srp_target_tables(
        port: *mut Words,
        store: *mut Store,
        tag: u64,
        out: *const u8,
        out_len: usize,
        inn: *const u8,
        in_len: usize,
        buf: *mut u8,
        buf_len: usize,
        answer: *mut Answer,
    ) -> u32;
    pub fn srp_target_plan(port: *mut Words, tag: u64, r_out: u32, r_in: u32) -> u32;
    pub fn srp_target_move(port: *mut Words, tag: u64, direction: u32, offset: u32, count: u32) -> u32;
    pub fn srp_target_step(port: *mut Words, store: *const Store, tag: u64, direction: u32, answer: *mut Answer)
        -> u32;
    pub fn srp_target_turn(port: *mut Words, store: *const Store, answer: *mut Answer) -> u32;
    pub fn srp_target_finish(
        port: *mut Words,
        tag: u64,
        status: u8,
        sense: *const u8,
        sense_len: usize,
        buf: *mut u8,
        buf_len: usize,
        answer: *mut Answer,
    ) -> u32;
    pub fn srp_target_add(port: *mut Words, k: u32) -> u32;
    pub fn srp_target_withdraw(port: *mut Words, k: u32) -> u32;
    pub fn srp_target_grant(port: *mut Words, buf: *mut u8, buf_len: usize, answer: *mut Answer) -> u32;
    pub fn srp_target_close(port: *mut Words, reason: u32, buf: *mut u8, buf_len: usize, answer: *mut Answer) -> u32;
    pub fn srp_target_counters(port: *const Words, answer: *mut Answer) -> u32;
    pub fn srp_target_list(port: *const Words, records: *mut u64, words: usize, answer: *mut Answer) -> u32;
    pub fn srp_look(msg: *const u8, msg_len: usize, agreed: u32, formats: u32, buf: *mut u8, buf_len: usize) -> u32;
    pub fn srp_cut(
        list: *const u8,
        list_len: usize,
        m: u32,
        q: u64,
        r: u32,
        handed: u32,
        buf: *mut u8,
        buf_len: usize,
    ) -> u32;
    pub fn srp_trace(msg: *const u8, msg_len: usize, direction: u32, buf: *mut u8, buf_len: usize) -> u32;
    pub fn srp_format_counts(formats: u32, answer: *mut Answer) -> u32;
}
