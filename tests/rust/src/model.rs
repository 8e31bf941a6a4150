//! The port, look and the cut as document 01 states them, and moves, their numbers of operations, boundaries, commands
//! that wait for their tables, turns, the trace page and the format counts as document 02 does, in plain Rust. This is
//! written from the documents, and from nothing of the proved code or its definitions: where the two differ, one of them
//! misreads them. No input makes it panic.

pub mod channel;
pub mod command;
pub mod cutting;
pub mod descriptors;
pub mod formats;
pub mod in_c;
pub mod login;
pub mod owner;
pub mod refusal;
pub mod tables;
pub mod take;
pub mod trace;
pub mod transfer;
pub mod turns;
pub mod writing;

pub use channel::{Channel, Port};
pub use command::{look, Command, Fetches};
pub use cutting::{cut, past_the_end, segments, sum_of_lengths, Piece};
pub use descriptors::MemoryDescriptor;
pub use in_c::{cut_in_c, look_in_c, ANSWER_BYTES};
pub use refusal::Refusal;
pub use trace::trace_in_c;

/// "Fields are big-endian."
pub fn number(bytes: &[u8]) -> u64 {
    bytes.iter().fold(0, |n, &byte| n << 8 | u64::from(byte))
}
