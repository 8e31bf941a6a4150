//! The messages and lists of the cases.

use crate::batch::{Message, Tables};

/// Bytes of a segment: two pieces.
pub const SEGMENT: u32 = 700;

/// The first 48 bytes of an SRP_CMD, and 4n bytes more of CDB.
fn command(formats: u8, count: u8, n: u8, tag: u64) -> Vec<u8> {
    let mut msg = vec![0; 48 + 4 * usize::from(n)];
    msg[0] = 0x02;
    msg[5] = formats;
    msg[6] = count;
    msg[7] = count;
    msg[8..16].copy_from_slice(&tag.to_be_bytes());
    msg[31] = n << 2;
    msg
}

fn memory(address: u64, length: u32) -> [u8; 16] {
    let mut bytes = [0; 16];
    bytes[0..8].copy_from_slice(&address.to_be_bytes());
    bytes[8..12].copy_from_slice(&7u32.to_be_bytes());
    bytes[12..16].copy_from_slice(&length.to_be_bytes());
    bytes
}

pub fn segments(count: u32) -> Vec<u8> {
    (0..u64::from(count)).flat_map(|i| memory(0x10_0000 + i * 4096, SEGMENT)).collect()
}

pub fn no_data(tag: u64) -> Message {
    Message(command(0x00, 0, 0, tag))
}

pub fn direct(tag: u64) -> Message {
    Message([command(0x01, 0, 0, tag), memory(0x1000, 1300).to_vec()].concat())
}

/// A segment whose first 256 bytes, half a piece, lie before a multiple of 4,096.
pub fn before_multiple() -> Vec<u8> {
    memory(0x1f00, 1300).to_vec()
}

/// Data-in of that segment.
pub fn direct_before_multiple(tag: u64) -> Message {
    Message([command(0x01, 0, 0, tag), before_multiple()].concat())
}

/// Bytes of a direction of `both_ways`: more pieces than a case hands out.
pub const LONG: u32 = 1 << 16;

/// So many bytes each way.
pub fn both_ways(tag: u64) -> Message {
    Message([command(0x11, 0, 0, tag), memory(0x10_0000, LONG).to_vec(), memory(0x20_0000, LONG).to_vec()].concat())
}

/// A table descriptor, the total length, and the first entries.
fn indirect(entries: u32, copies: u32) -> Vec<u8> {
    let (table, total) = (memory(0x9000, 16 * entries), (SEGMENT * entries).to_be_bytes());
    [table.to_vec(), total.to_vec(), segments(copies)].concat()
}

/// Data-in of so many segments, all in the message.
pub fn all_copied(count: u32, tag: u64) -> Message {
    Message([command(0x02, count as u8, 0, tag), indirect(count, count)].concat())
}

/// n = 63, and both ways a table of which all 32 entries are in the message: 1,364 bytes.
pub fn longest(tag: u64) -> Message {
    Message([command(0x22, 32, 63, tag), indirect(32, 32), indirect(32, 32)].concat())
}

/// Data-in by a table of so many entries that is to be fetched, some of them in the message too.
pub fn fetched(entries: u32, copies: u32, tag: u64) -> Message {
    Message([command(0x02, copies as u8, 0, tag), indirect(entries, copies)].concat())
}

/// That table.
pub fn table(entries: u32, tag: u64) -> Tables {
    Tables { tag, out: Vec::new(), inn: segments(entries) }
}

/// An SRP_TSK_MGMT that aborts all commands of LUN 0.
pub fn abort_task_set() -> Message {
    let mut msg = vec![0; 48];
    msg[0] = 0x01;
    msg[15] = 0xff;
    msg[30] = 0x02;
    Message(msg)
}

/// The SRP_CRED_RSP to a grant.
pub fn credit_response() -> Message {
    let mut msg = vec![0; 16];
    msg[0] = 0x41;
    msg[15] = 1;
    Message(msg)
}

/// An SRP_RSP with a delta and RSP_CODE 4.
pub fn response() -> Message {
    let mut msg = vec![0; 40];
    msg[0] = 0xc1;
    msg[7] = 1;
    msg[15] = 0xff;
    msg[18] = 1;
    msg[35] = 4;
    msg[39] = 4;
    Message(msg)
}

/// An SRP_AER_REQ, of a type that document 01 does not have.
pub fn other_type() -> Message {
    let mut msg = vec![0; 52];
    msg[0] = 0x82;
    Message(msg)
}
