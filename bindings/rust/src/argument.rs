//! What the calls on a port are given.

use srp_target_sys::{DIRECTION_IN, DIRECTION_OUT, SETTINGS};

/// Settings of a login.
#[derive(Clone, Copy, Debug, PartialEq, Eq, Hash)]
pub struct Settings {
    /// N: receive buffers for requests, 1 to 16. Linux's initiator keeps one for task management: then at least 2.
    pub buffers: u32,
    /// M: the longest RDMA operation, 1 to 1,048,576 bytes.
    pub maximum: u32,
    /// Q: a power of two from 512 to 2^32, of which no RDMA operation crosses a multiple by its addresses; 0 for none.
    pub boundary: u64,
    /// X: the longest message from the initiator, 64 to 1,364 bytes.
    pub longest: u32,
    /// Whether indirect tables, format 2, are supported.
    pub indirect: bool,
    /// Whether the adapter has solicited events: SOLNTSUP of SRP_LOGIN_RSP.
    pub solicited: bool,
}

impl Settings {
    /// In the order of the C interface, which has the boundary apart from them.
    pub(crate) fn words(&self) -> [u32; SETTINGS] {
        [self.buffers, self.maximum, self.longest, self.indirect.into(), self.solicited.into()]
    }
}

/// The tables fetched for a command that waits for them, as [`look`](crate::look) names them; each has no bytes where it
/// names none.
#[derive(Clone, Copy, Debug, Default, PartialEq, Eq)]
pub struct Tables<'t> {
    /// Of data-out.
    pub data_out: &'t [u8],
    /// Of data-in.
    pub data_in: &'t [u8],
}

impl Tables<'static> {
    /// No bytes in either direction: `Tables { data_in, ..Tables::NONE }` is a table of data-in alone.
    pub const NONE: Tables<'static> = Tables { data_out: &[], data_in: &[] };
}

/// A direction of a command's data.
#[derive(Clone, Copy, Debug, PartialEq, Eq, Hash)]
pub enum Direction {
    /// Data-out, from the initiator: RDMA Reads.
    Out,
    /// Data-in, to the initiator: RDMA Writes.
    In,
}

impl Direction {
    /// In the C interface.
    pub(crate) fn number(self) -> u32 {
        match self {
            Direction::Out => DIRECTION_OUT,
            Direction::In => DIRECTION_IN,
        }
    }
}
