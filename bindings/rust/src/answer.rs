//! What the calls on a port answer.

use crate::argument::Direction;
use crate::message::Message;

/// What [`Port::take`](crate::Port::take) took.
#[derive(Clone, Copy, Debug, PartialEq, Eq)]
#[must_use = "a task request's message is to be sent, a command to be carried out"]
pub enum Taken<'m, 'b> {
    /// A command, open and held from here on.
    Command {
        /// Its tag.
        tag: u64,
        /// Its LUN.
        lun: u64,
        /// The whole CDB, 16 + 4n bytes: part of the message.
        cdb: &'m [u8],
        /// Whether it waits for the tables that [`look`](crate::look) names, in either direction. Until
        /// [`Port::tables`](crate::Port::tables) brings them, plan, move, step and finish are refused with 33.
        waits: bool,
    },
    /// A task request: carried out, answered and ended.
    Task {
        /// Its own tag.
        tag: u64,
        /// Its LUN.
        lun: u64,
        /// The SRP_RSP to be sent, in the lent buffer.
        message: Message<'b>,
    },
    /// The SRP_CRED_RSP that was due.
    Credit,
    /// The initiator's logout: the port is closed, its commands dropped, and there is nothing to send.
    Logout,
}

/// What an adapter does with a piece.
#[derive(Clone, Copy, Debug, PartialEq, Eq, Hash)]
pub enum Kind {
    /// Data-out, fetched from the initiator's memory.
    Read,
    /// Data-in, brought to it.
    Write,
}

/// An RDMA operation: a piece of a command's data in one direction.
#[derive(Clone, Copy, Debug, PartialEq, Eq, Hash)]
pub struct Operation {
    /// RDMA Read or RDMA Write.
    pub kind: Kind,
    /// Handle of the initiator's memory.
    pub handle: u32,
    /// Address there.
    pub address: u64,
    /// Bytes, 1 to M.
    pub length: u32,
    /// Where the piece stands in the command's data.
    pub offset: u32,
}

/// What [`Port::step`](crate::Port::step) came to.
#[derive(Clone, Copy, Debug, PartialEq, Eq, Hash)]
#[must_use = "an operation that is handed out is to be posted"]
pub struct Step {
    /// The next operation of the current move; none where step says done.
    pub operation: Option<Operation>,
    /// The operations handed out so far for the current move, by steps and by turns, this one included; 0 before any
    /// move. With done it is the length of the move's cut list.
    pub number: u32,
}

/// The next operation of the move whose turn it is, from [`Port::turn`](crate::Port::turn).
#[derive(Clone, Copy, Debug, PartialEq, Eq, Hash)]
#[must_use = "an operation that is handed out is to be posted"]
pub struct Turn {
    /// Of its command.
    pub tag: u64,
    /// Of its move; that of the operation's kind.
    pub direction: Direction,
    /// To be posted.
    pub operation: Operation,
    /// The operations handed out so far for the move, by steps and by turns, this one included.
    pub number: u32,
}

/// W, A, H and D of an open channel; A + H + D = W.
#[derive(Clone, Copy, Debug, PartialEq, Eq, Hash)]
pub struct Counters {
    /// W: buffers wanted, 1 to 16.
    pub wanted: u32,
    /// A: announced and unused.
    pub announced: u32,
    /// H: requests held, which are the open commands.
    pub held: u32,
    /// D: owed, negative after a withdrawal of buffers that are announced.
    pub owed: i64,
}

/// An open command in a listing.
#[derive(Clone, Copy, Debug, Default, PartialEq, Eq, Hash)]
#[repr(C)]
pub struct Record {
    /// Its tag.
    pub tag: u64,
    /// Its LUN.
    pub lun: u64,
    /// h of data-out: the highest offset handed out + 1, 0 where nothing was.
    pub data_out: u64,
    /// h of data-in.
    pub data_in: u64,
}
