//! The port: closed, or an open channel with its credit and its open commands.

use std::ops::Range;

use super::command::Request;
use super::cutting::sum_of_lengths;
use super::descriptors::Descriptor;
use super::turns::Line;
use super::Refusal;
use crate::limits::Limits;

/// "Without an accepted login it is closed": None.
#[derive(Clone, Debug, Default, PartialEq, Eq)]
pub struct Port {
    pub channel: Option<Channel>,
}

#[derive(Clone, Debug, PartialEq, Eq)]
pub struct Channel {
    pub agreement: Agreement,
    pub credit: Credit,
    /// A credit request is unanswered.
    pub unanswered: bool,
    /// In the order of taking.
    pub commands: Vec<OpenCommand>,
    /// The moves with pieces, as turns serve them.
    pub line: Line,
}

/// What the login settled for good.
#[derive(Clone, Copy, Debug, PartialEq, Eq)]
pub struct Agreement {
    /// The agreed length: the requested one.
    pub length: u32,
    /// The agreed formats: the required ones.
    pub formats: u32,
    /// M and Q.
    pub limits: Limits,
    pub crsolnt: bool,
    pub losolnt: bool,
}

/// "Whole numbers: W wanted buffers, A announced and unused, H requests held, D owed (may be negative)."
#[derive(Clone, Copy, Debug, PartialEq, Eq)]
pub struct Credit {
    pub wanted: i64,
    pub announced: i64,
    pub held: i64,
    pub owed: i64,
}

#[derive(Clone, Debug, PartialEq, Eq)]
pub struct OpenCommand {
    pub request: Request,
    /// "The command is open and waiting": its descriptors, data-out and data-in, by which its tables are judged.
    pub waiting: Option<[Descriptor; 2]>,
    pub data_out: Transfer,
    pub data_in: Transfer,
    pub planned: bool,
}

/// One direction of an open command.
#[derive(Clone, Debug, PartialEq, Eq)]
pub struct Transfer {
    /// The segments, as the bytes of memory descriptors.
    pub segments: Vec<u8>,
    /// R; "unplanned: R = 0".
    pub required: u32,
    /// What is left of the current move, as offsets in the buffer; empty where none was named.
    pub current: Range<u64>,
    /// "The number handed out so far for the current move": operations; "0 before any move".
    pub number: u64,
    /// h: "the highest offset handed out + 1, 0 where nothing was".
    pub reached: u64,
}

impl Credit {
    /// "After login W = A = N, H = D = 0."
    pub fn after_login(n: u32) -> Self {
        Credit { wanted: i64::from(n), announced: i64::from(n), held: 0, owed: 0 }
    }

    /// "Taking a request: A - 1, H + 1."
    pub fn request_taken(&mut self) {
        self.announced -= 1;
        self.held += 1;
    }

    /// "A request ends when it is answered or aborted: H - 1, D + 1."
    pub fn request_ends(&mut self) {
        self.held -= 1;
        self.owed += 1;
    }

    /// "Each SRP_RSP and SRP_CRED_REQ carries delta = the larger of D and 0, after the endings of that call; then
    /// A + delta, D - delta."
    pub fn carry_delta(&mut self) -> u32 {
        let delta = self.owed.max(0);
        self.announced += delta;
        self.owed -= delta;
        delta as u32
    }
}

impl Channel {
    /// The place of the open command with that tag.
    pub fn place_of(&self, tag: u64) -> Option<usize> {
        self.commands.iter().position(|command| command.request.tag == tag)
    }
}

impl OpenCommand {
    /// Nothing is planned, named or handed out.
    pub fn new(request: Request, [data_out, data_in]: [Vec<u8>; 2]) -> Self {
        let (data_out, data_in) = (Transfer::new(data_out), Transfer::new(data_in));
        OpenCommand { request, waiting: None, data_out, data_in, planned: false }
    }

    /// It has no segments until its tables are brought.
    pub fn that_waits(request: Request, descriptors: [Descriptor; 2]) -> Self {
        OpenCommand { waiting: Some(descriptors), ..OpenCommand::new(request, Default::default()) }
    }

    /// "33 plan, move, step or finish on a waiting command .. directly after 24."
    pub fn refused_while_waiting(&self) -> Result<(), Refusal> {
        match self.waiting {
            Some(_) => Err(Refusal::Waiting),
            None => Ok(()),
        }
    }
}

impl Transfer {
    pub fn new(segments: Vec<u8>) -> Self {
        Transfer { segments, required: 0, current: 0..0, number: 0, reached: 0 }
    }

    /// B.
    pub fn length(&self) -> u64 {
        sum_of_lengths(&self.segments)
    }

    /// min(R, B).
    pub fn due(&self) -> u64 {
        self.length().min(u64::from(self.required))
    }
}
