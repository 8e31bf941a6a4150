//! Both ends of the channel, as the machine counts them.

use std::collections::VecDeque;

use super::pieces::Pieces;
use super::turns::Line;
use crate::limits::Limits;
use crate::model::descriptors::Descriptor;
use crate::model::number;

/// "Start: the port as the login returned it, limit N, no command open, added = withdrawn = 0, two empty queues, one
/// each way, that lose nothing and keep order."
#[derive(Default)]
pub struct Ends {
    pub n: i64,
    pub limit: i64,
    pub added: i64,
    pub withdrawn: i64,
    pub to_port: VecDeque<Sent>,
    pub to_initiator: VecDeque<Vec<u8>>,
    /// In no order that counts.
    pub open: Vec<Open>,
    /// The moves with pieces, in the order in which turns serve them.
    pub line: Line,
    /// The tags of all commands that were ever open, in the order of taking.
    pub taken: Vec<u64>,
    /// A credit request was written, and no answer to it was taken.
    pub unanswered: bool,
    /// Credit requests that were delivered and that the initiator has not answered.
    pub to_answer: usize,
    pub login: Login,
}

/// What the login settled.
#[derive(Clone, Copy, Default)]
pub struct Login {
    pub limits: Limits,
    pub agreed: u32,
    pub formats: u32,
}

/// A message on its way to the port, and the tables that it describes, in the initiator's memory.
#[derive(Clone)]
pub struct Sent {
    pub msg: Vec<u8>,
    pub tables: [Vec<u8>; 2],
}

/// A command from its taking to its end.
pub struct Open {
    pub tag: u64,
    pub lun: u64,
    pub waiting: Option<Waiting>,
    pub planned: bool,
    /// Data-out, data-in; without a segment while it waits.
    pub pieces: [Pieces; 2],
}

/// What a command waits for: its descriptors, data-out and data-in, and the tables that are to be fetched.
#[derive(Clone)]
pub struct Waiting {
    pub descriptors: [Descriptor; 2],
    pub tables: [Vec<u8>; 2],
}

impl Open {
    /// As it is listed: "tag, LUN, bytes handed out each way", h being taken for these.
    pub fn record(&self) -> [u64; 4] {
        [self.tag, self.lun, self.pieces[0].highest, self.pieces[1].highest]
    }
}

/// "A request, known by its type byte."
pub fn is_request(msg: &[u8]) -> bool {
    matches!(msg.first(), Some(0x01 | 0x02))
}

/// A message's delta, "if any": SRP_RSP and SRP_CRED_REQ carry one.
pub fn delta(msg: &[u8]) -> Option<i64> {
    matches!(msg[0], 0xc1 | 0x81).then(|| number(&msg[4..8]) as i64)
}

impl Ends {
    pub fn new(n: u32, login: Login) -> Self {
        Ends { n: n.into(), limit: n.into(), login, ..Ends::default() }
    }

    pub fn held(&self) -> i64 {
        self.open.len() as i64
    }

    /// "Requests and deltas on the way are those in the queues, deltas summed." With the limit they are what the port
    /// has announced and not seen used.
    pub fn announced(&self) -> i64 {
        let requests = self.to_port.iter().filter(|sent| is_request(&sent.msg)).count() as i64;
        let deltas: i64 = self.to_initiator.iter().filter_map(|msg| delta(msg)).sum();
        self.limit + requests + deltas
    }

    /// Limit + requests on the way + requests held + deltas on the way.
    pub fn first_four(&self) -> i64 {
        self.announced() + self.held()
    }

    /// N + added - withdrawn.
    pub fn right_side(&self) -> i64 {
        self.n + self.added - self.withdrawn
    }

    /// What the first four lack of the right side; below 0 where they have more.
    pub fn lack(&self) -> i64 {
        self.right_side() - self.first_four()
    }

    /// "Records now come as the commands were taken, oldest first. A tag used again counts as taken anew."
    pub fn listing(&self) -> Vec<[u64; 4]> {
        let taken_at = |tag: u64| self.taken.iter().rposition(|&taken| taken == tag);
        let mut records: Vec<[u64; 4]> = self.open.iter().map(Open::record).collect();
        records.sort_by_key(|record| taken_at(record[0]));
        records
    }

    /// Whether one that ends is listed between two that stay.
    pub fn in_the_middle(&self, ends: impl Fn(&[u64; 4]) -> bool) -> bool {
        let listing = self.listing();
        let stays = |record: &[u64; 4]| !ends(record);
        match (listing.iter().position(stays), listing.iter().rposition(stays)) {
            (Some(first), Some(last)) => listing[first..last].iter().any(ends),
            _ => false,
        }
    }

    pub fn place_of(&self, tag: u64) -> Option<usize> {
        self.open.iter().position(|command| command.tag == tag)
    }

    /// "Each message written joins the queue to the initiator." "Each response or credit request that is written lifts
    /// the first four together by exactly what they lack of the right side, by 0 if nothing", "judged after its call's
    /// endings".
    pub fn join(&mut self, message: &[u8]) {
        if let Some(delta) = delta(message) {
            assert_eq!(delta, self.lack().max(0), "what the message lifts");
        }
        self.to_initiator.push_back(message.to_vec());
    }
}
