//! A call on a port with all its arguments, and what comes back.

use crate::interface;
use crate::model;
use crate::model::writing::Answer;

/// A call of include/srp_target.h on a port. A lent buffer or record list stands as what it holds before the call.
#[derive(Clone, Debug)]
pub enum Call {
    Login { settings: [u32; 5], boundary: u64, own: [u8; 16], msg: Vec<u8>, buf: Vec<u8> },
    Take { msg: Vec<u8>, buf: Vec<u8> },
    Tables { tag: u64, tables: [Vec<u8>; 2], buf: Vec<u8> },
    Plan { tag: u64, r_out: u32, r_in: u32 },
    Move { tag: u64, direction: u32, offset: u32, count: u32 },
    Step { tag: u64, direction: u32 },
    Turn,
    Finish { tag: u64, status: u8, sense: Vec<u8>, buf: Vec<u8> },
    Add { k: u32 },
    Withdraw { k: u32 },
    Grant { buf: Vec<u8> },
    Close { reason: u32, buf: Vec<u8> },
    Counters,
    List { records: Vec<u64> },
}

/// What a call returned, its answer words, and the lent buffer or record list after it.
#[derive(Clone, Debug, PartialEq, Eq)]
pub struct Outcome {
    pub returned: u32,
    pub answer: Answer,
    pub buf: Vec<u8>,
    pub records: Vec<u64>,
}

/// What the answer words hold before a call: each must be written, but by plan, move, add and withdraw, which have
/// none.
pub const UNWRITTEN: Answer = [0xa5a5_a5a5_a5a5_a5a5; 8];

/// Something that has a port: the library or the model.
pub trait Target {
    fn call(&mut self, call: &Call) -> Outcome;
}

/// A target that can go back to what it was.
pub trait Restore: Target {
    type State;
    fn state(&self) -> Self::State;
    fn restore(&mut self, state: Self::State);
}

/// The parts of a call that lie in memory, as slices.
pub struct Lent<'a> {
    pub settings: &'a [u32],
    pub own: &'a [u8],
    /// The message or the sense.
    pub input: &'a [u8],
    pub tables: [&'a [u8]; 2],
    pub buf: &'a mut [u8],
    pub records: &'a mut [u64],
}

impl Call {
    pub fn name(&self) -> &'static str {
        match self {
            Call::Login { .. } => "login",
            Call::Take { .. } => "take",
            Call::Tables { .. } => "tables",
            Call::Plan { .. } => "plan",
            Call::Move { .. } => "move",
            Call::Step { .. } => "step",
            Call::Turn => "turn",
            Call::Finish { .. } => "finish",
            Call::Add { .. } => "add",
            Call::Withdraw { .. } => "withdraw",
            Call::Grant { .. } => "grant",
            Call::Close { .. } => "close",
            Call::Counters => "counters",
            Call::List { .. } => "list",
        }
    }

    pub fn settings(&self) -> &[u32] {
        match self {
            Call::Login { settings, .. } => settings,
            _ => &[],
        }
    }

    pub fn own(&self) -> &[u8] {
        match self {
            Call::Login { own, .. } => own,
            _ => &[],
        }
    }

    pub fn input(&self) -> &[u8] {
        match self {
            Call::Login { msg, .. } | Call::Take { msg, .. } => msg,
            Call::Finish { sense, .. } => sense,
            _ => &[],
        }
    }

    pub fn tables(&self) -> [&[u8]; 2] {
        match self {
            Call::Tables { tables: [out, inn], .. } => [out, inn],
            _ => [&[], &[]],
        }
    }

    pub fn buf(&self) -> &[u8] {
        match self {
            Call::Login { buf, .. }
            | Call::Take { buf, .. }
            | Call::Tables { buf, .. }
            | Call::Finish { buf, .. }
            | Call::Grant { buf }
            | Call::Close { buf, .. } => buf,
            _ => &[],
        }
    }

    pub fn records(&self) -> &[u64] {
        match self {
            Call::List { records } => records,
            _ => &[],
        }
    }

    pub fn has_answer(&self) -> bool {
        !matches!(self, Call::Plan { .. } | Call::Move { .. } | Call::Add { .. } | Call::Withdraw { .. })
    }

    /// Whether the store is lent with the call.
    pub fn has_store(&self) -> bool {
        matches!(self, Call::Take { .. } | Call::Tables { .. } | Call::Step { .. } | Call::Turn)
    }

    /// The call on the library; `lent` holds what the call has of it.
    pub fn on_library(&self, port: interface::Port, lent: Lent) -> u32 {
        match *self {
            Call::Login { boundary, .. } => {
                let settings = lent.settings.try_into().expect("five settings");
                port.login(settings, boundary, lent.own.try_into().expect("16 bytes"), lent.input, lent.buf)
            }
            Call::Take { .. } => port.take(lent.input, lent.buf),
            Call::Tables { tag, .. } => port.tables(tag, lent.tables, lent.buf),
            Call::Plan { tag, r_out, r_in } => port.plan(tag, r_out, r_in),
            Call::Move { tag, direction, offset, count } => port.name_move(tag, direction, offset, count),
            Call::Step { tag, direction } => port.step(tag, direction),
            Call::Turn => port.turn(),
            Call::Finish { tag, status, .. } => port.finish(tag, status, lent.input, lent.buf),
            Call::Add { k } => port.add(k),
            Call::Withdraw { k } => port.withdraw(k),
            Call::Grant { .. } => port.grant(lent.buf),
            Call::Close { reason, .. } => port.close(reason, lent.buf),
            Call::Counters => port.counters(),
            Call::List { .. } => port.list(lent.records),
        }
    }
}

impl Target for model::Port {
    fn call(&mut self, call: &Call) -> Outcome {
        let (mut buf, mut records, mut answer) = (call.buf().to_vec(), call.records().to_vec(), UNWRITTEN);
        let returned = match call {
            Call::Login { settings, boundary, own, msg, .. } => {
                self.login(settings, *boundary, own, msg, &mut buf, &mut answer)
            }
            Call::Take { msg, .. } => self.take(msg, &mut buf, &mut answer),
            Call::Tables { tag, .. } => self.tables(*tag, call.tables(), &mut buf, &mut answer),
            Call::Plan { tag, r_out, r_in } => self.plan(*tag, *r_out, *r_in),
            Call::Move { tag, direction, offset, count } => self.name_move(*tag, *direction, *offset, *count),
            Call::Step { tag, direction } => self.step(*tag, *direction, &mut answer),
            Call::Turn => self.turn(&mut answer),
            Call::Finish { tag, status, sense, .. } => self.finish(*tag, *status, sense, &mut buf, &mut answer),
            Call::Add { k } => self.add(*k),
            Call::Withdraw { k } => self.withdraw(*k),
            Call::Grant { .. } => self.grant(&mut buf, &mut answer),
            Call::Close { reason, .. } => self.close(*reason, &mut buf, &mut answer),
            Call::Counters => self.counters(&mut answer),
            Call::List { .. } => self.list(&mut records, &mut answer),
        };
        Outcome { returned, answer, buf, records }
    }
}

impl Restore for model::Port {
    type State = model::Port;

    fn state(&self) -> model::Port {
        self.clone()
    }

    fn restore(&mut self, state: model::Port) {
        *self = state;
    }
}

impl Outcome {
    /// The message that the call wrote.
    pub fn message(&self) -> &[u8] {
        &self.buf[..self.answer[0] as usize]
    }
}
