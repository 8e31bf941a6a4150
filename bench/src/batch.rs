//! Calls of one kind in a row, made on lent ports.

use std::hint::black_box;

use srp_target_sys::{
    Answer, Own, Settings, Store, Words, ANSWER_WORDS, LIST_WORDS, MESSAGE_BYTES, RECORD_WORDS, STORE_BYTES,
};

use crate::sides::Side;

/// A message to take.
#[derive(Clone)]
pub struct Message(pub Vec<u8>);

/// The tables fetched for a command that waits.
#[derive(Clone)]
pub struct Tables {
    pub tag: u64,
    pub out: Vec<u8>,
    pub inn: Vec<u8>,
}

/// Calls of one kind, one for each message or tag, or so many.
pub enum Batch {
    Login {
        messages: Vec<[u8; 64]>,
        boundary: u64,
    },
    Take(Vec<Message>),
    Tables(Vec<Tables>),
    Plan {
        tags: Vec<u64>,
        required: u32,
    },
    Move {
        tags: Vec<u64>,
        direction: u32,
        offset: u32,
        count: u32,
    },
    /// Of each tag and direction.
    Step(Vec<(u64, u32)>),
    Turn(usize),
    Finish {
        tags: Vec<u64>,
        status: u8,
        sense: Vec<u8>,
    },
    Add(u32),
    Withdraw(u32),
    Grant,
    Close,
    Counters(usize),
    List(usize),
    Look(Vec<Vec<u8>>),
    Cut {
        lists: Vec<Vec<u8>>,
        boundary: u64,
        required: u32,
        handed: u32,
    },
    Trace {
        messages: Vec<Vec<u8>>,
        direction: u32,
    },
    /// Of each of these formats.
    FormatCounts(Vec<u32>),
}

/// What an owner lends, and the answer's words.
pub struct Lent {
    port: *mut Words,
    store: Box<Store>,
    pub buf: Box<[u8; MESSAGE_BYTES]>,
    records: Box<[u64; LIST_WORDS]>,
    pub answer: Box<Answer>,
}

/// The settings of the login: buffers, longest piece, longest message; and the formats agreed, both.
const BUFFERS: u32 = 16;
pub const MAX_PIECE: u32 = 512;
const AGREED: u32 = 1364;
const FORMATS: u32 = 0b110;
const SETTINGS: Settings = [BUFFERS, MAX_PIECE, AGREED, 1, 1];
const OWN: Own = [7; 16];

/// An SRP_LOGIN_REQ that is accepted.
pub fn login_request() -> [u8; 64] {
    let mut msg = [0; 64];
    msg[16..20].copy_from_slice(&AGREED.to_be_bytes());
    msg[25] = FORMATS as u8;
    msg[48..64].copy_from_slice(&OWN);
    msg
}

impl Batch {
    /// How many calls it makes on a port.
    pub fn calls(&self) -> usize {
        match self {
            Batch::Login { messages, .. } => messages.len(),
            Batch::Take(messages) => messages.len(),
            Batch::Tables(tables) => tables.len(),
            Batch::Plan { tags, .. } | Batch::Move { tags, .. } => tags.len(),
            Batch::Step(moves) => moves.len(),
            Batch::Finish { tags, .. } => tags.len(),
            Batch::Look(messages) => messages.len(),
            Batch::Cut { lists, .. } => lists.len(),
            Batch::Trace { messages, .. } => messages.len(),
            Batch::FormatCounts(formats) => formats.len(),
            Batch::Turn(calls) | Batch::Counters(calls) | Batch::List(calls) => *calls,
            Batch::Add(_) | Batch::Withdraw(_) | Batch::Grant | Batch::Close => 1,
        }
    }

    /// Makes the calls on each port, and shows `after` what each returned and left.
    ///
    /// # Safety
    /// The ports are of this side.
    pub unsafe fn run(&self, side: &Side, ports: &mut [Lent], mut after: impl FnMut(u32, &Lent)) {
        let (side, after) = (black_box(side), &mut after);
        match self {
            Batch::Login { messages, boundary } => {
                each(ports, messages, after, |lent, msg| unsafe { login(side, lent, *boundary, msg) })
            }
            Batch::Take(messages) => each(ports, messages, after, |lent, message| unsafe { take(side, lent, message) }),
            Batch::Tables(brought) => {
                each(ports, brought, after, |lent, brought| unsafe { tables(side, lent, brought) })
            }
            Batch::Plan { tags, required } => {
                each(ports, tags, after, |lent, tag| unsafe { (side.plan)(lent.port, *tag, *required, *required) })
            }
            Batch::Move { tags, direction, offset, count } => each(ports, tags, after, |lent, tag| unsafe {
                (side.name_move)(lent.port, *tag, *direction, *offset, *count)
            }),
            Batch::Step(moves) => each(ports, moves, after, |lent, (tag, direction)| unsafe {
                (side.step)(lent.port, &*lent.store, *tag, *direction, &mut *lent.answer)
            }),
            Batch::Turn(calls) => each(ports, &vec![(); *calls], after, |lent, ()| unsafe {
                (side.turn)(lent.port, &*lent.store, &mut *lent.answer)
            }),
            Batch::Finish { tags, status, sense } => {
                each(ports, tags, after, |lent, tag| unsafe { finish(side, lent, *tag, *status, sense) })
            }
            Batch::Add(k) => each(ports, &[()], after, |lent, ()| unsafe { (side.add)(lent.port, *k) }),
            Batch::Withdraw(k) => each(ports, &[()], after, |lent, ()| unsafe { (side.withdraw)(lent.port, *k) }),
            Batch::Grant => each(ports, &[()], after, |lent, ()| unsafe { grant(side, lent) }),
            Batch::Close => each(ports, &[()], after, |lent, ()| unsafe { close(side, lent) }),
            Batch::Counters(calls) => each(ports, &vec![(); *calls], after, |lent, ()| unsafe { counters(side, lent) }),
            Batch::List(calls) => each(ports, &vec![(); *calls], after, |lent, ()| unsafe { list(side, lent) }),
            Batch::Look(messages) => each(ports, messages, after, |lent, msg| unsafe {
                (side.look)(msg.as_ptr(), msg.len(), AGREED, FORMATS, lent.buf.as_mut_ptr(), lent.buf.len())
            }),
            Batch::Cut { lists, boundary, required, handed } => {
                each(ports, lists, after, |lent, list| unsafe { cut(side, lent, list, *boundary, *required, *handed) })
            }
            Batch::Trace { messages, direction } => each(ports, messages, after, |lent, msg| unsafe {
                (side.trace)(msg.as_ptr(), msg.len(), *direction, lent.buf.as_mut_ptr(), lent.buf.len())
            }),
            Batch::FormatCounts(formats) => each(ports, formats, after, |lent, formats| unsafe {
                (side.format_counts)(*formats, &mut *lent.answer)
            }),
        }
    }
}

#[inline(always)]
fn each<T>(ports: &mut [Lent], items: &[T], after: &mut impl FnMut(u32, &Lent), call: impl Fn(&mut Lent, &T) -> u32) {
    for lent in ports {
        for item in items {
            let returned = call(lent, item);
            after(returned, lent);
        }
    }
}

// SAFETY, of all calls: the port is of this side, and each pointer leads to what its length says.

#[inline(always)]
unsafe fn login(side: &Side, lent: &mut Lent, boundary: u64, msg: &[u8]) -> u32 {
    let (buf, buf_len, answer) = (lent.buf.as_mut_ptr(), lent.buf.len(), &mut *lent.answer);
    unsafe { (side.login)(lent.port, &SETTINGS, boundary, &OWN, msg.as_ptr(), msg.len(), buf, buf_len, answer) }
}

#[inline(always)]
unsafe fn take(side: &Side, lent: &mut Lent, Message(bytes): &Message) -> u32 {
    let (store, answer) = (&mut *lent.store, &mut *lent.answer);
    let (buf, buf_len) = (lent.buf.as_mut_ptr(), lent.buf.len());
    unsafe { (side.take)(lent.port, store, bytes.as_ptr(), bytes.len(), buf, buf_len, answer) }
}

#[inline(always)]
unsafe fn tables(side: &Side, lent: &mut Lent, Tables { tag, out, inn }: &Tables) -> u32 {
    let (store, answer) = (&mut *lent.store, &mut *lent.answer);
    let (buf, buf_len) = (lent.buf.as_mut_ptr(), lent.buf.len());
    let (out, out_len, inn, in_len) = (out.as_ptr(), out.len(), inn.as_ptr(), inn.len());
    unsafe { (side.tables)(lent.port, store, *tag, out, out_len, inn, in_len, buf, buf_len, answer) }
}

#[inline(always)]
unsafe fn finish(side: &Side, lent: &mut Lent, tag: u64, status: u8, sense: &[u8]) -> u32 {
    let (buf, buf_len, answer) = (lent.buf.as_mut_ptr(), lent.buf.len(), &mut *lent.answer);
    unsafe { (side.finish)(lent.port, tag, status, sense.as_ptr(), sense.len(), buf, buf_len, answer) }
}

#[inline(always)]
unsafe fn grant(side: &Side, lent: &mut Lent) -> u32 {
    unsafe { (side.grant)(lent.port, lent.buf.as_mut_ptr(), lent.buf.len(), &mut *lent.answer) }
}

#[inline(always)]
unsafe fn close(side: &Side, lent: &mut Lent) -> u32 {
    unsafe { (side.close)(lent.port, 0x0102_0304, lent.buf.as_mut_ptr(), lent.buf.len(), &mut *lent.answer) }
}

#[inline(always)]
unsafe fn counters(side: &Side, lent: &mut Lent) -> u32 {
    unsafe { (side.counters)(lent.port, &mut *lent.answer) }
}

#[inline(always)]
unsafe fn list(side: &Side, lent: &mut Lent) -> u32 {
    unsafe { (side.list)(lent.port, lent.records.as_mut_ptr(), lent.records.len(), &mut *lent.answer) }
}

#[inline(always)]
unsafe fn cut(side: &Side, lent: &mut Lent, list: &[u8], boundary: u64, required: u32, handed: u32) -> u32 {
    let (buf, buf_len) = (lent.buf.as_mut_ptr(), lent.buf.len());
    unsafe { (side.cut)(list.as_ptr(), list.len(), MAX_PIECE, boundary, required, handed, buf, buf_len) }
}

impl Lent {
    /// A port after an accepted login, without a boundary.
    pub fn after_login(side: &Side) -> Self {
        let mut lent = Lent {
            port: (side.new_port)(),
            store: Box::new([0; STORE_BYTES]),
            buf: Box::new([0x5b; MESSAGE_BYTES]),
            records: Box::new([0x5b; LIST_WORDS]),
            answer: Box::new([0x5b; ANSWER_WORDS]),
        };
        let returned = unsafe { login(side, &mut lent, 0, &login_request()) };
        assert_eq!((returned, *lent.answer), (0, [52, 0, 0, 0, 0, 0, 0, 0]), "{}: login", side.name);
        lent
    }

    /// What counters returns and answers: W, A, H and D, or that the port is closed.
    pub fn counters(&mut self, side: &Side) -> (u32, Answer) {
        (unsafe { counters(side, self) }, *self.answer)
    }

    pub fn close(&mut self, side: &Side) -> u32 {
        unsafe { close(side, self) }
    }

    /// What list returns, and the records of the open commands.
    pub fn list(&mut self, side: &Side) -> (u32, Vec<[u64; RECORD_WORDS]>) {
        let returned = unsafe { list(side, self) };
        (returned, self.records.as_chunks().0[..self.answer[0] as usize].to_vec())
    }
}
