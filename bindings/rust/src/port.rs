//! A port: its words and its store, and the calls on it.

use core::fmt;

use srp_target_sys::{Store, Words, PORT_WORDS, STORE_BYTES};

use crate::answer::{Counters, Record, Step, Taken, Turn};
use crate::argument::{Direction, Settings, Tables};
use crate::ffi::{self, Outcome};
use crate::message::Message;
use crate::outcome::{checked, stepped, taken, turned, written};
use crate::pieces::Pieces;
use crate::refusal::{LoginRefusal, Refusal, TablesRefusal, TakeRefusal};

/// One channel of an SRP target port: the words of its state, and a store for the descriptors of open commands.
///
/// Both are part of the value, so that no allocator is needed: firmware has its ports in a `static` or a pool, made by
/// [`Port::closed`] and logged in by [`Port::renew`] where they stand; a program with a heap may box them. A port holds
/// no address and may be moved between calls. It cannot be cloned, since each call has to get the port that the last
/// one left.
///
/// Each call's refusals are listed in the order of checking; the first that hits is returned. But for [`Port::login`],
/// [`Port::renew`], [`Port::take`] and 10 of [`Port::tables`] a refusal alters nothing, neither the port nor what was
/// lent.
///
/// A message is written at the start of the lent buffer, which has at least [`MESSAGE_BYTES`](crate::MESSAGE_BYTES),
/// and is returned as that part of it, a [`Message`] to be sent; the bytes behind it are kept.
pub struct Port {
    words: Words,
    store: Store,
}

impl Port {
    /// A closed port, as before any login. [`Port::renew`] logs it in.
    pub const fn closed() -> Port {
        Port { words: [0; PORT_WORDS], store: [0; STORE_BYTES] }
    }

    /// Makes a port from the first message of a channel, an SRP_LOGIN_REQ. `own` is the target port's identifier.
    /// Returned with the port is the SRP_LOGIN_RSP to be sent.
    ///
    /// The agreed length and formats that [`look`](crate::look) needs are the message's: bytes 16-19 and 24-25.
    ///
    /// # Errors
    /// Refused: 1 `buf` under 132 bytes; 2 a setting out of its range; 3 `msg` not 64 bytes; 4 its type not 00h. Then
    /// rejected, with the first reason that fits: 0001 0000h requested length under 64; 0001 0002h above X; 0001 0004h
    /// a required format that is not supported; 0001 0005h channel action 1; 0001 0000h channel action 2 or 3;
    /// 0001 0003h another target identifier.
    ///
    /// # Panics
    /// If the library linked is not the one that this crate declares.
    pub fn login<'b>(
        settings: &Settings,
        own: &[u8; 16],
        msg: &[u8],
        buf: &'b mut [u8],
    ) -> Result<(Port, Message<'b>), LoginRefusal<'b>> {
        let mut port = Port::closed();
        let message = port.renew(settings, own, msg, buf)?;
        Ok((port, message))
    }

    /// [`Port::login`] in place: makes this port anew, whatever it was.
    ///
    /// # Errors
    /// As [`Port::login`]. Refused or rejected, the port is closed afterwards.
    ///
    /// # Panics
    /// If the library linked is not the one that this crate declares.
    pub fn renew<'b>(
        &mut self,
        settings: &Settings,
        own: &[u8; 16],
        msg: &[u8],
        buf: &'b mut [u8],
    ) -> Result<Message<'b>, LoginRefusal<'b>> {
        assert!(ffi::agrees(), "libexports.a has ports of another size");
        let outcome = ffi::login(&mut self.words, &settings.words(), settings.boundary, own, msg, buf);
        checked(outcome.number).map_err(LoginRefusal::Refused)?;
        let message = written(buf, &outcome);
        match outcome.words[1] as u32 {
            0 => Ok(message),
            reason => Err(LoginRefusal::Rejected { reason, message }),
        }
    }

    /// Takes a message from the initiator. A command for which [`look`](crate::look) names a table, in either direction,
    /// waits for it: it is open, held and listed, and can be aborted, and [`Port::tables`] brings its tables. What the
    /// port needs of `msg` it has copied.
    ///
    /// # Errors
    /// Refused: 1 `buf` under 132 bytes; 21 closed; 3 message under 16 bytes or over the agreed length; 4 another type;
    /// 3 a command under 48 bytes; 5, 6 a format not agreed; 3 not its type's length; 7, 8 a count; 22 a request with
    /// A = 0; 23 its tag is open; 25 an SRP_CRED_RSP that is not due or has a tag other than 1; 10 bad fields of a
    /// command that names no table. [`TakeRefusal`] says what each leaves behind, and has its message.
    pub fn take<'m, 'b>(&mut self, msg: &'m [u8], buf: &'b mut [u8]) -> Result<Taken<'m, 'b>, TakeRefusal<'b>> {
        let outcome = ffi::take(&mut self.words, &mut self.store, msg, buf);
        let message = written(buf, &outcome);
        match checked(outcome.number) {
            Ok(()) => Ok(taken(&outcome, msg, message)),
            Err(refusal) if message.is_empty() => Err(TakeRefusal::Unaltered(refusal)),
            Err(refusal @ Refusal::Fields) => Err(TakeRefusal::Answered { refusal, message }),
            Err(refusal) => Err(TakeRefusal::HungUp { refusal, message }),
        }
    }

    /// Brings a command that waits for them its tables, each of the F bytes that [`look`](crate::look) names, and of none
    /// where it names none. Commands may get theirs in any order. After it the command is ready to be planned; its age
    /// in the listing counts from its take.
    ///
    /// Where a fetch fails, no call ends the command with a status. It waits until it is aborted, or the owner brings F
    /// bytes of FFh for the table, which draw 10, or closes the channel.
    ///
    /// # Errors
    /// Refused: 1 `buf` under 132 bytes; 21 closed; 24 tag not open; 33 the command does not wait; 9 a table of another
    /// length than F; 10 bad fields, of either direction. [`TablesRefusal`] says what each leaves behind, and has its
    /// message.
    pub fn tables<'b>(&mut self, tag: u64, tables: Tables<'_>, buf: &'b mut [u8]) -> Result<(), TablesRefusal<'b>> {
        let Tables { data_out, data_in } = tables;
        let outcome = ffi::tables(&mut self.words, &mut self.store, tag, data_out, data_in, buf);
        match checked(outcome.number) {
            Ok(()) => Ok(()),
            Err(refusal @ Refusal::Fields) => Err(TablesRefusal::Answered { refusal, message: written(buf, &outcome) }),
            Err(refusal) => Err(TablesRefusal::Unaltered(refusal)),
        }
    }

    /// States once what an open command requires: R of data-out and of data-in, from its CDB. It starts no move.
    ///
    /// # Errors
    /// Refused: 21 closed; 24 tag not open; 33 the command waits for its tables; 30 planned already.
    pub fn plan(&mut self, tag: u64, required_out: u32, required_in: u32) -> Result<(), Refusal> {
        checked(ffi::plan(&mut self.words, tag, required_out, required_in))
    }

    /// Names a move of an open command: the bytes of a direction that [`Port::step`] and [`Port::turn`] hand out next,
    /// from `offset` up to the smaller of `offset + count`, which does not wrap, and min(R, B). Moves may come in any
    /// order, overlap and be repeated. With a count of 0, or an offset of min(R, B), a move has no bytes and is lawful;
    /// any other joins the line of turns. The number of operations handed out starts at 0 with each move; one that is
    /// refused leaves it.
    ///
    /// # Errors
    /// Refused: 21 closed; 24 tag not open; 33 the command waits for its tables; 29 not planned; 31 `offset` above
    /// min(R, B); 32 the direction's earlier move still has pieces.
    pub fn name_move(&mut self, tag: u64, direction: Direction, offset: u32, count: u32) -> Result<(), Refusal> {
        checked(ffi::name_move(&mut self.words, tag, direction.number(), offset, count))
    }

    /// Hands out the next RDMA operation of a direction's current move, or says done by none: the move has no bytes
    /// left, or there is none. An operation ends at the nearest of M bytes, its segment's end, the move's end and,
    /// where Q is not 0, the next multiple of Q above its first address; one that starts at a multiple may be Q long.
    ///
    /// Either way it tells how many were handed out for that move. Done, no other list of operations that covers the
    /// same bytes in order, each inside one segment, at most M long and across no multiple of Q, has fewer; and they
    /// are at most (segments with a byte in the move) + (bytes of the move divided by M, rounded down) + (multiples of
    /// Q strictly inside a segment's part of the move, which are at most 32 + the bytes of the move divided by Q).
    ///
    /// # Errors
    /// Refused: 21 closed; 24 tag not open; 33 the command waits for its tables; 29 not planned.
    pub fn step(&mut self, tag: u64, direction: Direction) -> Result<Step, Refusal> {
        let outcome = ffi::step(&mut self.words, &self.store, tag, direction.number());
        checked(outcome.number)?;
        Ok(stepped(&outcome))
    }

    /// Hands out the next operation of the first move in line, or none where no move has pieces left: idle. A move
    /// joins the line at its end when it is named. A turn puts it back at the end if pieces remain; a step leaves it
    /// where it stands, and takes it out with its last piece; both moves of a command leave with its end. At most 32
    /// are in line: each is served within 32 turns. [`Port::turns`] is an iterator of them.
    ///
    /// # Errors
    /// Refused: 21 closed.
    pub fn turn(&mut self) -> Result<Option<Turn>, Refusal> {
        let outcome = ffi::turn(&mut self.words, &self.store);
        checked(outcome.number)?;
        Ok(turned(&outcome))
    }

    /// Names a move, and hands out its operations as the iterator is asked for them. One move of offset 0 and count R
    /// is all of a direction. Dropped early, the iterator leaves the rest to [`Port::step`] and [`Port::turn`].
    ///
    /// # Errors
    /// As [`Port::name_move`]. After that no step is refused: the iterator has the port to itself.
    ///
    /// # Examples
    /// Data-in of 1,300 bytes, of which the device server has those from 512 on first; it returns how many operations
    /// that took:
    /// ```
    /// use srp_target::{Direction, Operation, Port, Refusal};
    ///
    /// fn read(port: &mut Port, tag: u64, mut rdma: impl FnMut(Operation)) -> Result<u32, Refusal> {
    ///     port.plan(tag, 0, 1300)?;
    ///     let mut operations = 0;
    ///     for (offset, count) in [(512, 788), (0, 512)] {
    ///         let mut pieces = port.pieces(tag, Direction::In, offset, count)?;
    ///         pieces.by_ref().for_each(&mut rdma);
    ///         operations += pieces.number();
    ///     }
    ///     Ok(operations)
    /// }
    /// ```
    pub fn pieces(&mut self, tag: u64, direction: Direction, offset: u32, count: u32) -> Result<Pieces<'_>, Refusal> {
        self.name_move(tag, direction, offset, count)?;
        Ok(Pieces::new(self, tag, direction))
    }

    /// Ends an open command, planned or not, with its SCSI status and sense. Returned is the SRP_RSP to be sent, with
    /// the residual of each direction: R above B is over by R - B; else h below B is under by B - h, h being the
    /// highest offset handed out + 1, 0 where nothing was.
    ///
    /// # Errors
    /// Refused: 1 `buf` under 132 bytes; 21 closed; 11 sense above 96 bytes, or any with a status other than 02h; 24
    /// tag not open; 33 the command waits for its tables.
    pub fn finish<'b>(
        &mut self,
        tag: u64,
        status: u8,
        sense: &[u8],
        buf: &'b mut [u8],
    ) -> Result<Message<'b>, Refusal> {
        let outcome = ffi::finish(&mut self.words, tag, status, sense, buf);
        checked(outcome.number)?;
        Ok(written(buf, &outcome))
    }

    /// Adds `k` receive buffers: W + k, D + k.
    ///
    /// # Errors
    /// Refused: 21 closed; 11 k = 0; 28 W would be above 16.
    pub fn add(&mut self, k: u32) -> Result<(), Refusal> {
        checked(ffi::add(&mut self.words, k))
    }

    /// Withdraws `k` receive buffers: W - k, D - k.
    ///
    /// # Errors
    /// Refused: 21 closed; 11 k = 0; 28 W would be below 1.
    pub fn withdraw(&mut self, k: u32) -> Result<(), Refusal> {
        checked(ffi::withdraw(&mut self.words, k))
    }

    /// Grants what is owed. Returned is the SRP_CRED_REQ to be sent; the SRP_CRED_RSP that answers it is taken.
    ///
    /// # Errors
    /// Refused: 1 `buf` under 132 bytes; 21 closed; 26 the last one is unanswered; 27 D not above 0.
    pub fn grant<'b>(&mut self, buf: &'b mut [u8]) -> Result<Message<'b>, Refusal> {
        let outcome = ffi::grant(&mut self.words, buf);
        checked(outcome.number)?;
        Ok(written(buf, &outcome))
    }

    /// Closes the channel with a reason and drops its commands. Returned is the SRP_T_LOGOUT to be sent.
    ///
    /// # Errors
    /// Refused: 1 `buf` under 132 bytes; 21 closed.
    pub fn close<'b>(&mut self, reason: u32, buf: &'b mut [u8]) -> Result<Message<'b>, Refusal> {
        let outcome = ffi::close(&mut self.words, reason, buf);
        checked(outcome.number)?;
        Ok(written(buf, &outcome))
    }

    /// W, A, H and D.
    ///
    /// # Errors
    /// Refused: 21 closed.
    pub fn counters(&self) -> Result<Counters, Refusal> {
        let Outcome { number, words: [wanted, announced, held, owed, ..] } = ffi::counters(&self.words);
        checked(number)?;
        Ok(Counters { wanted: wanted as u32, announced: announced as u32, held: held as u32, owed: owed as i64 })
    }

    /// Lists the open commands, each once, as they were taken, oldest first, with h of each direction; those too that
    /// wait for their tables. A tag used again counts as taken anew. Returned is the part of `records` that was
    /// written; the others are kept.
    ///
    /// # Errors
    /// Refused: 21 closed; 11 `records` under [`MOST_BUFFERS`](crate::MOST_BUFFERS).
    pub fn list<'r>(&self, records: &'r mut [Record]) -> Result<&'r [Record], Refusal> {
        let outcome = ffi::list(&self.words, records);
        checked(outcome.number)?;
        Ok(&records[..outcome.words[0] as usize])
    }
}

/// Its counters.
impl fmt::Debug for Port {
    fn fmt(&self, f: &mut fmt::Formatter<'_>) -> fmt::Result {
        f.debug_tuple("Port").field(&self.counters()).finish()
    }
}
