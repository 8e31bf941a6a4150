//! The target port in plain Rust: the calls of documents 01 and 02 on a port, as one would write them for a firmware,
//! with fixed arrays, no heap and no unsafe code. What the library's speed is measured by; shares nothing with it.

mod credit;
mod line;
mod login;
mod message;
mod refusal;
mod request;
mod take;
mod transfer;
mod waiting;

pub use line::Turn;
pub use login::{Login, Settings};
pub use refusal::{Refusal, Refused};
pub use take::Taken;
pub use transfer::{Direction, Piece};

use crate::search::Search;
use line::Line;
use transfer::{SegmentList, Transfer};
use waiting::Awaited;

/// The most buffers, and so the most commands open at a time.
const MAX_BUFFERS: usize = 16;

/// The least lent buffer: the longest message written, 36 bytes and 96 of sense.
const BUFFER_BYTES: usize = 132;

#[derive(Clone)]
pub struct Port {
    /// None is the closed port.
    channel: Option<Channel>,
    /// Segments of the command with the same place in `commands`, out and in; while it waits, those of its message.
    lists: [[SegmentList; 2]; MAX_BUFFERS],
}

#[derive(Clone)]
struct Channel {
    agreed_length: usize,
    formats: u32,
    max_piece: u32,
    boundary: u64,
    crsolnt: bool,
    losolnt: bool,
    /// Document 01's W, A and D; H, the number of open commands, is W - A - D.
    wanted: u32,
    announced: u32,
    owed: i32,
    grant_unanswered: bool,
    commands: [Option<Command>; MAX_BUFFERS],
    line: Line,
    /// How many commands were taken.
    taken: u64,
}

#[derive(Clone, Copy)]
struct Command {
    /// How many commands were taken before it.
    taken_before: u64,
    tag: u64,
    lun: u64,
    ucsolnt: bool,
    scsolnt: bool,
    /// What it waits for.
    awaited: Option<[Awaited; 2]>,
    planned: bool,
    transfers: [Transfer; 2],
}

/// The counters W, A, H and D.
#[derive(Debug, PartialEq, Eq)]
pub struct Counters {
    pub wanted: u32,
    pub announced: u32,
    pub held: u32,
    pub owed: i32,
}

impl Port {
    pub const CLOSED: Port = Port { channel: None, lists: [[SegmentList::EMPTY; 2]; MAX_BUFFERS] };

    /// States what the SCSI command requires each way, once per command.
    pub fn plan(&mut self, tag: u64, required_out: u32, required_in: u32) -> Result<(), Refusal> {
        let command = self.open()?.command(tag)?;
        command.check_ready()?;
        if command.planned {
            return Err(Refusal::Planned);
        }
        command.planned = true;
        command.transfers[0].required = required_out;
        command.transfers[1].required = required_in;
        Ok(())
    }

    /// Names a move of a direction, which the next steps hand out.
    pub fn name_move(&mut self, tag: u64, direction: Direction, offset: u32, count: u32) -> Result<(), Refusal> {
        let channel = self.channel.as_mut().ok_or(Refusal::Closed)?;
        let slot = channel.slot(tag)?;
        let command = channel.commands[slot].as_mut().ok_or(Refusal::TagNotOpen)?;
        command.check_ready()?;
        if !command.planned {
            return Err(Refusal::Unplanned);
        }
        let list = &self.lists[slot][direction as usize];
        let transfer = &mut command.transfers[direction as usize];
        transfer.name_move(list, offset, count)?;
        if transfer.has_pieces() {
            channel.line.join(slot, direction);
        }
        Ok(())
    }

    /// The next piece of a direction's current move, or None: done; and the operations handed out for it.
    pub fn step<S: Search>(&mut self, tag: u64, direction: Direction) -> Result<(Option<Piece>, u32), Refusal> {
        let channel = self.channel.as_mut().ok_or(Refusal::Closed)?;
        let slot = channel.slot(tag)?;
        let command = channel.commands[slot].as_mut().ok_or(Refusal::TagNotOpen)?;
        command.check_ready()?;
        if !command.planned {
            return Err(Refusal::Unplanned);
        }
        let list = &self.lists[slot][direction as usize];
        let transfer = &mut command.transfers[direction as usize];
        let piece = transfer.next_piece::<S>(list, channel.max_piece, channel.boundary);
        if piece.is_some() && !transfer.has_pieces() {
            channel.line.leave(slot, direction);
        }
        Ok((piece, transfer.number()))
    }

    /// Answers a command and ends it; gives the length of the SRP_RSP.
    pub fn finish(&mut self, tag: u64, status: u8, sense: &[u8], buf: &mut [u8]) -> Result<usize, Refusal> {
        let buf = message::lent(buf)?;
        let channel = self.open()?;
        if sense.len() > 96 || !sense.is_empty() && status != 0x02 {
            return Err(Refusal::Argument);
        }
        let slot = channel.slot(tag)?;
        let command = channel.commands[slot].ok_or(Refusal::TagNotOpen)?;
        command.check_ready()?;
        channel.end(slot);
        let residuals = command.transfers.map(|transfer| transfer.residual());
        let solnt = if status != 0 { command.ucsolnt } else { command.scsolnt };
        Ok(message::response(buf, solnt, channel.delta(), tag, status, residuals, sense))
    }

    /// Writes a record of tag, LUN, and h of each direction for each open command, oldest first; gives their number.
    pub fn list(&self, records: &mut [u64]) -> Result<usize, Refusal> {
        let channel = self.channel.as_ref().ok_or(Refusal::Closed)?;
        if records.len() < 4 * MAX_BUFFERS {
            return Err(Refusal::Argument);
        }
        let mut oldest_first: [Option<&Command>; MAX_BUFFERS] = channel.commands.each_ref().map(Option::as_ref);
        oldest_first.sort_unstable_by_key(|slot| slot.map_or(u64::MAX, |command| command.taken_before));
        let mut count = 0;
        for (record, command) in records.chunks_exact_mut(4).zip(oldest_first.iter().flatten()) {
            let [out, inn] = command.transfers;
            record.copy_from_slice(&[command.tag, command.lun, out.reached.into(), inn.reached.into()]);
            count += 1;
        }
        Ok(count)
    }

    fn open(&mut self) -> Result<&mut Channel, Refusal> {
        self.channel.as_mut().ok_or(Refusal::Closed)
    }
}

impl Channel {
    /// Ends the command at a place; its moves leave the line.
    fn end(&mut self, slot: usize) {
        self.commands[slot] = None;
        self.line.leave_with(slot);
        self.owed += 1;
    }

    /// Where the open command with this tag stands.
    fn slot(&self, tag: u64) -> Result<usize, Refusal> {
        let with_tag = |slot: &Option<Command>| slot.as_ref().is_some_and(|command| command.tag == tag);
        self.commands.iter().position(with_tag).ok_or(Refusal::TagNotOpen)
    }

    fn command(&mut self, tag: u64) -> Result<&mut Command, Refusal> {
        self.commands.iter_mut().flatten().find(|command| command.tag == tag).ok_or(Refusal::TagNotOpen)
    }
}
