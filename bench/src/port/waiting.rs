//! Commands that wait for their tables, and the tables brought.

use super::message;
use super::request::{fetch_length, u32_at, CommandMessage, Descriptor};
use super::take::FIELDS_INVALID;
use super::transfer::{SegmentList, Transfer};
use super::{Command, Port, Refusal, Refused};

/// What a direction's table is judged by; the segments of the message are in the command's list.
#[derive(Clone, Copy)]
pub enum Awaited {
    None,
    Direct,
    Indirect { table_length: u32, total: u32, copies: usize },
}

impl Awaited {
    pub fn of(message: &CommandMessage, [out_list, in_list]: &mut [SegmentList; 2]) -> [Self; 2] {
        [Awaited::keep(&message.out, out_list), Awaited::keep(&message.inn, in_list)]
    }

    fn keep(descriptor: &Descriptor, list: &mut SegmentList) -> Self {
        match *descriptor {
            Descriptor::None => Awaited::None,
            Descriptor::Direct(segment) => {
                list.keep(segment);
                Awaited::Direct
            }
            Descriptor::Indirect { table, total, copies } => {
                list.keep(copies);
                Awaited::Indirect { table_length: u32_at(table, 12), total, copies: copies.len() / 16 }
            }
        }
    }

    /// F.
    fn fetch_length(&self) -> usize {
        match *self {
            Awaited::Indirect { table_length, copies, .. } => fetch_length(table_length, 16 * copies),
            _ => 0,
        }
    }

    /// The direction, by its table of F bytes; None where a field is bad.
    fn transfer(&self, list: &mut SegmentList, table: &[u8]) -> Option<Transfer> {
        match *self {
            Awaited::None => Some(Transfer::EMPTY),
            Awaited::Direct => Transfer::kept(list, 1, None),
            Awaited::Indirect { total, copies, .. } if !table.is_empty() => {
                let alike = list.begins(copies, table);
                alike.then(|| Transfer::new(list, table, Some(total))).flatten()
            }
            Awaited::Indirect { table_length, total, copies } => {
                let whole = copies > 0 && 16 * copies == table_length as usize;
                whole.then(|| Transfer::kept(list, copies, Some(total))).flatten()
            }
        }
    }
}

impl Command {
    /// Refuses 33 while it waits.
    pub fn check_ready(&self) -> Result<(), Refusal> {
        match self.awaited {
            Some(_) => Err(Refusal::Waiting),
            None => Ok(()),
        }
    }
}

impl Port {
    /// Brings a command its tables, out and in.
    pub fn tables(&mut self, tag: u64, [out, inn]: [&[u8]; 2], buf: &mut [u8]) -> Result<(), Refused> {
        let buf = message::lent(buf)?;
        let channel = self.channel.as_mut().ok_or(Refusal::Closed)?;
        let slot = channel.slot(tag)?;
        let command = channel.commands[slot].as_mut().ok_or(Refusal::TagNotOpen)?;
        let awaited = command.awaited.ok_or(Refusal::Waiting)?;
        if [out.len(), inn.len()] != awaited.map(|awaited| awaited.fetch_length()) {
            return Err(Refusal::TableLength.into());
        }
        let [out_list, in_list] = &mut self.lists[slot];
        let transfers = (awaited[0].transfer(out_list, out), awaited[1].transfer(in_list, inn));
        if let (Some(out), Some(inn)) = transfers {
            command.transfers = [out, inn];
            command.awaited = None;
            return Ok(());
        }
        let ucsolnt = command.ucsolnt;
        channel.end(slot);
        let wrote = message::response_code(buf, ucsolnt, channel.delta(), tag, FIELDS_INVALID);
        Err(Refused { refusal: Refusal::Fields, wrote })
    }
}
