//! SRP_CMD as it is read, and look.

use std::ops::Range;

use super::descriptors::{Descriptor, Format, MemoryDescriptor};
use super::{number, Refusal};

pub const SRP_CMD: u8 = 0x02;

/// "Byte 1 bit 2 UCSOLNT, bit 1 SCSOLNT; .. 8-15 tag; 20-27 LUN": the fields that every request has.
#[derive(Clone, Copy, Debug, PartialEq, Eq)]
pub struct Request {
    pub tag: u64,
    pub lun: u64,
    pub ucsolnt: bool,
    pub scsolnt: bool,
}

impl Request {
    /// Of at least 48 bytes.
    pub fn read(msg: &[u8]) -> Self {
        Request {
            tag: number(&msg[8..16]),
            lun: number(&msg[20..28]),
            ucsolnt: msg[1] & 1 << 2 != 0,
            scsolnt: msg[1] & 1 << 1 != 0,
        }
    }

    /// "SOLNT is UCSOLNT if status or RSP_CODE is non-zero, else SCSOLNT."
    pub fn solnt(&self, status_or_code: u8) -> bool {
        if status_or_code != 0 {
            self.ucsolnt
        } else {
            self.scsolnt
        }
    }
}

#[derive(Clone, Debug, PartialEq, Eq)]
pub struct Command {
    pub request: Request,
    /// "The part of the message from byte 32 on, 16 + 4n long."
    pub cdb: Range<usize>,
    pub data_out: Descriptor,
    pub data_in: Descriptor,
}

impl Command {
    /// Reads a message of type 02h, of 16 bytes to the agreed length: 3 (48 for a command), 5, 6, 3 (exact), 7, 8.
    pub fn read(msg: &[u8], formats: u32) -> Result<Command, Refusal> {
        if msg.len() < 48 {
            return Err(Refusal::Length);
        }
        // "Byte 5 out format (bits 7-4) and in format (bits 3-0); 6 out count; 7 in count."
        let out_format = Format::agreed(msg[5] >> 4, formats).ok_or(Refusal::OutFormat)?;
        let in_format = Format::agreed(msg[5] & 0x0f, formats).ok_or(Refusal::InFormat)?;

        // "31 bits 7-2 = n; 32-47 CDB; from 48, 4n bytes more of CDB, then the out descriptor, then the in descriptor."
        let n = usize::from(msg[31] >> 2);
        let out_at = 48 + 4 * n;
        let in_at = out_at + out_format.descriptor_bytes(usize::from(msg[6]));
        let end = in_at + in_format.descriptor_bytes(usize::from(msg[7]));
        if msg.len() != end {
            return Err(Refusal::Length);
        }
        let data_out = Descriptor::read(out_format, &msg[out_at..in_at]);
        let data_in = Descriptor::read(in_format, &msg[in_at..end]);
        if data_out.bad_count() {
            return Err(Refusal::OutCount);
        }
        if data_in.bad_count() {
            return Err(Refusal::InCount);
        }
        Ok(Command { request: Request::read(msg), cdb: 32..out_at, data_out, data_in })
    }
}

/// Look's answer: a table's address and handle with F as the length, or all zero.
#[derive(Clone, Copy, Debug, PartialEq, Eq)]
pub struct Fetches {
    pub data_out: MemoryDescriptor,
    pub data_in: MemoryDescriptor,
}

/// Look, with its refusals 2 to 8 "in take's order, 4 for any type but 02h".
pub fn look(msg: &[u8], agreed: u32, formats: u32) -> Result<Fetches, Refusal> {
    // "A length outside 64 to 1,364 or a format bit other than 1 and 2 draws 2 first."
    if !(64..=1364).contains(&agreed) || formats & !0b110 != 0 {
        return Err(Refusal::Setting);
    }
    if msg.len() < 16 || msg.len() > agreed as usize {
        return Err(Refusal::Length);
    }
    if msg[0] != SRP_CMD {
        return Err(Refusal::OtherType);
    }
    let command = Command::read(msg, formats)?;
    Ok(Fetches { data_out: command.data_out.fetch(), data_in: command.data_in.fetch() })
}
