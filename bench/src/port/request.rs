//! An SRP_CMD, read and checked as far as no state is needed; its descriptors.

use super::Refusal;

/// The longest table, 32 memory descriptors.
const TABLE_BYTES: usize = 512;

/// A command that was found to be of its length, with formats agreed and counts in range.
pub struct CommandMessage<'a> {
    pub head: &'a [u8; 48],
    /// Bytes of CDB, from byte 32 on.
    pub cdb_length: usize,
    pub out: Descriptor<'a>,
    pub inn: Descriptor<'a>,
}

pub enum Descriptor<'a> {
    None,
    Direct(&'a [u8]),
    Indirect { table: &'a [u8], total: u32, copies: &'a [u8] },
}

impl<'a> CommandMessage<'a> {
    /// Refuses 3, 5, 6, 3, 7, 8 in this order.
    pub fn read(msg: &'a [u8], formats: u32) -> Result<Self, Refusal> {
        let head: &[u8; 48] = msg.first_chunk().ok_or(Refusal::Length)?;
        let (out_format, in_format) = (head[5] >> 4, head[5] & 0x0f);
        if !is_agreed(out_format, formats) {
            return Err(Refusal::OutFormat);
        }
        if !is_agreed(in_format, formats) {
            return Err(Refusal::InFormat);
        }
        let cdb_length = 16 + usize::from(head[31] & 0xfc);
        let out_at = 32 + cdb_length;
        let in_at = out_at + descriptor_length(out_format, head[6]);
        if msg.len() != in_at + descriptor_length(in_format, head[7]) {
            return Err(Refusal::Length);
        }
        let out = Descriptor::read(out_format, head[6], &msg[out_at..in_at]).ok_or(Refusal::OutCount)?;
        let inn = Descriptor::read(in_format, head[7], &msg[in_at..]).ok_or(Refusal::InCount)?;
        Ok(CommandMessage { head, cdb_length, out, inn })
    }
}

/// Format 0 always is; 1 and 2 by their bit.
fn is_agreed(format: u8, formats: u32) -> bool {
    format == 0 || format <= 2 && formats & 1 << format != 0
}

fn descriptor_length(format: u8, count: u8) -> usize {
    match format {
        0 => 0,
        1 => 16,
        _ => 20 + 16 * usize::from(count),
    }
}

impl<'a> Descriptor<'a> {
    /// From bytes of the descriptor's length; None where the count is out of range.
    fn read(format: u8, count: u8, bytes: &'a [u8]) -> Option<Self> {
        match format {
            0 => Some(Descriptor::None),
            1 => Some(Descriptor::Direct(bytes)),
            _ => {
                let (table, copies) = (&bytes[..16], &bytes[20..]);
                let in_range = count <= 32 && copies.len() <= u32_at(table, 12) as usize;
                in_range.then_some(Descriptor::Indirect { table, total: u32_at(bytes, 16), copies })
            }
        }
    }

    /// The fetched length F.
    pub fn fetch_length(&self) -> usize {
        match self {
            Descriptor::Indirect { table, copies, .. } => fetch_length(u32_at(table, 12), copies.len()),
            _ => 0,
        }
    }

    /// The bytes of the segments where nothing is to be fetched. None where the table's length is bad.
    pub fn segment_bytes(&self) -> Option<&'a [u8]> {
        match *self {
            Descriptor::None => Some(&[]),
            Descriptor::Direct(segment) => Some(segment),
            Descriptor::Indirect { table, copies, .. } => {
                let whole = !copies.is_empty() && copies.len() == u32_at(table, 12) as usize;
                whole.then_some(copies)
            }
        }
    }

    /// What the sum of the segments' lengths has to be, where the message says it.
    pub fn total(&self) -> Option<u32> {
        match self {
            Descriptor::Indirect { total, .. } => Some(*total),
            _ => None,
        }
    }
}

/// F of a table, by its length and that of the copies.
pub fn fetch_length(table_length: u32, copied: usize) -> usize {
    let length = table_length as usize;
    let fetched = length.is_multiple_of(16) && length <= TABLE_BYTES && length != copied;
    if fetched {
        length
    } else {
        0
    }
}

pub fn u32_at(bytes: &[u8], at: usize) -> u32 {
    u32::from_be_bytes(bytes[at..at + 4].try_into().unwrap())
}

pub fn u64_at(bytes: &[u8], at: usize) -> u64 {
    u64::from_be_bytes(bytes[at..at + 8].try_into().unwrap())
}
