//! Data buffer descriptors: their bytes, the table fetch, the segments, bad fields.

use super::cutting::{past_the_end, segments, sum_of_lengths};
use super::number;

/// "Memory descriptor: address 0-7, handle 8-11, length 12-15."
#[derive(Clone, Copy, Debug, Default, PartialEq, Eq)]
pub struct MemoryDescriptor {
    pub address: u64,
    pub handle: u32,
    pub length: u32,
}

impl MemoryDescriptor {
    pub const BYTES: usize = 16;

    /// Of at least 16 bytes.
    pub fn read(bytes: &[u8]) -> Self {
        MemoryDescriptor {
            address: number(&bytes[0..8]),
            handle: number(&bytes[8..12]) as u32,
            length: number(&bytes[12..16]) as u32,
        }
    }

    pub fn to_bytes(self) -> [u8; Self::BYTES] {
        let mut bytes = [0; Self::BYTES];
        bytes[0..8].copy_from_slice(&self.address.to_be_bytes());
        bytes[8..12].copy_from_slice(&self.handle.to_be_bytes());
        bytes[12..16].copy_from_slice(&self.length.to_be_bytes());
        bytes
    }
}

/// "Format 0: no bytes. 1: one memory descriptor, its only segment. 2: table descriptor, total length (4 bytes), then
/// count c copies."
#[derive(Clone, Copy, PartialEq)]
pub enum Format {
    None,
    Direct,
    Indirect,
}

impl Format {
    /// "A format needs its bit in the login's required formats (1: bit 1; 2: bit 2)." None where it is not agreed.
    pub fn agreed(code: u8, formats: u32) -> Option<Format> {
        match code {
            0 => Some(Format::None),
            1 if formats & 1 << 1 != 0 => Some(Format::Direct),
            2 if formats & 1 << 2 != 0 => Some(Format::Indirect),
            _ => None,
        }
    }

    /// "20 + 16c bytes. The count is unread for 0 and 1."
    pub fn descriptor_bytes(self, count: usize) -> usize {
        match self {
            Format::None => 0,
            Format::Direct => MemoryDescriptor::BYTES,
            Format::Indirect => 20 + 16 * count,
        }
    }
}

/// A direction's descriptor as the message has it.
#[derive(Clone, Debug, PartialEq, Eq)]
pub enum Descriptor {
    None,
    Direct(MemoryDescriptor),
    Indirect(Table),
}

#[derive(Clone, Debug, PartialEq, Eq)]
pub struct Table {
    pub descriptor: MemoryDescriptor,
    pub total: u32,
    /// c memory descriptors.
    pub copies: Vec<u8>,
}

/// What is bad about a command's fields: the rules of refusal 10, in the text's order.
#[derive(Clone, Copy, Debug, PartialEq, Eq)]
pub enum BadField {
    TableLength,
    Copy,
    Total,
    PastTheEnd,
}

impl Table {
    /// "7/8 out/in count above 32 or 16c above the table's length."
    fn bad_count(&self) -> bool {
        self.copies.len() > 16 * 32 || self.copies.len() > self.descriptor.length as usize
    }

    /// "A multiple of 16 from 16 to 512."
    fn lawful_length(&self) -> bool {
        let length = self.descriptor.length;
        length % 16 == 0 && (16..=512).contains(&length)
    }

    fn copies_are_whole(&self) -> bool {
        self.copies.len() == self.descriptor.length as usize
    }
}

impl Descriptor {
    /// `bytes` is as long as the format and the count say.
    pub fn read(format: Format, bytes: &[u8]) -> Self {
        match format {
            Format::None => Descriptor::None,
            Format::Direct => Descriptor::Direct(MemoryDescriptor::read(bytes)),
            Format::Indirect => Descriptor::Indirect(Table {
                descriptor: MemoryDescriptor::read(bytes),
                total: number(&bytes[16..20]) as u32,
                copies: bytes[20..].to_vec(),
            }),
        }
    }

    pub fn bad_count(&self) -> bool {
        matches!(self, Descriptor::Indirect(table) if table.bad_count())
    }

    /// "Fetched length F is the table's length if that is a multiple of 16 from 16 to 512 and not 16c; otherwise 0."
    /// "Done, F = 0 and unused bytes are 0": without a fetch the whole descriptor is zero.
    pub fn fetch(&self) -> MemoryDescriptor {
        match self {
            Descriptor::Indirect(table) if table.lawful_length() && !table.copies_are_whole() => table.descriptor,
            _ => MemoryDescriptor::default(),
        }
    }

    /// F.
    pub fn fetch_length(&self) -> usize {
        self.fetch().length as usize
    }

    /// "The segments are the message's copies when they are the whole table, and otherwise the fetched table." As the
    /// bytes of a list; `table` has F bytes.
    pub fn segment_list(&self, table: &[u8]) -> Vec<u8> {
        match self {
            Descriptor::None => Vec::new(),
            Descriptor::Direct(segment) => segment.to_bytes().to_vec(),
            Descriptor::Indirect(indirect) if indirect.copies_are_whole() => indirect.copies.clone(),
            Descriptor::Indirect(_) => table.to_vec(),
        }
    }

    /// "Bad fields (refusal 10): a table length not a multiple of 16 from 16 to 512; a copy unlike its table entry;
    /// total unlike the sum of lengths; a segment with address + length above 2^64 (equal is fine)."
    pub fn bad_field(&self, table: &[u8]) -> Option<BadField> {
        let list = self.segment_list(table);
        if let Descriptor::Indirect(indirect) = self {
            if !indirect.lawful_length() {
                return Some(BadField::TableLength);
            }
            if !list.starts_with(&indirect.copies) {
                return Some(BadField::Copy);
            }
            if sum_of_lengths(&list) != u64::from(indirect.total) {
                return Some(BadField::Total);
            }
        }
        let past = segments(&list).any(past_the_end);
        past.then_some(BadField::PastTheEnd)
    }
}
