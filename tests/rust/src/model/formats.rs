//! Where the values of an SRP_CMD's byte 5 lead: document 02, job 14.

use super::command::{look, SRP_CMD};
use super::descriptors::MemoryDescriptor;
use super::writing::Answer;
use super::Refusal;

/// A descriptor with count 0: "format 0: no bytes. 1: one memory descriptor .. 2: table descriptor, total length (4
/// bytes), then count c copies." The table has one entry, which is to be fetched. Other formats have no bytes.
fn descriptor(format: u8) -> Vec<u8> {
    let memory = MemoryDescriptor { address: 0x9000, handle: 7, length: 16 }.to_bytes();
    match format {
        1 => memory.to_vec(),
        2 => [&memory[..], &[0; 4]].concat(),
        _ => Vec::new(),
    }
}

/// An SRP_CMD with a value of byte 5, "whose length never decides": it is the one that its formats ask for.
pub fn command(value: u8) -> Vec<u8> {
    let mut head = vec![0; 48];
    (head[0], head[5]) = (SRP_CMD, value);
    [head, descriptor(value >> 4), descriptor(value & 0x0f)].concat()
}

/// How many of the 256 values pass, draw 5 and draw 6: each is put to look, in a message.
pub fn format_counts(formats: u32) -> Result<[u64; 3], Refusal> {
    let mut counts = [0; 3];
    for value in 0..=255 {
        let at = match look(&command(value), 1364, formats) {
            Ok(_) => 0,
            Err(Refusal::OutFormat) => 1,
            Err(Refusal::InFormat) => 2,
            Err(other) => return Err(other),
        };
        counts[at] += 1;
    }
    Ok(counts)
}

/// The C form: "every call that has one writes all eight words, the unused ones 0".
pub fn format_counts_in_c(formats: u32, answer: &mut Answer) -> u32 {
    *answer = [0; 8];
    match format_counts(formats) {
        Ok(counts) => {
            answer[..3].copy_from_slice(&counts);
            0
        }
        Err(refusal) => refusal.number(),
    }
}

#[cfg(test)]
mod tests {
    use super::*;

    /// "9, 208, 39 with both agreed, 4, 224, 28 with one, 1, 240, 15 with none."
    #[test]
    fn numbers_of_document_02() {
        let counts = [0b110, 0b100, 0b010, 0b000].map(format_counts);
        assert_eq!(counts, [[9, 208, 39], [4, 224, 28], [4, 224, 28], [1, 240, 15]].map(Ok));
        assert_eq!(format_counts(0b1110), Err(Refusal::Setting));
    }
}
