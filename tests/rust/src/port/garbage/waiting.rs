//! Commands that wait in words that no login made, and tables for them: which refusal tables draw, by these words.

use super::super::call::Call;
use super::super::frame::Memory;
use super::super::plain;
use super::super::slots::{self, held, slot_of, waiting, word_of, DIRECTIONS, WAITS};
use super::number;
use crate::model::descriptors::Descriptor;
use crate::model::{sum_of_lengths, MemoryDescriptor};
use crate::random::Random;

/// Writes over the words of some slots that say whether a command waits, and for what.
pub fn write_words(random: &mut Random, memory: &mut Memory) {
    for slot in 0..16 {
        if random.one_in(2) {
            memory.words[word_of(slot, WAITS)] = if random.one_in(2) { 1 } else { number(random) };
        }
        for at in DIRECTIONS {
            let entries = random.up_to(8);
            let any = [0; 4].map(|_| number(random));
            let some = [random.up_to(3), random.up_to(entries), 16 * entries, random.up_to(3000)];
            let words = if random.one_in(4) { any } else { some };
            for (k, word) in words.into_iter().enumerate() {
                memory.words[word_of(slot, at + k)] = word;
            }
        }
    }
}

/// Tables for one of the open commands: mostly such as its words name.
pub fn tables(random: &mut Random, memory: &Memory) -> Call {
    let open = held(memory).max(1);
    let slot = random.below(open);
    let lent = match waiting(memory, slot) {
        Some(descriptors) => descriptors.each_ref().map(|descriptor| table(random, descriptor)),
        None => Default::default(),
    };
    plain::tables(slots::tag(memory, slot), lent.each_ref().map(Vec::as_slice))
}

/// Of F bytes: the copies, and behind them one segment with what the total has left; now and then any bytes, or a byte
/// more.
fn table(random: &mut Random, descriptor: &Descriptor) -> Vec<u8> {
    let mut table = random.bytes(descriptor.fetch_length());
    let Descriptor::Indirect(indirect) = descriptor else {
        return table;
    };
    let copied = indirect.copies.len();
    if copied < table.len() && !random.one_in(8) {
        table[..copied].copy_from_slice(&indirect.copies);
        table[copied..].fill(0);
        let left = u64::from(indirect.total).saturating_sub(sum_of_lengths(&indirect.copies));
        let last = MemoryDescriptor { address: 0x1000, handle: 7, length: left as u32 };
        table[copied..copied + 16].copy_from_slice(&last.to_bytes());
    }
    if random.one_in(12) {
        table.push(0);
    }
    table
}

/// What tables draw and why, by the words of their command's slot; None where there are none, the buffer is short, or
/// more copies are kept than the table holds, which no take leaves.
pub fn expected(call: &Call, memory: &Memory) -> Option<(u32, &'static str)> {
    let Call::Tables { tag, buf, .. } = call else {
        return None;
    };
    let slot = slot_of(memory, *tag).filter(|_| buf.len() >= 132)?;
    let Some(descriptors) = waiting(memory, slot) else {
        return Some((33, "not waiting"));
    };
    let lent = call.tables();
    if lent.map(<[u8]>::len) != descriptors.each_ref().map(Descriptor::fetch_length) {
        return Some((9, "of another length"));
    }
    if descriptors.iter().any(Descriptor::bad_count) {
        return None;
    }
    let bad = descriptors.iter().zip(lent).any(|(descriptor, table)| descriptor.bad_field(table).is_some());
    let none = lent.iter().all(|table| table.is_empty());
    Some(match (bad, none) {
        (true, _) => (10, "bad fields"),
        (false, true) => (0, "accepted, none fetched"),
        (false, false) => (0, "accepted"),
    })
}
