//! The words of a port that say whether a command waits for its tables, and what these are judged by; where a move is;
//! and which moves are in line. For ports whose words no login made, too.

use super::frame::Memory;
use crate::model::descriptors::{Descriptor, Table};
use crate::model::turns::Place;
use crate::model::MemoryDescriptor;

/// Words before the slots, and of a slot.
const HEAD: usize = 16;
const SLOT: usize = 32;

/// Of the head: odd where the port is open, and how many slots are in use, from the first on.
const OPEN: usize = 0;
const HELD: usize = 1;

/// Of a slot: the tag, the LUN, odd where it is planned; the place in the store, by its lowest 4 bits; odd where the command waits; and each way format,
/// count, table length and total length.
const TAG: usize = 0;
const LUN: usize = 1;
pub const PLANNED: usize = 4;
pub const PLACE: usize = 5;
pub const WAITS: usize = 20;
pub const DIRECTIONS: [usize; 2] = [21, 25];

/// Of a slot each way: the offset of the move's next byte and that of its end, each modulo 2^32.
pub const MOVES: [[usize; 2]; 2] = [[10, 11], [17, 18]];

/// Of the line: where it begins, modulo 32, and how many moves are in it, 32 at most; then the ring of 32 places, a tag
/// and a direction each, odd for data-in.
pub const FIRST: usize = 528;
pub const COUNT: usize = 529;
const RING: usize = 530;
pub const MOST_IN_LINE: usize = 32;

/// Bytes of a place in the store, of which the second half is for data-in.
const PLACE_BYTES: usize = 1024;

/// Where a word of a slot stands among those of the port.
pub fn word_of(slot: usize, word: usize) -> usize {
    HEAD + SLOT * slot + word
}

fn word(memory: &Memory, slot: usize, at: usize) -> u64 {
    memory.words[word_of(slot, at)]
}

/// How many commands are open; none where the port is closed.
pub fn held(memory: &Memory) -> usize {
    match memory.words[OPEN] % 2 {
        1 => memory.words[HELD].min(16) as usize,
        _ => 0,
    }
}

/// Whether two open commands have one place of the store, as no calls leave them.
pub fn shares_a_place(words: &[u64]) -> bool {
    let held = words[HELD].min(16) as usize;
    let places: Vec<u64> = (0..held).map(|slot| words[word_of(slot, PLACE)] % 16).collect();
    (0..held).any(|slot| places[..slot].contains(&places[slot]))
}

pub fn tag(memory: &Memory, slot: usize) -> u64 {
    word(memory, slot, TAG)
}

pub fn lun(memory: &Memory, slot: usize) -> u64 {
    word(memory, slot, LUN)
}

/// Whether the move of a direction, 0 out and 1 in, has pieces left.
pub fn has_pieces(memory: &Memory, slot: usize, direction: usize) -> bool {
    let [next, end] = MOVES[direction].map(|at| word(memory, slot, at) as u32);
    next < end
}

/// Where a place of the ring has its tag; the direction stands behind it.
pub fn ring(place: usize) -> usize {
    RING + 2 * (place % MOST_IN_LINE)
}

/// The moves in line, the next one first; none where the port is closed.
pub fn line(memory: &Memory) -> Vec<Place> {
    let words = &memory.words;
    let (first, count) = (words[FIRST] % MOST_IN_LINE as u64, words[COUNT].min(MOST_IN_LINE as u64));
    let count = if words[OPEN] % 2 == 1 { count } else { 0 };
    let places = (0..count as usize).map(|at| ring(first as usize + at));
    places.map(|at| Place { tag: words[at], direction: (words[at + 1] % 2) as u32 }).collect()
}

/// The first slot in use with that tag.
pub fn slot_of(memory: &Memory, searched: u64) -> Option<usize> {
    (0..held(memory)).find(|&slot| tag(memory, slot) == searched)
}

/// The descriptors, data-out and data-in, that a command waits with; none where it does not wait. Each number is read
/// into its range.
pub fn waiting(memory: &Memory, slot: usize) -> Option<[Descriptor; 2]> {
    let place = PLACE_BYTES * (word(memory, slot, PLACE) % 16) as usize;
    let halves = [place, place + PLACE_BYTES / 2];
    let waits = word(memory, slot, WAITS) % 2 == 1;
    waits.then(|| [0, 1].map(|way| descriptor(memory, slot, DIRECTIONS[way], &memory.store[halves[way]..])))
}

/// One direction, by its words from `at` on and the bytes that the store has of it.
fn descriptor(memory: &Memory, slot: usize, at: usize, kept: &[u8]) -> Descriptor {
    let [format, count, length, total] = [0, 1, 2, 3].map(|k| word(memory, slot, at + k));
    match format % 3 {
        0 => Descriptor::None,
        1 => Descriptor::Direct(MemoryDescriptor::read(kept)),
        _ => Descriptor::Indirect(Table {
            descriptor: MemoryDescriptor { address: 0, handle: 0, length: length as u32 },
            total: total as u32,
            copies: kept[..16 * count.min(32) as usize].to_vec(),
        }),
    }
}
