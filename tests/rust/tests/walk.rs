//! Whole walks with srp_cut, from 0 bytes handed out to done, judged by document 01's words and not by the model: the
//! pieces cover exactly the first min(R, B) bytes in order, each is at most M long and as long as possible, and none
//! crosses a segment's end or, by document 02, a multiple of Q.

use srp_tests::calls::{Call, Cut, Memory, Placement};
use srp_tests::generate;
use srp_tests::judge::{bytes_of, is_multiple, judge, AT_MULTIPLE, ENDS};
use srp_tests::limits::Limits;
use srp_tests::model::MemoryDescriptor;
use srp_tests::random::Random;
use srp_tests::tally::Tally;

/// The answer's bytes as a piece and its offset; None for done. Bytes 20-31 of a piece are 0.
fn read_answer(buf: &[u8]) -> Option<(MemoryDescriptor, u32)> {
    if buf[..32] == [0; 32] {
        return None;
    }
    assert_eq!(buf[20..32], [0; 12], "unused bytes");
    Some((MemoryDescriptor::read(buf), u32::from_be_bytes([buf[16], buf[17], buf[18], buf[19]])))
}

struct Walk {
    list: Vec<u8>,
    limits: Limits,
    r: u32,
}

impl Walk {
    fn returned(&self, memory: &mut Memory, handed: u32) -> (u32, Vec<u8>) {
        let call = Cut { list: self.list.clone(), limits: self.limits, r: self.r, handed, lent: 32 };
        let outcome = call.outcome(memory, Placement::AT_END);
        (outcome.returned, outcome.buf)
    }

    /// The pieces in order, up to done.
    fn pieces(&self, memory: &mut Memory, most: usize) -> Vec<(MemoryDescriptor, u32)> {
        let (mut pieces, mut handed) = (Vec::new(), 0);
        loop {
            let (returned, buf) = self.returned(memory, handed);
            assert_eq!(returned, 0, "a lawful cut was refused after {handed} bytes");
            let Some((memory, offset)) = read_answer(&buf) else {
                break;
            };
            assert_eq!(offset, handed, "offset");
            assert_ne!(memory.length, 0, "empty piece");
            pieces.push((memory, offset));
            assert!(pieces.len() <= most, "more than {most} pieces");
            handed += memory.length;
        }
        if let Some(too_many) = handed.checked_add(1) {
            assert_eq!(self.returned(memory, too_many).0, 11, "one byte more than all");
        }
        pieces
    }
}

fn length(random: &mut Random, m: u32) -> u32 {
    match random.below(6) {
        0 | 1 => 0,
        2 => random.of(&[1, 2, m - 1, m, m + 1, 2 * m, 2 * m + 1]) % 400,
        _ => random.below(90) as u32,
    }
}

fn segments(random: &mut Random, m: u32) -> Vec<MemoryDescriptor> {
    let count = random.below(33);
    (0..count)
        .map(|_| {
            let length = length(random, m);
            let last = 0u64.wrapping_sub(u64::from(length));
            let address = match random.below(4) {
                0 if length > 0 => last,
                1 => u64::from(random.u8()),
                _ => random.u64() >> 1,
            };
            MemoryDescriptor { address, handle: random.u32(), length }
        })
        .collect()
}

#[test]
fn every_byte_of_small_buffers() {
    let (mut random, mut memory, mut tally) = (Random::new(7), Memory::default(), Tally::default());
    for _ in 0..6_000 {
        let m = random.of(&[1, 2, 3, 7, 16, 31, 64, 100, 512]);
        let limits = Limits { m, q: random.of(&[0, 0, 512, 512, 1024, 4096, 1 << 32]) };
        let segments = segments(&mut random, m);
        let bytes = bytes_of(&segments);
        let r = random.of(&[bytes.len(), bytes.len() + 1, bytes.len().saturating_sub(1), bytes.len() / 2, 0, 1 << 31]);
        let walk = Walk { list: generate::list_of(&segments), limits, r: r as u32 };
        let pieces = walk.pieces(&mut memory, 10_000);
        judge(&bytes, 0..bytes.len().min(r), limits, &pieces, &mut tally);
        tally.add("done");
    }
    tally.print("walks, judged byte by byte");
    tally.assert_each(500, &[&["done", AT_MULTIPLE], &ENDS[..]].concat());
}

/// Buffers up to 2^32 - 1 bytes: each piece is placed by its offset in its segment.
#[test]
fn large_buffers() {
    let (mut random, mut memory, mut seen, mut at_multiples) = (Random::new(8), Memory::default(), 0, 0);
    for _ in 0..200 {
        let (segments, b) = large_segments(&mut random);
        let m = 1_048_576 - random.of(&[0, 0, 1, 500_000]);
        let q = random.of(&[0, 1 << 19, 1 << 20, 1 << 21, 1 << 31, 1 << 32]);
        let r = random.of(&[u64::from(u32::MAX), b, b.saturating_sub(1), b / 2]);
        let walk = Walk { list: generate::list_of(&segments), limits: Limits { m, q }, r: r as u32 };
        let pieces = walk.pieces(&mut memory, 20_000);
        seen += pieces.len();
        let mut next = 0;
        for (memory, offset) in &pieces {
            assert_eq!(u64::from(*offset), next, "in order, none left out");
            next += u64::from(memory.length);
            let segment_end = end_of_its_segment(&segments, memory, *offset);
            assert!(next <= segment_end, "crosses a segment");
            assert!(memory.length <= m, "longer than M");
            let last = memory.address + u64::from(memory.length - 1);
            assert_eq!(memory.address.checked_div(q), last.checked_div(q), "crosses a multiple of Q");
            let other_end = memory.length == m || next == segment_end || next == b.min(r);
            assert!(other_end || is_multiple(last.wrapping_add(1), q), "could be longer");
            at_multiples += u32::from(!other_end);
        }
        assert_eq!(next, b.min(r), "all of the first min(R, B) bytes");
    }
    println!("walks over large buffers: {seen} pieces");
    assert!(seen > 50_000 && at_multiples > 5_000, "{at_multiples} up to a multiple");
}

/// Up to 32 segments, some of them large; and B, at most 2^32 - 1.
fn large_segments(random: &mut Random) -> (Vec<MemoryDescriptor>, u64) {
    let mut left = random.of(&[u64::from(u32::MAX), 1 << 30, 1 << 26]);
    let mut segments = Vec::new();
    for _ in 0..random.below(32) {
        let length = if random.one_in(4) { 0 } else { random.up_to(left) };
        left -= length;
        let address = random.of(&[0, 1 << 40, 0u64.wrapping_sub(1 << 33)]);
        segments.push(MemoryDescriptor { address, handle: random.u32(), length: length as u32 });
    }
    segments.push(MemoryDescriptor { address: 0u64.wrapping_sub(left), handle: 5, length: left as u32 });
    let b = segments.iter().map(|segment| u64::from(segment.length)).sum();
    (segments, b)
}

/// The end, as an offset in the buffer, of the segment that has the byte at `offset`. Panics unless the piece's handle
/// and address are those of that byte.
fn end_of_its_segment(segments: &[MemoryDescriptor], memory: &MemoryDescriptor, offset: u32) -> u64 {
    let mut start = 0;
    for segment in segments {
        let end = start + u64::from(segment.length);
        if (start..end).contains(&u64::from(offset)) {
            assert_eq!(memory.handle, segment.handle, "handle");
            assert_eq!(memory.address, segment.address + (u64::from(offset) - start), "address");
            return end;
        }
        start = end;
    }
    panic!("offset {offset} lies in no segment");
}
