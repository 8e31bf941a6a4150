//! Commands that wait for their tables. No two have a segment alike, so that those of another command, or of the other
//! direction, show in the operations.

use super::call::{Call, Target};
use super::generate::{command, Data};
use super::plain::{copied, fetched_beside, tables};
use crate::generate::Descriptor;
use crate::model::MemoryDescriptor;
use crate::random::Random;

/// How a direction is described: so many segments in a table, of which so many are in the message too, or all.
#[derive(Clone, Copy, Debug, PartialEq, Eq)]
pub enum Shape {
    None,
    Direct,
    Copied(usize),
    Fetched(usize, usize),
}

use Shape::{Copied, Direct, Fetched};

/// Data-out and data-in of commands that wait.
pub const SHAPES: [[Shape; 2]; 10] = [
    [Fetched(1, 0), Shape::None],
    [Shape::None, Fetched(1, 0)],
    [Fetched(3, 1), Fetched(2, 1)],
    [Direct, Fetched(32, 31)],
    [Fetched(32, 0), Direct],
    [Copied(2), Fetched(3, 0)],
    [Fetched(4, 3), Copied(32)],
    [Fetched(2, 0), Fetched(2, 0)],
    [Fetched(32, 31), Fetched(32, 15)],
    [Shape::None, Fetched(5, 2)],
];

/// A command that waits, its segments, and its tables.
#[derive(Clone, Debug)]
pub struct Waiting {
    pub tag: u64,
    pub msg: Vec<u8>,
    pub segments: [Vec<MemoryDescriptor>; 2],
    pub tables: [Vec<u8>; 2],
}

/// Segments of up to 100 bytes, every third without a byte.
fn segments(serial: u64, way: u64, count: usize) -> Vec<MemoryDescriptor> {
    let segment = |at: u64| MemoryDescriptor {
        address: (1 + serial) << 32 | way << 24 | at << 12,
        handle: (1000 * serial + 100 * way + at) as u32,
        length: if at % 3 == 1 { 0 } else { (1 + serial % 60 + way + at) as u32 },
    };
    (0..count as u64).map(segment).collect()
}

fn described(shape: Shape, serial: u64, way: u64) -> (Vec<MemoryDescriptor>, Data) {
    let of = |count| segments(serial, way, count);
    match shape {
        Shape::None => (Vec::new(), Data::none()),
        Direct => (of(1), Data { descriptor: Descriptor::Direct(of(1)[0]), table: Vec::new() }),
        Copied(count) => (of(count), copied(&of(count))),
        Fetched(count, beside) => (of(count), fetched_beside(&of(count), beside)),
    }
}

impl Waiting {
    /// Another serial number has other segments.
    pub fn new(tag: u64, serial: u64, [out, inn]: [Shape; 2]) -> Self {
        let ((out_segments, out), (in_segments, inn)) = (described(out, serial, 0), described(inn, serial, 1));
        let data = [out, inn];
        let msg = command(&mut Random::new(tag), tag, tag % 2, 0, &data);
        Waiting { tag, msg, segments: [out_segments, in_segments], tables: data.map(|data| data.table) }
    }

    /// In one of the shapes, by its tag.
    pub fn with_tag(tag: u64) -> Self {
        Waiting::new(tag, tag, SHAPES[tag as usize % SHAPES.len()])
    }

    /// Its tables as they were fetched.
    pub fn bring(&self) -> Call {
        let [out, inn] = &self.tables;
        tables(self.tag, [out, inn])
    }

    /// Plans all of both directions and moves it: each segment with a byte is one operation, in order. M is at least as
    /// long as a segment.
    pub fn assert_carried_out(&self, target: &mut impl Target) {
        let Waiting { tag, segments, .. } = self;
        let (tag, most) = (*tag, u32::MAX);
        assert_eq!(target.call(&Call::Plan { tag, r_out: most, r_in: most }).returned, 0, "plan of {tag}");
        for (direction, segments) in [0, 1].into_iter().zip(segments) {
            let named = target.call(&Call::Move { tag, direction, offset: 0, count: most });
            assert_eq!(named.returned, 0, "move of {tag}");
            let (mut number, mut offset) = (0, 0);
            for segment in segments.iter().filter(|segment| segment.length > 0) {
                number += 1;
                let length = u64::from(segment.length);
                let piece = [u64::from(direction) + 1, segment.handle.into(), segment.address, length, offset, number];
                let stepped = target.call(&Call::Step { tag, direction });
                assert_eq!((stepped.returned, &stepped.answer[..7]), (0, &[&[1], &piece[..]].concat()[..]), "of {tag}");
                offset += length;
            }
            let done = target.call(&Call::Step { tag, direction });
            assert_eq!((done.returned, done.answer), (0, [0, 0, 0, 0, 0, 0, number, 0]), "done of {tag}");
        }
    }
}

/// What carrying a command out draws, in each of the four calls for it: plan, move, step and finish.
pub fn draws(target: &mut impl Target, tag: u64) -> [u32; 4] {
    let calls = [
        Call::Plan { tag, r_out: 1, r_in: 1 },
        Call::Move { tag, direction: 0, offset: 0, count: 1 },
        Call::Step { tag, direction: 1 },
        super::plain::finish(tag),
    ];
    calls.map(|call| target.call(&call).returned)
}
