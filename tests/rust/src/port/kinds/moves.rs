//! Kinds of moves and of their pieces.

use super::super::call::{Call, Outcome};
use crate::judge::is_multiple;
use crate::limits::Limits;
use crate::model::channel::{OpenCommand, Transfer};
use crate::model::segments;
use crate::position;

/// Several a call: where a move begins and ends, why one is refused, how far a piece goes, what its number is.
/// `position` has where among the segments a move begins.
pub const FEATURES: [&str; 36] = [
    "move, across a segment's end",
    "move, after several operations",
    "move, all of a direction",
    "move, at min(R, B)",
    "move, back to what was handed out",
    "move, both ways at once",
    "move, count 0",
    "move, empty after several operations",
    "move, from inside a segment",
    "move, of some bytes",
    "move, offset + count above 2^32 - 1",
    "move, on from what was handed out",
    "move, one below min(R, B)",
    "move, past a gap",
    "move, trimmed",
    "refused 29, offset above 0",
    "refused 31, far above",
    "refused 31, one above min(R, B)",
    "refused 31, operations handed out",
    "refused 31, pieces left",
    "refused 32, in",
    "refused 32, operations handed out",
    "refused 32, out",
    "step, beyond h",
    "step, done after no operation",
    "step, done after one operation",
    "step, done after several operations",
    "step, from a multiple of Q to the next",
    "step, from a multiple of Q, shorter",
    "step, no multiple of Q at its ends",
    "step, several operations the other way",
    "step, the first of its move",
    "step, up to 2^64 with a boundary",
    "step, up to a multiple of Q alone",
    "step, up to h at most",
    "step, without a piece ever",
];

/// The features of a move or a step, by the command before it, and M and Q.
pub fn features(call: &Call, outcome: &Outcome, command: &OpenCommand, limits: Limits) -> Vec<String> {
    let sides = |direction: u32| match direction {
        0 => [&command.data_out, &command.data_in],
        _ => [&command.data_in, &command.data_out],
    };
    let kinds = match *call {
        Call::Move { direction, offset, count, .. } => {
            let [moved, other] = sides(direction);
            let (start, stop) = (u64::from(offset), u64::from(offset) + u64::from(count));
            match outcome.returned {
                0 => of_move(moved, other, start, stop),
                refusal => of_refusal(refusal, moved, direction == 0, start),
            }
        }
        Call::Step { direction, .. } if outcome.returned == 0 => {
            let [moved, other] = sides(direction);
            [of_step(&outcome.answer, [moved, other]), of_boundary(&outcome.answer, moved, limits)].concat()
        }
        _ => Vec::new(),
    };
    kinds.into_iter().filter(|(fits, _)| *fits).map(|(_, kind)| kind.into()).collect()
}

type Kinds = Vec<(bool, &'static str)>;

fn of_move(moved: &Transfer, other: &Transfer, start: u64, stop: u64) -> Kinds {
    let (due, h) = (moved.due(), moved.reached);
    let end = stop.min(due);
    let some = start < end;
    let mut kinds = vec![
        (some && ends(moved).any(|at| start < at && at < end), "move, across a segment's end"),
        (some && moved.number > 1, "move, after several operations"),
        (some && start == 0 && end == due, "move, all of a direction"),
        (due > 0 && start == due && stop > start, "move, at min(R, B)"),
        (some && start < h, "move, back to what was handed out"),
        (some && !other.current.is_empty(), "move, both ways at once"),
        (start < due && start == stop, "move, count 0"),
        (!some && moved.number > 1, "move, empty after several operations"),
        (some && start > 0 && ends(moved).all(|at| at != start), "move, from inside a segment"),
        (some && end < due, "move, of some bytes"),
        (some && stop > u64::from(u32::MAX), "move, offset + count above 2^32 - 1"),
        (some && h > 0 && start == h, "move, on from what was handed out"),
        (some && start + 1 == due, "move, one below min(R, B)"),
        (some && start > h, "move, past a gap"),
        (some && stop > due, "move, trimmed"),
    ];
    if some {
        let lengths: Vec<u32> = segments(&moved.segments).map(|segment| segment.length).collect();
        kinds.extend(position::kinds(&lengths, start).map(|kind| (true, kind)));
    }
    kinds
}

/// The segments' ends, as offsets in the buffer.
fn ends(transfer: &Transfer) -> impl Iterator<Item = u64> + '_ {
    let lengths = segments(&transfer.segments).map(|segment| u64::from(segment.length));
    lengths.scan(0, |end, length| {
        *end += length;
        Some(*end)
    })
}

fn of_refusal(refusal: u32, moved: &Transfer, out: bool, start: u64) -> Kinds {
    let pieces_left = !moved.current.is_empty();
    vec![
        (refusal == 29 && start > 0, "refused 29, offset above 0"),
        (refusal == 31 && start > moved.due() + 1, "refused 31, far above"),
        (refusal == 31 && start == moved.due() + 1, "refused 31, one above min(R, B)"),
        (refusal == 31 && moved.number > 0, "refused 31, operations handed out"),
        (refusal == 31 && pieces_left, "refused 31, pieces left"),
        (refusal == 32 && !out, "refused 32, in"),
        (refusal == 32 && moved.number > 0, "refused 32, operations handed out"),
        (refusal == 32 && out, "refused 32, out"),
    ]
}

fn of_step(answer: &[u64; 8], [moved, other]: [&Transfer; 2]) -> Kinds {
    let [piece, _, _, _, length, offset, number, _] = *answer;
    let end = offset + length;
    vec![
        (piece == 1 && end > moved.reached, "step, beyond h"),
        (piece == 0 && number == 0, "step, done after no operation"),
        (piece == 0 && number == 1, "step, done after one operation"),
        (piece == 0 && number > 1, "step, done after several operations"),
        (piece == 1 && other.number > 1 && other.number != number, "step, several operations the other way"),
        (piece == 1 && number == 1, "step, the first of its move"),
        (piece == 1 && end <= moved.reached, "step, up to h at most"),
        (piece == 0 && moved.due() > 0 && moved.reached == 0, "step, without a piece ever"),
    ]
}

/// Where the piece of a step stands between multiples of Q.
fn of_boundary(answer: &[u64; 8], moved: &Transfer, Limits { m, q }: Limits) -> Kinds {
    let [piece, _, _, address, length, offset, ..] = *answer;
    let (end, behind) = (offset + length, address.wrapping_add(length));
    let (from, to) = (is_multiple(address, q), is_multiple(behind, q));
    let other_end = length == m.into() || end == moved.current.end || ends(moved).any(|at| at == end);
    vec![
        (piece == 1 && from && to && length == q, "step, from a multiple of Q to the next"),
        (piece == 1 && from && !to, "step, from a multiple of Q, shorter"),
        (piece == 1 && q > 0 && !from && !to, "step, no multiple of Q at its ends"),
        (piece == 1 && q > 0 && behind == 0, "step, up to 2^64 with a boundary"),
        (piece == 1 && to && !other_end, "step, up to a multiple of Q alone"),
    ]
}
