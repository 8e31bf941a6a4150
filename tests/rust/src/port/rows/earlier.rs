//! Takes of the rows below level 7, which lend a command its tables. The rule, by which every such row keeps its answer:
//!
//! - The take is put without them. Where the command then waits, its tables are brought by the next call, and both
//!   together give the row's answer: taken, or 10 with its message.
//! - 9 left the message untaken at these levels: after it the port goes back to what it was before the take.
//! - Tables lent for a command without a fetch drew 9 too, and no call draws it any more: here they are refused with 33
//!   or, where the take drew 10, with 24. The row's 9 stands for that, and the port goes back likewise.

use super::super::call::{Call, Outcome, Restore};
use crate::model::number;
use crate::tally::Tally;

/// What lent tables came to, in the order of `counts`.
pub const KINDS: [&str; 4] = ["brought", "brought, 10", "brought, 9", "lent without a fetch"];

/// The outcome of a take with its tables, as its level has it.
pub fn take<T: Restore>(target: &mut T, take: &Call, lent: [Vec<u8>; 2], kinds: &mut Tally) -> Outcome {
    let before = target.state();
    let mut taken = target.call(take);
    let [_, kind, .., waits, _] = taken.answer;
    let none_lent = lent.iter().all(Vec::is_empty);
    if taken.returned != 10 && (taken.returned != 0 || kind != 1) || waits == 0 && none_lent {
        return taken;
    }
    let tag = number(&take.input()[8..16]);
    let mut brought = target.call(&Call::Tables { tag, tables: lent, buf: take.buf().to_vec() });
    if waits == 0 {
        assert_eq!(brought.returned, if taken.returned == 10 { 24 } else { 33 }, "tables without a fetch");
        brought.returned = 9;
        kinds.add(KINDS[3]);
    } else {
        kinds.add(if brought.returned == 0 { KINDS[0].into() } else { format!("brought, {}", brought.returned) });
    }
    match brought.returned {
        0 => {
            taken.answer[6] = 0;
            taken
        }
        9 => {
            target.restore(before);
            brought
        }
        _ => brought,
    }
}
