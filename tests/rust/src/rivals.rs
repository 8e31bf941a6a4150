//! Every list of operations that moves the same bytes, found by trying: no rule here says how long an operation is to
//! be.

use crate::judge::{is_multiple, Byte};

/// All lists for some bytes: how many there are, and the operations of one that has the fewest.
#[derive(Debug, PartialEq, Eq)]
pub struct Rivals {
    pub lists: u64,
    pub fewest: u64,
}

/// Tries every list that "covers the same bytes in order", from `at` to `end`: operations of 1 to M bytes, one behind
/// the other. None leaves the part of memory that it starts in; `parts` says of each byte which one has it.
pub fn rivals(parts: &[usize], at: usize, end: usize, m: usize) -> Rivals {
    if at == end {
        return Rivals { lists: 1, fewest: 0 };
    }
    let mut all = Rivals { lists: 0, fewest: u64::MAX };
    for next in at + 1..=end.min(at + m) {
        if parts[next - 1] != parts[at] {
            break;
        }
        let rest = rivals(parts, next, end, m);
        all.lists += rest.lists;
        all.fewest = all.fewest.min(1 + rest.fewest);
    }
    all
}

/// The operations of a list that has the fewest, of all that `rivals` tries: by the fewest for the bytes before its
/// last operation, wherever that begins.
pub fn fewest(parts: &[usize], from: usize, to: usize, m: usize) -> u64 {
    let mut least = vec![0; to - from + 1];
    for end in from + 1..=to {
        let in_part = (from.max(end.saturating_sub(m))..end).rev().take_while(|&at| parts[at] == parts[end - 1]);
        least[end - from] = in_part.map(|at| least[at - from] + 1).min().expect("an operation of one byte");
    }
    least[to - from]
}

/// Of each byte the part that has it: "each inside one segment", and there between two multiples of Q, which rival
/// lists "obey too".
pub fn by_segment(bytes: &[Byte], q: u64) -> Vec<usize> {
    let begins = |at: usize| bytes[at].segment != bytes[at - 1].segment || is_multiple(bytes[at].address, q);
    let mut part = 0;
    let part_of = |at: usize| {
        part += usize::from(at > 0 && begins(at));
        part
    };
    (0..bytes.len()).map(part_of).collect()
}

/// Of each byte the stretch of memory that has it: segments that adjoin, with the same handle, are one. Operations that
/// stay in these alone are no rivals.
pub fn by_stretch(bytes: &[Byte]) -> Vec<usize> {
    let apart = |at: usize| {
        let (last, byte) = (bytes[at - 1], bytes[at]);
        byte.handle != last.handle || byte.address != last.address + 1
    };
    let mut stretch = 0;
    let stretch_of = |at: usize| {
        stretch += usize::from(at > 0 && apart(at));
        stretch
    };
    (0..bytes.len()).map(stretch_of).collect()
}

#[cfg(test)]
mod tests {
    use super::*;

    /// Of 11 bytes the parts that have them: 2, 1, 2 and 6 bytes.
    const PARTS: [usize; 11] = [0, 0, 1, 2, 2, 3, 3, 3, 3, 3, 3];

    #[test]
    fn lists_counted_by_hand() {
        for (from, to, m, lists, fewest) in [
            (0, 0, 5, 1, 0),
            (0, 1, 5, 1, 1),
            (0, 2, 1, 1, 2), // 1 1
            (0, 2, 5, 2, 1), // 1 1, 2
            (0, 5, 5, 4, 3), // of each two bytes 1 1 or 2, and 1 between them
            (1, 4, 5, 1, 3), // 1, 1, 1
            (5, 8, 2, 3, 2), // 1 1 1, 1 2, 2 1
            (5, 9, 2, 5, 2), // 1 1 1 1, 1 1 2, 1 2 1, 2 1 1, 2 2
            (5, 9, 3, 7, 2), // these, 1 3 and 3 1
            (5, 9, 4, 8, 1), // these, and 4
            (4, 7, 9, 2, 2), // 1, then 1 1 or 2
        ] {
            assert_eq!(rivals(&PARTS, from, to, m), Rivals { lists, fewest }, "{from} to {to}, M {m}");
        }
    }

    #[test]
    fn fewest_of_all_lists() {
        for (from, to) in (0..=11).flat_map(|from| (from..=11).map(move |to| (from, to))) {
            for m in 1..=7 {
                let all = rivals(&PARTS, from, to, m);
                assert_eq!(fewest(&PARTS, from, to, m), all.fewest, "{from} to {to}, M {m}");
            }
        }
    }

    #[test]
    fn stretches_of_memory() {
        let byte = |segment, handle, address| Byte { segment, handle, address };
        let bytes = [byte(0, 7, 8), byte(0, 7, 9), byte(1, 7, 10), byte(3, 8, 11), byte(4, 8, 13), byte(5, 8, 13)];
        assert_eq!(by_segment(&bytes, 0), [0, 0, 1, 2, 3, 4]);
        assert_eq!(by_stretch(&bytes), [0, 0, 0, 1, 2, 3]);
    }

    #[test]
    fn parts_between_multiples() {
        let byte = |segment, address| Byte { segment, handle: 7, address };
        let bytes = [byte(0, 511), byte(0, 512), byte(0, 513), byte(2, 1023), byte(2, 1024), byte(3, 1025)];
        assert_eq!(by_segment(&bytes, 512), [0, 1, 1, 2, 3, 4]);
        assert_eq!(by_segment(&bytes, 1024), [0, 0, 0, 1, 2, 3]);
        assert_eq!(by_segment(&bytes, 0), [0, 0, 0, 1, 1, 2]);
    }
}
