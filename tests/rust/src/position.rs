//! Where an offset stands among the segments of its buffer, so that a tally shows that all of it came up.

pub const KINDS: [&str; 6] = [
    "offset behind an empty first segment",
    "offset behind an empty segment between two others",
    "offset before an empty last segment",
    "offset in the last of 32 segments",
    "offset at a segment's first byte",
    "offset at a segment's last byte",
];

/// The kinds of an offset, by the segments' lengths; none behind the last byte.
pub fn kinds(lengths: &[u32], offset: u64) -> impl Iterator<Item = &'static str> {
    let ends: Vec<u64> = (1..=lengths.len()).map(|count| sum(&lengths[..count])).collect();
    let fits = ends.iter().position(|&end| offset < end).map_or([false; 6], |at| {
        let first = lengths.iter().position(|&length| length > 0).unwrap_or(at);
        [
            first > 0,
            lengths[first..at].contains(&0),
            lengths.last() == Some(&0),
            at == 31,
            offset == sum(&lengths[..at]),
            offset + 1 == ends[at],
        ]
    });
    KINDS.into_iter().zip(fits).filter(|(_, fits)| *fits).map(|(kind, _)| kind)
}

fn sum(lengths: &[u32]) -> u64 {
    lengths.iter().map(|&length| u64::from(length)).sum()
}
