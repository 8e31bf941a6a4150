//! The numbers of srp_target_sys are those of include/srp_target.h.

use std::collections::BTreeMap;

const HEADER: &str = include_str!("../../../include/srp_target.h");
const NUMBERS: &str = include_str!("../../../bindings/sys/src/numbers.rs");

fn number(word: &str) -> u64 {
    let digits = word.replace('_', "");
    match digits.strip_prefix("0x") {
        Some(hex) => u64::from_str_radix(hex, 16),
        None => digits.parse(),
    }
    .unwrap_or_else(|_| panic!("{word} is no number"))
}

/// `#define SRP_NAME NUMBER` and perhaps a comment; the header's guard has no number.
fn defined(line: &str) -> Option<(&str, u64)> {
    let mut words = line.strip_prefix("#define SRP_")?.split_whitespace();
    let name = words.next()?;
    words.next().map(|word| (name, number(word)))
}

/// `pub const NAME: TYPE = NUMBER;`.
fn declared(line: &str) -> Option<(&str, u64)> {
    let (name, rest) = line.strip_prefix("pub const ")?.split_once(": ")?;
    let (_, word) = rest.strip_suffix(';')?.split_once(" = ")?;
    Some((name, number(word)))
}

#[test]
fn numbers_of_the_header() {
    let header: BTreeMap<_, _> = HEADER.lines().filter_map(defined).collect();
    let numbers: BTreeMap<_, _> = NUMBERS.lines().filter_map(declared).collect();
    assert_eq!(header["PORT_WORDS"], srp_target_sys::PORT_WORDS as u64);
    assert_eq!(numbers, header);
    assert_eq!(numbers.len(), NUMBERS.lines().filter(|line| line.contains("const")).count(), "a line was not read");
}
