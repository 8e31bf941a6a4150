//! Look, the cut and the format counts.

mod messages;

use messages::*;
use srp_target::{cut, format_counts, look, Fetch, Fetches, FormatCounts, Piece, Refusal};

const NOTHING: Fetches = Fetches { data_out: None, data_in: None };

fn by_table(address: u64, handle: u32, length: u32, copies: Vec<[u8; 16]>) -> Data {
    Data::Indirect { table: memory(address, handle, length), total: 700, copies }
}

#[test]
fn look_names_the_tables() {
    let (out, inn) = (by_table(0x0102_0304_0506_0708, 0x090a_0b0c, 512, vec![]), by_table(0x9000, 7, 16, vec![]));
    let fetch_out = Fetch { address: 0x0102_0304_0506_0708, handle: 0x090a_0b0c, length: 512 };
    let fetch_in = Fetch { address: 0x9000, handle: 7, length: 16 };
    let fetches = look(&command(9, 1, out, inn), 1364, BOTH_FORMATS);
    assert_eq!(fetches, Ok(Fetches { data_out: Some(fetch_out), data_in: Some(fetch_in) }));
    let fetches = look(&command(9, 0, Data::None, by_table(0x9000, 7, 16, vec![])), 1364, BOTH_FORMATS);
    assert_eq!(fetches, Ok(Fetches { data_out: None, data_in: Some(fetch_in) }));
    let whole = by_table(0x9000, 7, 16, vec![memory(0, 7, 700)]);
    assert_eq!(look(&command(9, 0, whole, Data::None), 1364, BOTH_FORMATS), Ok(NOTHING));
    assert_eq!(look(&p1(9), 64, 0b010), Ok(NOTHING));
}

/// 2 to 8.
#[test]
fn look_refused() {
    let counted = |out, inn| {
        let table = |count| by_table(0x9000, 7, 16, vec![memory(0, 7, 350); count]);
        command(9, 0, table(out), table(inn))
    };
    let direct = |tag| command(tag, 0, Data::Direct(memory(0, 7, 1)), Data::Direct(memory(0, 7, 1)));
    assert_eq!(look(&[], 63, BOTH_FORMATS), Err(Refusal::Setting));
    assert_eq!(look(&[], 1365, BOTH_FORMATS), Err(Refusal::Setting));
    assert_eq!(look(&[], 1364, 0b1000), Err(Refusal::Setting));
    assert_eq!(look(&[], 1364, BOTH_FORMATS), Err(Refusal::Length));
    assert_eq!(look(&[0x02; 65], 64, BOTH_FORMATS), Err(Refusal::Length));
    assert_eq!(look(&task(9, LUN, 0x01, 9), 1364, BOTH_FORMATS), Err(Refusal::OtherType));
    assert_eq!(look(&no_data(9)[..47], 1364, BOTH_FORMATS), Err(Refusal::Length));
    assert_eq!(look(&direct(9), 1364, 0), Err(Refusal::OutFormat));
    assert_eq!(look(&p1(9), 1364, 0), Err(Refusal::InFormat));
    assert_eq!(look(&counted(2, 2), 1364, BOTH_FORMATS), Err(Refusal::OutCount));
    assert_eq!(look(&counted(1, 2), 1364, BOTH_FORMATS), Err(Refusal::InCount));
}

/// P2, walked by the cut alone.
#[test]
fn cut_piece_after_piece() {
    let list = [memory(0x2000, 7, 0), memory(0x3000, 8, 600), memory(0x0102_0304_0506_0708, 9, 100)].concat();
    let mut pieces = Vec::new();
    let mut handed = 0;
    while let Some(piece) = cut(&list, 512, 0, 700, handed).unwrap() {
        handed += piece.length;
        pieces.push(piece);
    }
    let expected = [
        Piece { address: 0x3000, handle: 8, length: 512, offset: 0 },
        Piece { address: 0x3200, handle: 8, length: 88, offset: 512 },
        Piece { address: 0x0102_0304_0506_0708, handle: 9, length: 100, offset: 600 },
    ];
    assert_eq!(pieces, expected);
    assert_eq!(cut(&[], 1, 0, 0, 0), Ok(None));
}

/// Up to a multiple of Q, from one Q bytes, and up to 2^64.
#[test]
fn cut_at_a_boundary() {
    let last = 0u64.wrapping_sub(600);
    let list = [memory(0x0fff, 7, 1300), memory(last, 8, 600)].concat();
    for (q, handed, address, length) in [
        (512, 0, 0x0fff, 1),
        (512, 1, 0x1000, 512),
        (512, 513, 0x1200, 512),
        (512, 1025, 0x1400, 275),    // up to the segment's end
        (512, 1300, last, 88),       // up to the last multiple below 2^64
        (512, 1388, last + 88, 512), // up to 2^64
        (1 << 32, 0, 0x0fff, 1024),  // M is nearer
    ] {
        let piece = cut(&list, 1024, q, 1900, handed).unwrap().map(|piece| (piece.address, piece.length));
        assert_eq!(piece, Some((address, length)), "Q {q}, {handed} handed out");
    }
}

/// 2, 11, 10, 11 in that order.
#[test]
fn cut_refused() {
    let past = memory(u64::MAX, 7, 2);
    assert_eq!(cut(&past[..15], 0, 0, 2, 3), Err(Refusal::Setting));
    assert_eq!(cut(&past[..15], 1_048_577, 0, 2, 3), Err(Refusal::Setting));
    for q in [1, 256, 511, 513, 768, (1 << 31) + 1, 1 << 33, u64::MAX] {
        assert_eq!(cut(&past[..15], 1, q, 2, 3), Err(Refusal::Setting), "Q {q}");
    }
    assert_eq!(cut(&past[..15], 1, 1 << 32, 2, 3), Err(Refusal::Argument));
    assert_eq!(cut(&past.repeat(33), 1, 0, 2, 3), Err(Refusal::Argument));
    assert_eq!(cut(&past, 1, 512, 2, 3), Err(Refusal::Fields));
    assert_eq!(cut(&memory(0, 7, 2), 1, 0, 2, 3), Err(Refusal::Argument));
    assert_eq!(cut(&memory(0, 7, 9), 1, 0, 2, 2), Ok(None));
}

/// Document 02's numbers.
#[test]
fn format_counts_of_each_agreement() {
    for (formats, pass, out_format, in_format) in
        [(0b000, 1, 240, 15), (0b010, 4, 224, 28), (0b100, 4, 224, 28), (BOTH_FORMATS, 9, 208, 39)]
    {
        assert_eq!(format_counts(formats), Ok(FormatCounts { pass, out_format, in_format }), "formats {formats:03b}");
    }
}

/// 2, for each bit other than 1 and 2.
#[test]
fn format_counts_refused() {
    for bit in (0..32).filter(|bit| ![1, 2].contains(bit)) {
        assert_eq!(format_counts(1 << bit), Err(Refusal::Setting), "bit {bit}");
        assert_eq!(format_counts(BOTH_FORMATS | 1 << bit), Err(Refusal::Setting), "bit {bit} and both formats");
    }
    assert_eq!(format_counts(u32::MAX), Err(Refusal::Setting));
}
