//! srp_format_counts: by document 02's numbers, by what srp_look and srp_target_take make of messages with each of the
//! 256 values, and against the model.

use srp_tests::formats::{self, compared, kind, KINDS};
use srp_tests::guarded::{GuardedMemory, Side};
use srp_tests::interface;
use srp_tests::model::formats::command;
use srp_tests::port::call::UNWRITTEN;
use srp_tests::port::plain::{login, take};
use srp_tests::port::{library::Library, Target};
use srp_tests::random::Random;
use srp_tests::tally::Tally;

const LONGEST: u16 = 1364;

/// The agreed formats, none to both, and how many formats are then allowed, with format 0.
const AGREED: [(u16, u64); 4] = [(0b000, 1), (0b010, 2), (0b100, 2), (0b110, 3)];

/// How many values pass, draw 5 and draw 6, as the library counts them. The other words are 0.
fn counts(formats: u16) -> [u64; 3] {
    let mut answer = UNWRITTEN;
    assert_eq!(interface::format_counts(formats.into(), &mut answer), 0, "formats {formats:03b}");
    let [pass, out_format, in_format, rest @ ..] = answer;
    assert_eq!(rest, [0; 5], "formats {formats:03b}");
    [pass, out_format, in_format]
}

/// How often 0, 5 and 6 come up over all values.
fn divided(mut outcome: impl FnMut(u8) -> u32) -> [u64; 3] {
    let mut counts = [0; 3];
    for value in 0..=255 {
        let number = outcome(value);
        let at = [0, 5, 6].into_iter().position(|other| other == number);
        counts[at.unwrap_or_else(|| panic!("{value:02x} draws {number}"))] += 1;
    }
    counts
}

#[test]
fn numbers_of_document_02() {
    let of_each = AGREED.map(|(formats, _)| counts(formats));
    assert_eq!(of_each, [[1, 240, 15], [4, 224, 28], [4, 224, 28], [9, 208, 39]]);
}

/// "With f formats allowed .., f times f pass, 16 times (16 - f) draw 5, and f times (16 - f) draw 6."
#[test]
fn by_the_formats_allowed() {
    for (formats, f) in AGREED {
        let [pass, out_format, in_format] = counts(formats);
        assert_eq!([pass, out_format, in_format], [f * f, 16 * (16 - f), f * (16 - f)], "{f} formats allowed");
        assert_eq!(pass + out_format + in_format, 256, "{f} formats allowed");
    }
}

/// Messages of the length that their formats ask for.
#[test]
fn by_look() {
    for (formats, _) in AGREED {
        let look = |value| interface::look(&command(value), LONGEST.into(), formats.into(), &mut [0; 32]);
        assert_eq!(divided(look), counts(formats), "formats {formats:03b}");
    }
}

/// In messages of any other length that is not too short or too long, as many draw 5 and 6. The others may draw 3.
#[test]
fn by_look_at_any_length() {
    for (formats, _) in AGREED {
        for length in 48..=LONGEST {
            let counted = divided(|value| {
                let mut msg = command(value);
                msg.resize(length.into(), 0);
                match interface::look(&msg, LONGEST.into(), formats.into(), &mut [0; 32]) {
                    3 => 0,
                    number => number,
                }
            });
            assert_eq!(counted, counts(formats), "formats {formats:03b}, {length} bytes");
        }
    }
}

/// After a login of its own each message is taken as a command, or draws 5 or 6 and an SRP_T_LOGOUT with reason 6 or 7.
#[test]
fn by_take() {
    let (mut port, mut random) = (Library::new(1), Random::new(1));
    for (formats, _) in AGREED {
        let counted = divided(|value| {
            let accepted = port.call(&login(&mut random, 4, 512, LONGEST.into(), formats));
            assert_eq!((accepted.returned, accepted.answer), (0, [52, 0, 0, 0, 0, 0, 0, 0]), "accepted");
            let taken = port.call(&take(&command(value)));
            match (taken.returned, taken.message()) {
                (0, []) => assert_eq!(taken.answer[1], 1, "a command"),
                (5, [0x80, _, 0, 0, 0, 0, 0, 6, ..]) | (6, [0x80, _, 0, 0, 0, 0, 0, 7, ..]) => {}
                other => panic!("{value:02x}: {other:02x?}"),
            }
            taken.returned
        });
        assert_eq!(counted, counts(formats), "formats {formats:03b}");
    }
}

#[test]
fn every_lower_half() {
    let (mut memory, mut tally) = (GuardedMemory::holding(1), Tally::default());
    for formats in 0..=0xffff {
        for side in [Side::Start, Side::End] {
            tally.add(kind(&compared(formats, &mut memory, side)));
        }
    }
    tally.print("format counts, every lower half of the formats");
    assert_eq!(KINDS.map(|kind| tally.count(kind)), [2 * 65_532, 2, 4, 2]);
}

/// Each bit of the upper half, and any numbers.
#[test]
fn other_formats() {
    let (mut random, mut memory, mut tally) = (Random::new(14), GuardedMemory::holding(1), Tally::default());
    for bit in 16..32 {
        for (formats, _) in AGREED {
            let outcome = compared(u32::from(formats) | 1 << bit, &mut memory, Side::End);
            assert_eq!((outcome.returned, outcome.answer), (2, [0; 8]), "formats {formats:03b} and bit {bit}");
        }
    }
    for _ in 0..4_000 {
        let side = random.of(&[Side::Start, Side::End]);
        tally.add(kind(&compared(formats::random(&mut random), &mut memory, side)));
        tally.add(kind(&compared(random.u32(), &mut memory, side)));
    }
    tally.print("format counts, generated formats");
    tally.assert_each(400, &KINDS);
}
