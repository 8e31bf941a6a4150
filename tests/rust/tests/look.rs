//! srp_look against the model.

use srp_tests::calls::{Call, Look, Memory, Outcome, Placement};
use srp_tests::generate::{self, Descriptor, BOTH_FORMATS, LONGEST};
use srp_tests::model::MemoryDescriptor;
use srp_tests::random::Random;
use srp_tests::tally::Tally;

/// The refusal, or which directions have a fetch.
fn kind(outcome: &Outcome) -> String {
    if outcome.returned != 0 {
        return format!("refused {}", outcome.returned);
    }
    let fetches = |direction: &[u8]| direction.iter().any(|&byte| byte != 0);
    match (fetches(&outcome.buf[..16]), fetches(&outcome.buf[16..32])) {
        (false, false) => "no fetch".into(),
        (true, false) => "out fetch".into(),
        (false, true) => "in fetch".into(),
        (true, true) => "out and in fetch".into(),
    }
}

const OUTCOMES: [&str; 12] = [
    "refused 1",
    "refused 2",
    "refused 3",
    "refused 4",
    "refused 5",
    "refused 6",
    "refused 7",
    "refused 8",
    "no fetch",
    "out fetch",
    "in fetch",
    "out and in fetch",
];

#[test]
fn generated_messages() {
    let (mut random, mut memory, mut tally) = (Random::new(0x5350_5231), Memory::default(), Tally::default());
    for _ in 0..300_000 {
        let placement = Placement::random(&mut random);
        let outcome = Look::random(&mut random).compared(&mut memory, placement);
        tally.add(kind(&outcome));
    }
    tally.print("look, generated messages");
    tally.assert_each(500, &OUTCOMES);
}

/// Each length from 0 to 1,400 of some messages, cut short or extended, against several agreed lengths.
#[test]
fn every_length() {
    let (mut random, mut memory, mut tally) = (Random::new(2), Memory::default(), Tally::default());
    let direct = Descriptor::Direct(MemoryDescriptor { address: 0x1000, handle: 7, length: 1300 });
    let table = generate::indirect(&mut random, 3, 64);
    let messages = [
        generate::longest_command(&mut random),
        generate::command(&mut random, 0, &Descriptor::None, &Descriptor::None),
        generate::command(&mut random, 1, &Descriptor::None, &direct),
        generate::command(&mut random, 5, &table, &direct),
        vec![0x01; 48],
    ];
    for message in &messages {
        for length in 0..=1400 {
            let mut msg = message.clone();
            msg.resize(length, 0xcd);
            for agreed in [64, 100, length as u32, LONGEST] {
                let look = Look { msg: msg.clone(), agreed, formats: BOTH_FORMATS, lent: 40 };
                let outcome = look.compared(&mut memory, Placement::AT_END);
                tally.add(kind(&outcome));
            }
        }
    }
    tally.print("look, every length");
    // Of 1,364, 48, 68 and 152 bytes: each is taken at its own length alone, under the agreed lengths that allow it.
    assert_eq!((tally.count("no fetch"), tally.count("out fetch")), (2 + 3 + 3, 2));
    assert_eq!(tally.count("refused 2"), 5 * 100); // agreed lengths 0 to 63 and 1,365 to 1,400
    assert_eq!(tally.count("refused 4"), 49 + 85 + 1301 + 1349);
    assert_eq!(tally.total(), 5 * 1401 * 4);
}

/// All values of each byte that look reads, in commands of all pairs of formats, under all agreed formats.
#[test]
fn every_value_of_a_field() {
    let (mut random, mut memory, mut tally) = (Random::new(3), Memory::default(), Tally::default());
    for pair in 0..9 {
        let [data_out, data_in] = [pair / 3, pair % 3].map(|format| match format {
            0 => Descriptor::None,
            1 => Descriptor::Direct(MemoryDescriptor { address: random.u64(), handle: 1, length: 2 }),
            _ => generate::indirect(&mut random, 2, 48),
        });
        let msg = generate::command(&mut random, 1, &data_out, &data_in);
        for at in [0, 5, 6, 7, 31] {
            for value in 0..=255 {
                let mut msg = msg.clone();
                msg[at] = value;
                for formats in [0, 2, 4, BOTH_FORMATS] {
                    let look = Look { msg: msg.clone(), agreed: LONGEST, formats, lent: 33 };
                    tally.add(kind(&look.compared(&mut memory, Placement::AT_END)));
                }
            }
        }
    }
    tally.print("look, every value of a field");
    let outcomes = ["refused 3", "refused 4", "refused 5", "refused 6"];
    let fetches = ["no fetch", "out fetch", "in fetch", "out and in fetch"];
    tally.assert_each(16, &[outcomes, fetches].concat());
}

/// The bounds of agreed length, formats, counts and F, by document 01's numbers: each with the outcome as a number.
#[test]
fn bounds() {
    let mut random = Random::new(9);
    let no_data = generate::command(&mut random, 0, &Descriptor::None, &Descriptor::None);
    let of_agreed = |agreed| answered(&no_data, agreed, BOTH_FORMATS).0;
    assert_eq!([0, 63, 64, 1364, 1365, u32::MAX].map(of_agreed), [2, 2, 0, 0, 2, 2]);
    let of_formats = |formats| answered(&no_data, LONGEST, formats).0;
    assert_eq!([0, 2, 4, 6, 1, 7, 8, 0x8000_0000].map(of_formats), [0, 0, 0, 0, 2, 2, 2, 2]);
    let longer = generate::command(&mut random, 5, &Descriptor::None, &Descriptor::None);
    assert_eq!([67, 68, 69].map(|agreed| answered(&longer, agreed, 0).0), [3, 0, 0]);

    // Count and table length: 7 or 8 where there is one, else F.
    let refused = [(33, 528), (33, u32::MAX), (32, 511), (1, 0), (1, 15), (2, 31)];
    let fetched = [(0, 16), (0, 32), (1, 32), (31, 512), (0, 512)];
    let not_fetched = [(0, 0), (0, 24), (0, 528), (0, 0x1_0010), (0, 0xffff_fff0), (1, 16), (32, 512), (32, 528)];
    for (count, length) in refused {
        assert_eq!(fetched_lengths(&mut random, count, length), [Err(7), Err(8)], "{count} copies, {length} bytes");
    }
    for (count, length) in fetched {
        assert_eq!(fetched_lengths(&mut random, count, length), [Ok(length); 2], "{count} copies, {length} bytes");
    }
    for (count, length) in not_fetched {
        assert_eq!(fetched_lengths(&mut random, count, length), [Ok(0); 2], "{count} copies, {length} bytes");
    }
}

fn answered(msg: &[u8], agreed: u32, formats: u32) -> (u32, Vec<u8>) {
    let look = Look { msg: msg.to_vec(), agreed, formats, lent: 32 };
    let outcome = look.compared(&mut Memory::default(), Placement::AT_END);
    (outcome.returned, outcome.buf)
}

/// F, or the refusal, for a table of that length with so many copies: as data-out, then as data-in.
fn fetched_lengths(random: &mut Random, count: usize, length: u32) -> [Result<u32, u32>; 2] {
    let table = generate::indirect(random, count, length);
    let messages = [(&table, &Descriptor::None), (&Descriptor::None, &table)];
    let mut at = 0;
    messages.map(|(data_out, data_in)| {
        let msg = generate::command(random, 0, data_out, data_in);
        let (returned, buf) = answered(&msg, LONGEST, BOTH_FORMATS);
        let fetch = MemoryDescriptor::read(&buf[at..]);
        at += MemoryDescriptor::BYTES;
        if returned == 0 {
            Ok(fetch.length)
        } else {
            Err(returned)
        }
    })
}

/// What look does not read changes nothing: bytes 1-4 and 8-30, the counts without a table, byte 31 bits 1-0, the CDB.
#[test]
fn unread_bytes() {
    let (mut random, mut memory) = (Random::new(4), Memory::default());
    let direct = Descriptor::Direct(MemoryDescriptor { address: 0x1000, handle: 7, length: 1300 });
    let msg = generate::command(&mut random, 2, &direct, &Descriptor::None);
    let unread = (1..=4).chain(6..=30).chain(32..56);
    for at in unread {
        for bit in 0..8 {
            expect_no_fetch(&mut memory, &msg, at, 1 << bit);
        }
    }
    for low_bits in 0..4 {
        expect_no_fetch(&mut memory, &msg, 31, low_bits);
    }
}

fn expect_no_fetch(memory: &mut Memory, msg: &[u8], at: usize, flip: u8) {
    let mut msg = msg.to_vec();
    msg[at] ^= flip;
    let outcome = Look { msg, agreed: LONGEST, formats: BOTH_FORMATS, lent: 32 }.outcome(memory, Placement::AT_END);
    assert_eq!(outcome, Outcome { returned: 0, buf: vec![0; 32] }, "byte {at} changed by {flip:02x}");
}

/// Every count from 0 to 32 with every table length from 0 to 560, each way.
#[test]
fn every_table_length() {
    let (mut random, mut memory, mut tally) = (Random::new(5), Memory::default(), Tally::default());
    for count in 0..=32 {
        for length in 0..=560 {
            let table = generate::indirect(&mut random, count, length);
            for (data_out, data_in) in [(&table, &Descriptor::None), (&Descriptor::None, &table)] {
                let msg = generate::command(&mut random, 0, data_out, data_in);
                let look = Look { msg, agreed: LONGEST, formats: BOTH_FORMATS, lent: 32 };
                tally.add(kind(&look.compared(&mut memory, Placement::AT_END)));
            }
        }
    }
    tally.print("look, every table length");
    // Fetches: with c copies, of the 32 table lengths from 16 to 512 those above 16c. 32 + 31 + .. + 0.
    tally.assert_each(528, &["refused 7", "refused 8", "no fetch", "out fetch", "in fetch"]);
}
