//! srp_cut against the model.

use srp_tests::calls::{Call, Cut, Memory, Outcome, Placement};
use srp_tests::generate;
use srp_tests::limits::Limits;
use srp_tests::model::{self, MemoryDescriptor, Piece};
use srp_tests::position;
use srp_tests::random::Random;
use srp_tests::tally::Tally;

/// The refusal, done, or what ended the piece. Which argument an 11 is about is told by the list's length.
fn kind(call: &Cut, outcome: &Outcome) -> String {
    let lawful_list = call.list.len() % 16 == 0 && call.list.len() <= 512;
    match outcome.returned {
        0 if outcome.buf[..32] == [0; 32] => "done".into(),
        0 => piece_kind(call, &outcome.buf).into(),
        11 if lawful_list => "refused 11, handed out".into(),
        11 => "refused 11, list".into(),
        10 if model::segments(&call.list).any(model::past_the_end) => "refused 10, past 2^64".into(),
        10 => "refused 10, sum".into(),
        2 if (1..=1_048_576).contains(&call.limits.m) => "refused 2, Q".into(),
        2 => "refused 2, M".into(),
        refusal => format!("refused {refusal}"),
    }
}

fn piece_kind(call: &Cut, buf: &[u8]) -> &'static str {
    let memory = MemoryDescriptor::read(buf);
    let b = model::sum_of_lengths(&call.list);
    let piece_end = u64::from(call.handed) + u64::from(memory.length);
    let ends_a_segment = |at: usize| model::sum_of_lengths(&call.list[..at]) == piece_end;
    if memory.length == call.limits.m {
        "piece of M bytes"
    } else if piece_end == b.min(u64::from(call.r)) {
        "piece up to min(R, B)"
    } else if (16..=call.list.len()).step_by(16).any(ends_a_segment) {
        "piece up to its segment's end"
    } else {
        "piece up to a multiple of Q"
    }
}

const OUTCOMES: [&str; 12] = [
    "refused 1",
    "refused 2, M",
    "refused 2, Q",
    "refused 10, past 2^64",
    "refused 10, sum",
    "refused 11, handed out",
    "refused 11, list",
    "done",
    "piece of M bytes",
    "piece up to a multiple of Q",
    "piece up to its segment's end",
    "piece up to min(R, B)",
];

#[test]
fn generated_lists() {
    let (mut random, mut memory) = (Random::new(0x5350_5232), Memory::default());
    let (mut tally, mut positions) = (Tally::default(), Tally::default());
    for _ in 0..400_000 {
        let placement = Placement::random(&mut random);
        let call = Cut::random(&mut random);
        let outcome = call.compared(&mut memory, placement);
        let kind = kind(&call, &outcome);
        if kind.starts_with("piece") {
            let lengths: Vec<u32> = model::segments(&call.list).map(|segment| segment.length).collect();
            position::kinds(&lengths, call.handed.into()).for_each(|kind| positions.add(kind));
        }
        tally.add(kind);
    }
    tally.print("cut, generated lists");
    positions.print_as("cut, generated lists", "kinds of them");
    tally.assert_each(500, &OUTCOMES);
    positions.assert_each(500, &position::KINDS);
}

/// Each list length from 0 to 600, with zero bytes and with descriptors.
#[test]
fn every_list_length() {
    let (mut random, mut memory, mut tally) = (Random::new(6), Memory::default(), Tally::default());
    let segments: Vec<MemoryDescriptor> =
        (0..38).map(|i| MemoryDescriptor { address: i << 16, handle: random.u32(), length: 100 }).collect();
    for mut list in [generate::list_of(&segments), vec![0; 608]] {
        for length in (0..=600).rev() {
            list.truncate(length);
            for handed in [0, 1, 150, 3199, 3200] {
                let call = Cut { list: list.clone(), limits: 64.into(), r: 3200, handed, lent: 33 };
                let outcome = call.compared(&mut memory, Placement::AT_END);
                tally.add(kind(&call, &outcome));
            }
        }
    }
    tally.print("cut, every list length");
    // 33 of the 601 lengths are lawful.
    assert_eq!(tally.count("refused 11, list"), 2 * 568 * 5);
    assert_eq!(tally.total(), 2 * 601 * 5);
}

/// The bounds of M, Q, a segment's end and the sum, by the documents' numbers: each with the outcome as a number.
#[test]
fn bounds() {
    let at = |address, length| MemoryDescriptor { address, handle: 7, length };
    let plain = [at(0x1000, u32::MAX)];
    let of_m = |m: u32| returned(&plain, m, 5, 0);
    assert_eq!([0, 1, 1_048_576, 1_048_577, u32::MAX].map(of_m), [2, 0, 0, 2, 2]);
    let of_q = |q| returned(&plain, Limits { m: 512, q }, 5, 0);
    assert_eq!([0, 1, 256, 511, 512, 513, 768, 1024].map(of_q), [0, 2, 2, 2, 0, 2, 2, 0]);
    assert_eq!([(1 << 32) - 1, 1 << 32, (1 << 32) + 512, 1 << 33, u64::MAX].map(of_q), [2, 0, 2, 2, 2]);

    // address + length = 2^64 - 1, 2^64, 2^64 + 1
    let ends = [u64::MAX - 600, u64::MAX - 599, u64::MAX - 598];
    assert_eq!(ends.map(|address| returned(&[at(address, 600)], 512, 600, 0)), [0, 0, 10]);
    assert_eq!(returned(&[at(u64::MAX, 0)], 512, 600, 0), 0);
    assert_eq!([1, 2].map(|length| returned(&[at(u64::MAX, length)], 512, 600, 0)), [0, 10]);
    assert_eq!(returned(&[at(0, u32::MAX)], 512, 600, 0), 0);

    // sum = 2^32 - 2, 2^32 - 1, 2^32, 2^32 + 1; the last two draw 10 whatever R and the bytes handed out
    let sums = [0, 1, 2, 3].map(|more| [at(0, 0xffff_0000), at(0, 0xfffe + more)]);
    assert_eq!(sums.map(|list| returned(&list, 512, 0, 0)), [0, 0, 10, 10]);
    assert_eq!(sums.map(|list| returned(&list, 512, 5, u32::MAX)), [11, 11, 10, 10]);
    assert_eq!(returned(&[at(0, u32::MAX); 32], 512, 5, 5), 10);

    // handed out = min(R, B), and one more, with R above B and under it
    let three = [at(0x2000, 0), at(0x3000, 600), at(0x5000, 100)];
    assert_eq!([699, 700, 701].map(|handed| returned(&three, 512, 800, handed)), [0, 0, 11]);
    assert_eq!([649, 650, 651].map(|handed| returned(&three, 512, 650, handed)), [0, 0, 11]);
    assert_eq!([0, 1].map(|handed| returned(&[], 512, 650, handed)), [0, 11]);
}

fn returned(segments: &[MemoryDescriptor], limits: impl Into<Limits>, r: u32, handed: u32) -> u32 {
    let call = Cut { list: generate::list_of(segments), limits: limits.into(), r, handed, lent: 32 };
    call.compared(&mut Memory::default(), Placement::AT_END).returned
}

/// The last byte of memory and of the longest buffer can be handed out.
#[test]
fn last_bytes() {
    let piece =
        |segments: &[MemoryDescriptor], handed| model::cut(&generate::list_of(segments), 512.into(), u32::MAX, handed);
    let last_of_memory = [MemoryDescriptor { address: u64::MAX - 599, handle: 9, length: 600 }];
    let memory = MemoryDescriptor { address: u64::MAX, handle: 9, length: 1 };
    assert_eq!(piece(&last_of_memory, 599), Ok(Some(Piece { memory, offset: 599 })));
    let longest = [MemoryDescriptor { address: 0, handle: 9, length: u32::MAX }];
    let memory = MemoryDescriptor { address: 0xffff_fffe, handle: 9, length: 1 };
    assert_eq!(piece(&longest, 0xffff_fffe), Ok(Some(Piece { memory, offset: 0xffff_fffe })));
    for (segments, handed) in [(last_of_memory, 599), (longest, 0xffff_fffe)] {
        let call = Cut { list: generate::list_of(&segments), limits: 512.into(), r: u32::MAX, handed, lent: 32 };
        call.compared(&mut Memory::default(), Placement::AT_END);
    }
}
