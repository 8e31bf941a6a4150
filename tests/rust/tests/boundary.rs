//! Job 6 of document 02: "a setting Q, 0 for none, or a power of two from 512 to 2^32". "A piece now ends at the
//! nearest of M, the segment's end, the move's end and the next multiple of Q above its first address." "A bad Q draws
//! refusal 2." Each power of two and the numbers beside it in a login, in the cut and in a port's words; addresses
//! around multiples; the end of memory. The pieces are those that `search` finds byte by byte.

use srp_tests::calls::{Call as _, Cut, Memory, Placement};
use srp_tests::generate::list_of;
use srp_tests::limits::Limits;
use srp_tests::model::MemoryDescriptor;
use srp_tests::port::garbage::BOUNDARY_WORD;
use srp_tests::port::plain::login;
use srp_tests::port::{library::Library, Call, Outcome, Target};
use srp_tests::random::Random;
use srp_tests::search::{first_and_last, piece, table, Byte, Search};

const M: u32 = 1_048_576;

/// The most bytes that a buffer can have.
const MOST: u64 = u32::MAX as u64;

/// Where the offsets stand.
const ENDS: [&str; 2] = ["offset at a segment's first byte", "offset at a segment's last byte"];

/// Each power of two and the numbers beside it, 0 and the largest of all.
fn numbers() -> impl Iterator<Item = u64> {
    let around = |power: u32| [(1 << power) - 1, 1 << power, (1 << power) + 1];
    (0..64).flat_map(around).chain([0, u64::MAX])
}

/// "0 for none, or a power of two from 512 to 2^32."
fn is_good(q: u64) -> bool {
    q == 0 || (512..=4_294_967_296).contains(&q) && q.count_ones() == 1
}

/// 24 powers of two, and 0 twice, which is 2^0 - 1 too.
fn assert_counted(good: usize, all: usize) {
    assert_eq!((good, all), (2 + 24, 3 * 64 + 2));
}

/// A segment for each power of two from 2^9 to 2^32: 100 bytes behind its first address lies a multiple of that one and
/// of the smaller ones, and the next multiple of a larger one lies further on. So its first piece tells them apart.
fn powers() -> Vec<MemoryDescriptor> {
    let segment = |power: u32| MemoryDescriptor { address: (5 << power) - 100, handle: power, length: 700 };
    (9..=32).map(segment).collect()
}

/// First and last byte of each segment, by srp_cut and by a move that begins there.
fn judge_pieces(search: &mut Search, limits: Limits, in_cut: bool) {
    let list = powers();
    for (from, byte) in first_and_last(&list, MOST) {
        let expected = piece(Some(&byte), limits, from, MOST);
        if in_cut {
            search.judge_cut(&list, limits, u32::MAX, from, expected);
        } else {
            search.judge_step(&list, from, u32::MAX, expected);
        }
    }
}

/// What is other than in a login that is accepted: its message, its buffer.
type Change = fn(&mut Vec<u8>, &mut Vec<u8>);

/// A login on some port, which closes it unless it is accepted.
fn log_in(port: &mut Library, limits: Limits, change: Change) -> Outcome {
    let mut call = login(&mut Random::new(3), 4, limits, 1364, 0b110);
    if let Call::Login { msg, buf, .. } = &mut call {
        change(msg, buf);
    }
    let outcome = port.call(&call);
    let open = outcome.returned == 0 && outcome.answer[1] == 0;
    assert_eq!(port.call(&Call::Counters).returned, if open { 0 } else { 21 }, "{call:02x?}");
    outcome
}

/// Behind 1, together with M's 2, and ahead of 3, 4 and the rejections.
#[test]
fn in_a_login() {
    let (mut port, mut search, mut good) = (Library::new(51), Search::new(51), 0);
    for q in numbers() {
        let (limits, bad) = (Limits { m: M, q }, !is_good(q));
        let or_2 = |number: u32| if bad { 2 } else { number };
        let mut returned = |m, change: Change| log_in(&mut port, Limits { m, q }, change).returned;
        assert_eq!(returned(M, |_, buf| buf.truncate(131)), 1, "Q {q}");
        assert_eq!([0, M + 1].map(|m| returned(m, |_, _| ())), [2, 2], "Q {q}");
        assert_eq!(returned(M, |msg, _| msg.truncate(63)), or_2(3), "Q {q}");
        assert_eq!(returned(M, |msg, _| msg[0] = 0x02), or_2(4), "Q {q}");
        assert_eq!(returned(M, |msg, _| msg[25] |= 0x08), or_2(0), "Q {q}, a format that is rejected");
        assert_eq!(returned(M, |_, _| ()), or_2(0), "Q {q}");
        if !bad {
            search.plan(&powers(), limits, u32::MAX);
            judge_pieces(&mut search, limits, false);
            good += 1;
        }
    }
    assert_counted(good, numbers().count());
    search.tell_pieces("boundary, each number in a login", 20, &ENDS);
}

/// Behind 1, together with M's 2, and ahead of 11 and 10.
#[test]
fn in_the_cut() {
    let (mut memory, mut search, mut good) = (Memory::default(), Search::new(52), 0);
    let past = list_of(&[MemoryDescriptor { address: u64::MAX, handle: 7, length: 2 }]);
    for q in numbers() {
        let or_2 = |number: u32| if is_good(q) { number } else { 2 };
        let mut returned = |m, list: &[u8], handed, lent| {
            let cut = Cut { list: list.to_vec(), limits: Limits { m, q }, r: 700, handed, lent };
            cut.outcome(&mut memory, Placement::AT_END).returned
        };
        let list = list_of(&powers());
        assert_eq!(returned(M, &list, 0, 31), 1, "Q {q}");
        assert_eq!([0, M + 1].map(|m| returned(m, &list, 0, 32)), [2, 2], "Q {q}");
        assert_eq!(returned(M, &list[1..], 0, 32), or_2(11), "Q {q}");
        assert_eq!(returned(M, &past, 0, 32), or_2(10), "Q {q}");
        assert_eq!(returned(M, &list, 701, 32), or_2(11), "Q {q}");
        assert_eq!([0, 700].map(|handed| returned(M, &list, handed, 32)), [or_2(0); 2], "Q {q}");
        if is_good(q) {
            judge_pieces(&mut search, Limits { m: M, q }, true);
            good += 1;
        }
    }
    assert_counted(good, numbers().count());
    search.tell_pieces("boundary, each number in the cut", 20, &ENDS);
}

/// "Any words are a port": a number that is no boundary is read as none.
#[test]
fn in_a_port_s_words() {
    let (mut search, mut good) = (Search::new(53), 0);
    for q in numbers() {
        search.plan(&powers(), Limits { m: M, q: 4096 }, u32::MAX);
        search.write_word(BOUNDARY_WORD, q);
        judge_pieces(&mut search, Limits { m: M, q: if is_good(q) { q } else { 0 } }, false);
        good += usize::from(is_good(q));
    }
    assert_counted(good, numbers().count());
    search.tell_pieces("boundary, each number in a port's words", 20, &ENDS);
}

/// That word has Q as a login was given it, and no other word depends on it.
#[test]
fn its_word() {
    let (mut port, mut words) = (Library::new(54), Vec::new());
    for q in numbers().filter(|&q| is_good(q)) {
        log_in(&mut port, Limits { m: M, q }, |_, _| ());
        assert_eq!(std::mem::take(&mut port.memory.words[BOUNDARY_WORD]), q);
        words.push(port.memory.words.clone());
    }
    assert!(words.len() == 26 && words.windows(2).all(|pair| pair[0] == pair[1]));
}

/// Segments of several lengths, each from two bytes before an address to two bytes behind it on; none passes 2^64.
fn around(address: u64) -> Vec<MemoryDescriptor> {
    let segment = |place: u32, length: u64| {
        let address = address - 2 + u64::from(place);
        let room = 0u64.wrapping_sub(address);
        MemoryDescriptor { address, handle: 10 * place + 1, length: length.min(room) as u32 }
    };
    (0..=4).flat_map(|place| [1, 2, 513, 1024, 1300].map(|length| segment(place, length))).collect()
}

/// Whether a byte stands beside a multiple of Q, or at an end of its segment.
fn counts(bytes: &[Byte], at: usize, q: u64) -> bool {
    let ends = bytes[at].left == 1 || at == 0 || bytes[at - 1].left == 1;
    ends || bytes[at].address % q <= 1 || bytes[at].address % q == q - 1
}

/// Judges cut and step at an offset; whether Q made the piece shorter.
fn judge_at(search: &mut Search, list: &[MemoryDescriptor], bytes: &[Byte], limits: Limits, from: usize) -> u32 {
    let (byte, from, b) = (bytes.get(from), from as u64, bytes.len() as u64);
    let expected = piece(byte, limits, from, b);
    search.judge_cut(list, limits, b as u32, from, expected);
    search.judge_step(list, from, u32::MAX, expected);
    search.judge_step(list, from, 2, piece(byte, limits, from, b.min(from + 2)));
    u32::from(expected != piece(byte, limits.m.into(), from, b))
}

#[test]
fn around_multiples() {
    let (mut search, mut shorter) = (Search::new(55), 0);
    for q in [512, 1024, 4096, 1 << 16, 1 << 20, 1 << 31, 1 << 32] {
        for multiple in [q, 3 * q, 1 << 63, 0u64.wrapping_sub(q)] {
            let list = around(multiple);
            let bytes = table(&list);
            for m in [1, 2, 511, 512, 513, M] {
                let limits = Limits { m, q };
                search.plan(&list, limits, bytes.len() as u32);
                for from in (0..bytes.len()).filter(|&at| counts(&bytes, at, q)) {
                    shorter += judge_at(&mut search, &list, &bytes, limits, from);
                }
            }
        }
    }
    search.tell_pieces("boundary, around multiples", 1_000, &ENDS);
    assert!(shorter > 2_000, "{shorter} pieces up to a multiple");
}

/// Segments that end at 2^64, the shortest being the last byte of memory, from their first piece to done.
#[test]
fn at_the_end_of_memory() {
    let (mut search, mut shorter) = (Search::new(56), 0);
    let lengths = [1, 2, 511, 512, 513, 1024, 1300];
    for (length, q) in lengths.into_iter().flat_map(|length| [0, 512, 1024, 1 << 32].map(|q| (length, q))) {
        let list = [MemoryDescriptor { address: 0u64.wrapping_sub(u64::from(length)), handle: 9, length }];
        let bytes = table(&list);
        for m in [1, 100, 512, M] {
            let limits = Limits { m, q };
            search.plan(&list, limits, length);
            let mut from = 0;
            while let Some([_, _, moved, _]) = piece(bytes.get(from), limits, from as u64, u64::from(length)) {
                shorter += judge_at(&mut search, &list, &bytes, limits, from);
                from += moved as usize;
            }
            assert_eq!(from, length as usize, "up to the last byte");
            judge_at(&mut search, &list, &bytes, limits, from);
        }
    }
    search.tell("boundary, at the end of memory", 50, &ENDS);
    assert!(shorter > 10, "{shorter} pieces up to a multiple");
}
