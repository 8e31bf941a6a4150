//! The port's calls against the model.

use srp_tests::interface;
use srp_tests::model::MemoryDescriptor;
use srp_tests::port::both::Both;
use srp_tests::port::generate::{command, Data};
use srp_tests::port::plain::{fetched, login, open};
use srp_tests::port::{kinds, side_by_side::SideBySide, Call, Target};
use srp_tests::position;
use srp_tests::random::Random;
use srp_tests::tally::Tally;

#[test]
fn words_of_a_port() {
    assert_eq!(interface::port_words(), interface::PORT_WORDS as u64);
}

/// Three ports in turn, which share nothing.
#[test]
fn generated_calls() {
    let mut random = Random::new(0x5350_5233);
    let mut ports = [1, 2, 3].map(SideBySide::new);
    for _ in 0..600_000 {
        ports[random.below(3)].call();
    }
    let (mut outcomes, mut features) = (Tally::default(), Tally::default());
    for port in &ports {
        outcomes.join(&port.outcomes);
        features.join(&port.features);
    }
    outcomes.print("port, generated calls");
    features.print_as("port, generated calls", "kinds of them");
    outcomes.assert_each(40, &kinds::OUTCOMES);
    let of_calls = [&kinds::moves::FEATURES[..], &kinds::logins::FEATURES, &kinds::tables::FEATURES];
    let kinds = [&kinds::FEATURES[..], &of_calls.concat(), &kinds::turns::FEATURES, &position::KINDS];
    features.assert_each(40, &kinds.concat());
}

/// Data-in of 600 and 100 bytes, of which 650 are required: min(R, B) is 650.
fn planned() -> Both {
    let (mut both, mut random) = (Both::new(7), Random::new(8));
    both.call(&login(&mut random, 4, 512, 1364, 0b110));
    let segments = [(0x3000, 600), (0x5000, 100)];
    let data = fetched(&segments.map(|(address, length)| MemoryDescriptor { address, handle: 9, length }));
    let data = [Data::none(), data];
    let msg = command(&mut random, 1, 0, 0, &data);
    open(&mut both, &msg, &data);
    assert_eq!(both.call(&Call::Plan { tag: 1, r_out: 9, r_in: 650 }).returned, 0, "planned");
    both
}

/// Each offset up to min(R, B), and some above, with counts up to there and around 2^32 less the offset.
#[test]
fn every_offset_of_a_move() {
    let (mut both, mut named, mut refused, mut pieces) = (planned(), 0, 0, 0);
    let before = both.save();
    for offset in (0..=720).chain([1 << 16, 1 << 31, u32::MAX - 1, u32::MAX]) {
        let (rest, to_2_32) = (650u32.saturating_sub(offset), 0u32.wrapping_sub(offset));
        for count in [0, 1, 512, 513, rest + 1, to_2_32.wrapping_add(1), to_2_32.wrapping_add(650), u32::MAX] {
            both.restore(&before);
            match both.call(&Call::Move { tag: 1, direction: 1, offset, count }).returned {
                0 => named += 1,
                other => refused += u32::from(other == 31),
            }
            pieces += both.call(&Call::Step { tag: 1, direction: 1 }).answer[0];
            both.call(&Call::Step { tag: 1, direction: 1 });
        }
    }
    println!("port, every offset of a move: {} calls", named + refused);
    // Each count but 0 has a piece wherever a byte is left; at offset 1 the sixth is 0 too.
    assert_eq!((named, refused, pieces), (651 * 8, 74 * 8, 650 * 7 - 1));
}
