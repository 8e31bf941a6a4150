//! A port with all that it can hold: 16 commands of 32 segments each way, and the longest buffers.

use srp_tests::generate::Descriptor;
use srp_tests::model::MemoryDescriptor;
use srp_tests::port::both::Both;
use srp_tests::port::generate::{command, Data};
use srp_tests::port::plain::{self, fetched, finish, login, take};
use srp_tests::port::{Call, Outcome, Target};
use srp_tests::random::Random;

/// 32 segments behind a table; no two of all commands have the same address or handle.
fn segments(random: &mut Random) -> Data {
    let segment =
        |_| MemoryDescriptor { address: random.u64() >> 1, handle: random.u32(), length: random.of(&[0, 1, 600]) };
    let segments: Vec<MemoryDescriptor> = (0..32).map(segment).collect();
    fetched(&segments)
}

fn open(both: &mut Both, random: &mut Random, tag: u64) {
    let data = [segments(random), segments(random)];
    let msg = command(random, tag, tag % 3, 0, &data);
    plain::open(both, &msg, &data);
    assert_eq!(both.call(&Call::Plan { tag, r_out: u32::MAX, r_in: u32::MAX }).returned, 0, "planned");
    assert_eq!([0, 1].map(|direction| name(both, tag, direction, 0, u32::MAX)), [0, 0], "all of each direction");
}

fn name(both: &mut Both, tag: u64, direction: u32, offset: u32, count: u32) -> u32 {
    both.call(&Call::Move { tag, direction, offset, count }).returned
}

fn step(both: &mut Both, tag: u64, direction: u32) -> Outcome {
    let outcome = both.call(&Call::Step { tag, direction });
    assert_eq!(outcome.returned, 0, "step");
    outcome
}

/// Pieces are handed out for one command or another, commands end in between, and others take their place. Where all
/// was handed out, some of it is moved again.
#[test]
fn sixteen_commands_of_64_segments() {
    let (mut both, mut random) = (Both::new(31), Random::new(31));
    both.call(&login(&mut random, 16, 512, 1364, 0b110));
    (0..16).for_each(|tag| open(&mut both, &mut random, tag));
    let (mut pieces, mut again, mut ended) = (0, 0, 0);
    for event in 0..12_000 {
        let (tag, direction) = (random.up_to(15), random.up_to(1) as u32);
        let stepped = step(&mut both, tag, direction);
        pieces += stepped.answer[0];
        if stepped.answer[0] == 0 {
            let (offset, count) = (random.below(900) as u32, 1 + random.below(2000) as u32);
            again += u64::from(name(&mut both, tag, direction, offset, count) == 0);
        }
        if event % 60 == 59 {
            assert_eq!(both.call(&finish(tag)).returned, 0, "finished");
            open(&mut both, &mut random, tag);
            ended += 1;
        }
    }
    println!("full port: {pieces} pieces");
    assert!(pieces > 6_000 && again > 500 && ended == 200, "{pieces} pieces, {again} moves again, {ended} ended");
}

/// All 2^32 - 1 bytes of a buffer out, from the last one on, and all but one of another in.
#[test]
fn the_longest_buffers() {
    let (mut both, mut random) = (Both::new(32), Random::new(32));
    let m = 1_048_576;
    both.call(&login(&mut random, 1, m, 1364, 0b010));
    let data = [0, 1 << 63].map(|address| {
        let segment = MemoryDescriptor { address, handle: 7, length: u32::MAX };
        Data { descriptor: Descriptor::Direct(segment), table: Vec::new() }
    });
    let msg = command(&mut random, 1, 0, 0, &data);
    both.call(&take(&msg));
    both.call(&Call::Plan { tag: 1, r_out: u32::MAX, r_in: u32::MAX - 1 });
    // The move's end would be 2^33 - 3; behind its one byte only an empty one begins.
    assert_eq!(name(&mut both, 1, 0, u32::MAX - 1, u32::MAX), 0);
    assert_eq!(step(&mut both, 1, 0).answer[4..6], [1, u64::from(u32::MAX - 1)], "the last byte");
    assert_eq!(step(&mut both, 1, 0).answer, [0, 0, 0, 0, 0, 0, 1, 0], "done, after one operation");
    assert_eq!([u32::MAX, 0].map(|count| name(&mut both, 1, 0, u32::MAX, count)), [0, 0]);
    assert_eq!(name(&mut both, 1, 1, u32::MAX, 0), 31, "one above min(R, B)");
    for direction in [0, 1] {
        assert_eq!(name(&mut both, 1, direction, 0, u32::MAX), 0);
        let (mut moved, mut number) = (0, 0);
        while let [1, _, _, _, length, offset, counted, _] = step(&mut both, 1, direction).answer {
            number += 1;
            assert_eq!((offset, counted), (moved, number), "in order");
            moved += length;
        }
        assert_eq!((moved, number), (u64::from(u32::MAX - direction), 4096), "all of it");
        assert_eq!(step(&mut both, 1, direction).answer[6], 4096, "done again");
    }
    let response = both.call(&finish(1));
    assert_eq!(response.buf[18..28], [0b10_0000, 0, 0, 0, 0, 0, 0, 0, 0, 1], "DIUNDER by 1");
    println!("longest buffers: {} pieces", 2 * (1 << 32) / u64::from(m));
}
