//! Random arguments for the trace: messages of every type of document 01, of their length and of others, messages of
//! other types, and any bytes.

use crate::calls::Trace;
use crate::random::Random;

/// The types whose length is always the same.
pub const FIXED: [(u8, usize); 8] =
    [(0x00, 64), (0x01, 48), (0x03, 16), (0x41, 16), (0x80, 16), (0x81, 16), (0xc0, 52), (0xc2, 32)];

/// Deltas and N: one for each number of digits, those around 99,999, and any.
pub fn delta(random: &mut Random) -> u32 {
    match random.below(4) {
        0 => random.of(&[0, 1, 9, 10, 99, 100, 999, 1000, 9999, 10_000]),
        1 => random.of(&[99_998, 99_999, 100_000, 100_001, 1 << 16, 1 << 31, u32::MAX - 1, u32::MAX]),
        2 => random.below(100_000) as u32,
        _ => random.any_size(),
    }
}

/// A message of a type and of a length, with a delta where some types have one.
pub fn of_type(random: &mut Random, kind: u8, length: usize) -> Vec<u8> {
    let mut msg = random.bytes(length);
    let delta = delta(random).to_be_bytes();
    msg.iter_mut().skip(4).zip(delta).for_each(|(byte, digit)| *byte = digit);
    msg.iter_mut().take(1).for_each(|byte| *byte = kind);
    msg
}

/// Bytes of a descriptor; of a format above 2, which has none, as many as a reader might take for it.
pub fn descriptor_bytes(random: &mut Random, format: u8, count: u8) -> usize {
    let indirect = 20 + 16 * usize::from(count);
    match format {
        0 => 0,
        1 => 16,
        2 => indirect,
        _ => random.of(&[0, 16, 20, indirect]),
    }
}

/// An SRP_CMD of these formats and counts, out and in, with 4n more bytes of CDB.
pub fn command(random: &mut Random, formats: [u8; 2], counts: [u8; 2], n: u8) -> Vec<u8> {
    let data = descriptor_bytes(random, formats[0], counts[0]) + descriptor_bytes(random, formats[1], counts[1]);
    let mut msg = of_type(random, 0x02, 48 + 4 * usize::from(n) + data);
    msg[5] = formats[0] << 4 | formats[1];
    (msg[6], msg[7]) = (counts[0], counts[1]);
    msg[31] = n << 2 | msg[31] & 0b11;
    msg
}

fn any_command(random: &mut Random) -> Vec<u8> {
    let formats = [0, 1].map(|_| if random.one_in(10) { random.below(16) } else { random.below(3) } as u8);
    let counts = [0, 1].map(|_| match random.below(4) {
        0 => random.u8(),
        1 => random.of(&[31, 32, 33, 34, 254, 255]),
        _ => random.below(4) as u8,
    });
    let n = if random.one_in(2) { random.below(3) } else { random.below(64) } as u8;
    command(random, formats, counts, n)
}

/// An SRP_RSP of a length: its flags, its sense length, and its response length, which is unread.
pub fn response(random: &mut Random, flags: u8, sense: u32, field: u32, length: usize) -> Vec<u8> {
    let mut msg = of_type(random, 0xc1, length);
    let numbers = [sense.to_be_bytes(), field.to_be_bytes()].concat();
    msg.iter_mut().skip(18).take(1).for_each(|byte| *byte = flags);
    msg.iter_mut().skip(28).zip(numbers).for_each(|(byte, digit)| *byte = digit);
    msg
}

/// An SRP_RSP with any flags, of its length; or of the one that its response length would make.
fn any_response(random: &mut Random) -> Vec<u8> {
    let flags = random.u8();
    let most = random.of(&[0, 1, 20, 97, 300, 4000]);
    let (sense, field) = (random.below(most + 1), random.of(&[0, 0, 1, 4, 4, 8, 200, u32::MAX]));
    let present = if flags & 0b10 != 0 { sense } else { 0 };
    let code = if flags & 0b01 == 0 {
        0
    } else if random.one_in(8) {
        field.min(5000) as usize
    } else {
        4
    };
    response(random, flags, sense as u32, field, 36 + code + present)
}

/// An SRP_RSP whose sense length, near 2^32, brings a sum of 32 bits back to its length.
pub fn wrapped_response(random: &mut Random) -> Vec<u8> {
    let flags = random.u8() | 0b10;
    let whole = if flags & 0b01 != 0 { 40 } else { 36 };
    let missing = 1 + if random.one_in(2) { random.below(8) } else { random.below(whole) };
    response(random, flags, 0u32.wrapping_sub(missing as u32), 4, whole - missing)
}

/// A message of each type alike often, of its length.
pub fn known(random: &mut Random) -> Vec<u8> {
    match random.below(10) {
        0 => any_command(random),
        1 => any_response(random),
        _ => {
            let (kind, length) = random.of(&FIXED);
            of_type(random, kind, length)
        }
    }
}

/// Another length: a byte more or less, a part of it, that of another type, or any up to 5,000.
fn resize(random: &mut Random, msg: &mut Vec<u8>) {
    let length = match random.below(6) {
        0 => msg.len() + 1,
        1 => msg.len().saturating_sub(1),
        2 => random.of(&[0, 1, 4, 8, 15, 16, 17, 18, 19, 31, 32, 33, 35, 36, 39, 40, 47, 48, 49, 52, 63, 64]),
        3 => msg.len() + random.of(&[4, 16, 20, 32]),
        4 => random.below(msg.len() + 1),
        _ => random.below(5001),
    };
    msg.resize(length, random.u8());
}

/// A type that document 01 does not have, or another one that it has.
fn another_type(random: &mut Random, msg: &mut [u8]) {
    let any = random.u8();
    let kind = random.of(&[0x04, 0x05, 0x40, 0x42, 0x43, 0x82, 0x83, 0xc3, 0xc4, 0xff, any, any]);
    msg.iter_mut().take(1).for_each(|first| *first = kind);
}

fn any_bytes(random: &mut Random) -> Vec<u8> {
    let most = random.of(&[4, 48, 64, 1500, 5000]);
    let length = random.below(most + 1);
    random.bytes(length)
}

impl Trace {
    pub fn random(random: &mut Random) -> Self {
        let mut msg = match random.below(16) {
            0 => any_bytes(random),
            1 | 2 => wrapped_response(random),
            3 | 4 => any_command(random),
            5 | 6 => any_response(random),
            _ => known(random),
        };
        match random.below(8) {
            0 => another_type(random, &mut msg),
            1 | 2 => resize(random, &mut msg),
            _ => {}
        }
        let any = random.u32();
        let direction = random.of(&[0, 0, 0, 1, 1, 2, 256, 1 << 31, u32::MAX, any]);
        let short = random.one_in(16);
        let lent = random.of(if short { &[0, 1, 54, 79, 80] } else { &[81, 81, 81, 82, 100, 132] });
        Trace { msg, direction, lent }
    }
}
