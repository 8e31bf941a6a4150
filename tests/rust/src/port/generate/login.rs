//! Logins: accepted ones, each setting and each field at its bounds, and several faults at once.

use super::super::call::Call;
use super::super::plain::OWN;
use super::buffer;
use crate::generate::boundary;
use crate::random::Random;

fn settings(random: &mut Random) -> [u32; 5] {
    let n = if random.one_in(3) { 16 } else { 1 + random.below(16) as u32 };
    let m = match random.below(4) {
        0 => random.of(&[1, 2, 3, 16, 1_048_575, 1_048_576]),
        1 => 1 + random.below(1_048_576) as u32,
        _ => random.of(&[64, 512, 4096]),
    };
    let x = match random.below(4) {
        0 => 64 + random.below(1301) as u32,
        1 => random.of(&[64, 100, 200, 1363]),
        _ => 1364,
    };
    let indirect = random.of(&[0, 1, 1, 1, 2, 0x100, 0x8000_0000]);
    let solicited = random.of(&[0, 0, 1, 1, 2, 0x100, 0x8000_0000]);
    let mut settings = [n, m, x, indirect, solicited];
    if random.one_in(16) {
        let bad = [
            (0, random.of(&[0, 17, 18, 0x101, 0x1_0001, u32::MAX])),
            (1, random.of(&[0, 1_048_577, 0x8000_0001, u32::MAX])),
            (2, random.of(&[0, 63, 1365, 0x1_0040, u32::MAX])),
        ];
        let (at, value) = random.of(&bad);
        settings[at] = value;
    }
    settings
}

/// An SRP_LOGIN_REQ that these settings accept. Whatever is not read is random.
fn request(random: &mut Random, settings: [u32; 5]) -> Vec<u8> {
    let [_, _, x, indirect, _] = settings;
    let mut msg = random.bytes(64);
    msg[0] = 0x00;
    let length = match random.below(8) {
        0 | 1 => 64 + random.up_to(u64::from(x.clamp(64, 1364)) - 64) as u32,
        2 => 64,
        _ => x,
    };
    msg[16..20].copy_from_slice(&length.to_be_bytes());
    let formats: u16 = if indirect != 0 { random.of(&[6, 6, 6, 6, 4, 2, 0]) } else { random.of(&[2, 2, 2, 0]) };
    msg[24..26].copy_from_slice(&formats.to_be_bytes());
    msg[26] &= !0b11;
    msg[48..64].copy_from_slice(&OWN);
    msg
}

/// Changes one field of a request so that the login is rejected, or refused.
fn damage(random: &mut Random, msg: &mut Vec<u8>, x: u32) {
    match random.below(8) {
        0 => msg[16..20].copy_from_slice(&random.of(&[0u32, 16, 63]).to_be_bytes()),
        1 => {
            let long = random.of(&[x.saturating_add(1), 1365, 0x1_0040, 0x8000_0040, u32::MAX]);
            msg[16..20].copy_from_slice(&long.to_be_bytes());
        }
        2 => {
            let bit = random.of(&[0u32, 2, 3, 4, 7, 8, 9, 10, 15]);
            msg[25 - (bit / 8) as usize] |= 1 << (bit % 8);
        }
        3 => msg[26] |= random.of(&[1, 2, 3]),
        4 => msg[48 + random.below(16)] ^= 1 << random.below(8),
        5 => msg[0] = random.of(&[0x01, 0x02, 0x03, 0x41, 0x80, 0xc0, 0xff]),
        6 => msg.truncate(random.of(&[0, 1, 16, 48, 63])),
        _ => {
            let more = random.of(&[1, 16, 64]);
            msg.extend(random.bytes(more));
        }
    }
}

pub fn login(random: &mut Random) -> Call {
    let settings = settings(random);
    let mut msg = request(random, settings);
    if random.one_in(3) {
        for _ in 0..random.of(&[1, 1, 1, 2, 3]) {
            if msg.len() >= 64 {
                damage(random, &mut msg, settings[2]);
            }
        }
    }
    Call::Login { settings, boundary: boundary(random), own: OWN, msg, buf: buffer(random) }
}
