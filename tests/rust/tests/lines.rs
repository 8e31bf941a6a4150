//! Lines of srp_trace written out by hand, and the lengths of SRP_RSP.

use srp_tests::calls::{Call, Memory, Placement, Trace};
use srp_tests::generate::trace::response;
use srp_tests::line::Line;
use srp_tests::random::Random;
use srp_tests::rows::bytes;

const FILL: u8 = 0x5b;

/// The line of a message on a buffer of 90 bytes, without the spaces at its end; the 9 bytes behind it must stay.
fn line(msg: &[u8], direction: u32) -> String {
    let mut buf = [FILL; 90];
    assert_eq!(srp_tests::trace(msg, direction, &mut buf), 0);
    assert_eq!((buf[80], &buf[81..]), (b'\n', &[FILL; 9][..]));
    String::from_utf8(buf[..80].to_vec()).expect("ASCII").trim_end_matches(' ').into()
}

/// A message by its first digits; the rest are zeros.
fn message(digits: &str, length: usize) -> Vec<u8> {
    let mut msg = bytes(digits);
    msg.resize(length, 0);
    msg
}

/// An SRP_TSK_MGMT with a tag and a LUN.
const TASK: &str = "01000000000000000123456789abcdef00000000fedcba9876543210";

/// The first digits of a message of each type, its length, and its line.
const LINES: [(&str, usize, &str); 11] = [
    ("00000000000000070011223344556677", 64, "> LOGIN_REQ    0011223344556677"),
    (TASK, 48, "> TSK_MGMT     0123456789abcdef fedcba9876543210"),
    ("02000000000000000000000000000009", 48, "> CMD          0000000000000009 0000000000000000"),
    ("0306050403020100ffeeddccbbaa9988", 16, "> I_LOGOUT     ffeeddccbbaa9988"),
    ("41060504030201000000000000000001", 16, "> CRED_RSP     0000000000000001"),
    ("80010000deadbeef0000000000000000", 16, "< T_LOGOUT     0000000000000000                        deadbeef"),
    ("81010000000000100000000000000001", 16, "< CRED_REQ     0000000000000001                     16"),
    ("c00000000001869f8000000000000000", 52, "< LOGIN_RSP    8000000000000000                  99999"),
    ("c1000000000186a00000000000000a0b", 36, "< RSP          0000000000000a0b                  *****"),
    ("c1000000000000010000000000000a0b000001", 40, "< RSP          0000000000000a0b                      1 00000000"),
    ("c2000000000100031000000000000002", 32, "< LOGIN_REJ    1000000000000002                        00010003"),
];

#[test]
fn each_type() {
    for (digits, length, expected) in LINES {
        let msg = message(digits, length);
        assert_eq!(line(&msg, u32::from(expected.starts_with('<'))), expected);
    }
}

/// RSP_CODE is byte 39 alone, as 8 digits.
#[test]
fn rsp_code() {
    let mut msg = message("c100000000000002000000000000000c000001", 40);
    msg[36..40].copy_from_slice(&[0xaa, 0xbb, 0xcc, 0x05]);
    assert_eq!(line(&msg, 1), "< RSP          000000000000000c                      2 00000005");
    // Without RSPVALID byte 39 is sense.
    (msg[18], msg[31]) = (0b10, 4);
    assert_eq!(line(&msg, 1), "< RSP          000000000000000c                      2");
}

/// n = 1, out direct and in indirect with 2 copies: 48 + 4 + 16 + 52 bytes.
#[test]
fn commands() {
    let mut msg = message("020000000012070200000000000000ff00000000000000000000008000000007", 121);
    let known = "> CMD          00000000000000ff 0000000000000080";
    assert_eq!(line(&msg[..120], 0), known);
    assert_eq!(line(&msg[..119], 0), "> UNKNOWN                                          119");
    assert_eq!(line(&msg, 0), "> UNKNOWN                                          121");
    msg[5] = 0x13;
    assert_eq!(line(&msg[..120], 0), "> UNKNOWN                                          120");
    // 33 and 255 copies are known at their length: 48 + 4 + 16 + 20 + 16 * 33 bytes, and with 255.
    (msg[5], msg[7]) = (0x12, 33);
    msg.resize(616, 0);
    assert_eq!(line(&msg, 0), known);
    msg[7] = 255;
    msg.resize(4168, 0);
    assert_eq!(line(&msg, 0), known);
}

#[test]
fn unknown() {
    assert_eq!(line(&[], 0), "> UNKNOWN                                            0");
    assert_eq!(line(&[], 1), "< UNKNOWN                                            0");
    assert_eq!(line(&message("42000000", 16), 0), "> UNKNOWN                                           16");
    assert_eq!(line(&message("82000000", 52), 1), "< UNKNOWN                                           52");
    assert_eq!(line(&message("04000000", 48), 0), "> UNKNOWN                                           48");
    assert_eq!(line(&message("81000000", 17), 1), "< UNKNOWN                                           17");
    assert_eq!(line(&message("ff000000", 5000), 1), "< UNKNOWN                                         5000");
}

/// An SRP_RSP at its length and a byte beside: with any flags, sense and response length.
#[test]
fn length_of_a_response() {
    let (mut random, mut memory) = (Random::new(41), Memory::holding(200_000));
    for flags in 0..=255 {
        for sense in [0, 1, 4, 96, 252, 256, 4_000, 65_532, 65_536, 99_959, 99_960, 99_961, 131_072] {
            for field in [0, 4, 5, u32::MAX] {
                let code = 4 * usize::from(flags & 1);
                let length = 36 + code + if flags & 2 != 0 { sense } else { 0 };
                if length > 300 && flags > 3 {
                    continue;
                }
                let mut msg = response(&mut random, flags, sense as u32, field, length + 1);
                for (length, known) in [(length + 1, false), (length, true), (length - 1, false)] {
                    msg.truncate(length);
                    let call = Trace { msg: msg.clone(), direction: 1, lent: 81 };
                    let outcome = call.compared(&mut memory, Placement::AT_END);
                    let name = if known { "RSP" } else { "UNKNOWN" };
                    assert_eq!(Line::of(&outcome).name(), name, "flags {flags:02x}, sense {sense}, {length} bytes");
                }
            }
        }
    }
}

/// A sense length near 2^32, with which a sum of 32 bits comes to each length from 0 to 39.
#[test]
fn sense_near_2_32() {
    let (mut random, mut memory) = (Random::new(42), Memory::default());
    for flags in 0..=255 {
        let whole = if flags & 1 != 0 { 40 } else { 36 };
        for length in 0..whole {
            let sense = (length as u32).wrapping_sub(whole as u32);
            let msg = response(&mut random, flags | 2, sense, 4, length);
            let call = Trace { msg, direction: 1, lent: 81 };
            let outcome = call.compared(&mut memory, Placement::AT_END);
            let line = Line::of(&outcome);
            assert_eq!(line.columns(3..=54), format!("UNKNOWN{length:>45}"), "sense length {sense}");
        }
    }
}
