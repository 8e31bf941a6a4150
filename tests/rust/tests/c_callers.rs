//! What a caller in C may hand over and one in Rust does not: lengths above 2^32, registers whose upper half holds
//! something else than zeros, and of a message to be traced no more than the 40 bytes that are read.

use srp_target_sys::srp_trace;
use srp_tests::guarded::{reserved, GuardedMemory, Side};
use srp_tests::interface;
use srp_tests::port::plain::{self, Plain, OWN};
use srp_tests::port::Call;
use srp_tests::random::Random;

/// A length whose lower 32 bits are 0.
const LONG: usize = 1 << 32;

/// A port after a login.
fn open() -> Plain {
    Plain::after_login(4, 512)
}

fn login(plain: &mut Plain, msg: &[u8], buf: &mut [u8]) -> u32 {
    plain.port().login(&[4, 512, 1364, 1, 1], 0, &OWN, msg, buf)
}

fn login_request() -> Vec<u8> {
    let Call::Login { msg, .. } = plain::login(&mut Random::new(1), 4, 512, 1364, 0b110) else { unreachable!() };
    msg
}

/// An SRP_CMD without data, tag 9.
fn command() -> Vec<u8> {
    let mut msg = vec![0; 48];
    (msg[0], msg[15]) = (0x02, 9);
    msg
}

/// The segment of an SRP_CMD with tag 9 that waits for it, as a table of data-out: 1000h, handle 7, 9 bytes.
const SEGMENT: [u8; 16] = [0, 0, 0, 0, 0, 0, 0x10, 0, 0, 0, 0, 7, 0, 0, 0, 9];

fn waiting_command() -> Vec<u8> {
    let (mut msg, table) = (command(), [0, 0, 0, 0, 0, 0, 0x90, 0, 0, 0, 0, 3, 0, 0, 0, 16]);
    msg[5] = 0x20;
    [&msg[..], &table, &[0, 0, 0, 9]].concat()
}

/// An SRP_RSP with tag 9, RSP_CODE 2 and 2^32 - 1 bytes of sense: the first 40 bytes.
fn response() -> Vec<u8> {
    let mut msg = vec![0; 40];
    (msg[0], msg[15], msg[18], msg[39]) = (0xc1, 9, 0b11, 2);
    msg[28..32].fill(0xff);
    msg
}

/// A line without its line feed and the spaces before it.
fn text(line: &[u8]) -> &str {
    std::str::from_utf8(&line[..81]).expect("ASCII").trim_end()
}

const RESPONSE: &str = "< RSP          0000000000000009                      0 00000002";
const LONG_UNKNOWN: &str = "< UNKNOWN                                        *****";

#[test]
fn messages_and_tables_above_2_32() {
    let (mut plain, mut buf) = (open(), [0; 132]);
    assert_eq!(login(&mut open(), reserved(LONG + 64, &login_request()), &mut buf), 3);
    assert_eq!(open().port().take(reserved(LONG + 48, &command()), &mut buf), 3);
    assert_eq!((plain.port().take(&waiting_command(), &mut buf), plain.answer[6]), (0, 1));
    assert_eq!(plain.port().tables(9, [reserved(LONG + 16, &SEGMENT), &[]], &mut buf), 9);
    assert_eq!(plain.port().tables(9, [&SEGMENT, reserved(LONG, &[])], &mut buf), 9);
    assert_eq!(plain.port().tables(9, [&SEGMENT, &[]], &mut buf), 0);
    assert_eq!(interface::look(reserved(LONG + 48, &command()), 1364, 6, &mut buf), 3);
    assert_eq!(interface::cut(reserved(LONG + 16, &[]), 512.into(), 0, 0, &mut buf), 11);

    assert_eq!(plain.port().finish(9, 2, reserved(LONG + 18, &[]), &mut buf), 11);
    assert_eq!(plain.port().finish(9, 0, reserved(LONG, &[]), &mut buf), 11);
    assert_eq!(plain.port().finish(9, 0, &[], &mut buf), 0);
}

#[test]
fn buffers_and_lists_above_2_32() {
    let (mut plain, buf) = (open(), reserved(LONG, &[]));
    assert_eq!(login(&mut plain, &login_request(), buf), 0);
    assert_eq!(plain.port().take(&waiting_command(), buf), 0);
    assert_eq!(plain.port().tables(9, [&SEGMENT, &[]], buf), 0);
    assert_eq!(plain.port().list(reserved(LONG, &[])), 0);
    assert_eq!(plain.answer, [1, 0, 0, 0, 0, 0, 0, 0]);
    assert_eq!(plain.port().finish(9, 0, &[], buf), 0);
    assert_eq!(plain.port().add(1), 0);
    assert_eq!(plain.port().grant(buf), 0);
    assert_eq!(plain.port().close(0, buf), 0);
    assert_eq!(interface::look(&command(), 1364, 6, buf), 0);
    assert_eq!(interface::cut(&[], 512.into(), 0, 0, buf), 0);
    assert_eq!((interface::trace(&[], 0, buf), buf[0]), (0, b'>'));
    assert_eq!(buf[132..4096], [0; 4096 - 132]);
}

/// The lower 32 bits of a message's length say nothing of its type's.
#[test]
fn traces_above_2_32() {
    let mut buf = [0; 81];
    for (length, msg, expected) in [
        (LONG + 39, response(), RESPONSE),
        (LONG + 38, response(), LONG_UNKNOWN),
        (LONG + 48, command(), LONG_UNKNOWN),
        (LONG + 64, login_request(), LONG_UNKNOWN),
        (LONG, vec![], LONG_UNKNOWN),
    ] {
        assert_eq!(interface::trace(reserved(length, &msg), 1, &mut buf), 0);
        assert_eq!(text(&buf), expected, "{length} bytes");
    }
}

/// Behind the first 40 bytes lies memory that cannot be read.
#[test]
fn forty_bytes_are_read() {
    let (mut memory, mut buf, mut longest) = (GuardedMemory::holding(40), [0; 81], command());
    (longest[5], longest[6], longest[7], longest[31]) = (0x22, 255, 255, 63 << 2);
    for (length, msg, expected) in [
        (48 + 252 + 2 * (20 + 16 * 255), longest, "< CMD          0000000000000009 0000000000000000"),
        (LONG + 39, response(), RESPONSE),
        (1 << 40, response(), LONG_UNKNOWN),
        (1 << 40, login_request(), LONG_UNKNOWN),
        (1 << 40, vec![0xee; 40], LONG_UNKNOWN),
    ] {
        let placed = memory.place(&msg[..40], Side::End);
        // SAFETY: of the message these bytes are read alone, whatever its length; else the test ends in a fault.
        let returned = unsafe { srp_trace(placed.values().as_ptr(), length, 1, buf.as_mut_ptr(), buf.len()) };
        assert_eq!((returned, text(&buf)), (0, expected), "{length} bytes");
    }
}

/// The functions with 64-bit arguments in place of 32-bit ones: the caller decides what the upper half holds.
mod wide {
    #[allow(clashing_extern_declarations)]
    extern "C" {
        pub fn srp_target_plan(port: *mut u64, tag: u64, r_out: u64, r_in: u64) -> u32;
        pub fn srp_target_move(port: *mut u64, tag: u64, direction: u64, offset: u64, count: u64) -> u32;
        pub fn srp_target_step(port: *mut u64, store: *const u8, tag: u64, direction: u64, answer: *mut u64) -> u32;
        pub fn srp_target_add(port: *mut u64, k: u64) -> u32;
        pub fn srp_target_withdraw(port: *mut u64, k: u64) -> u32;
        pub fn srp_target_close(port: *mut u64, reason: u64, buf: *mut u8, buf_len: usize, answer: *mut u64) -> u32;
        pub fn srp_cut(
            list: *const u8,
            length: usize,
            m: u64,
            q: u64,
            r: u64,
            handed: u64,
            buf: *mut u8,
            lent: usize,
        ) -> u32;
        pub fn srp_trace(msg: *const u8, length: usize, direction: u64, buf: *mut u8, lent: usize) -> u32;
        pub fn srp_format_counts(formats: u64, answer: *mut u64) -> u32;
    }
}

/// What stands above an argument of 32 bits.
const ABOVE: u64 = 0xdead_beef << 32;

#[test]
fn arguments_below_other_bits() {
    let (mut plain, mut buf) = (open(), [0; 132]);
    assert_eq!(plain.port().take(&command(), &mut buf), 0);
    let Plain { memory, answer } = &mut plain;
    let (port, store, answered) = (memory.words.as_mut_ptr(), memory.store.as_ptr(), answer.as_mut_ptr());
    // SAFETY: as in `interface`; registers are as wide as 64-bit arguments.
    unsafe {
        assert_eq!(wide::srp_target_add(port, ABOVE), 11);
        assert_eq!(wide::srp_target_add(port, ABOVE | 2), 0);
        assert_eq!(wide::srp_target_withdraw(port, ABOVE | 3), 0);
        assert_eq!(wide::srp_target_plan(port, 9, ABOVE | 5, ABOVE), 0);
        // Of a command without data min(R, B) is 0.
        assert_eq!(wide::srp_target_move(port, 9, ABOVE, ABOVE, ABOVE | 4), 0);
        assert_eq!(wide::srp_target_move(port, 9, ABOVE, ABOVE | 1, ABOVE), 31);
        assert_eq!(wide::srp_target_step(port, store, 9, ABOVE, answered), 0);
    }
    assert_eq!(plain.port().finish(9, 0, &[], &mut buf), 0);
    assert_eq!(buf[18..28], [0b100, 0, 0, 0, 0, 5, 0, 0, 0, 0], "DOOVER by 5");
    let (port, answered) = (plain.memory.words.as_mut_ptr(), plain.answer.as_mut_ptr());
    // SAFETY: as above.
    unsafe {
        assert_eq!(wide::srp_target_close(port, ABOVE | 7, buf.as_mut_ptr(), buf.len(), answered), 0);
        assert_eq!(buf[..16], [0x80, buf[1], 0, 0, 0, 0, 0, 7, 0, 0, 0, 0, 0, 0, 0, 0]);
        let list = [0, 0, 0, 0, 0, 0, 0x10, 0, 0, 0, 0, 7, 0, 0, 0, 9];
        let cut = |q, buf: &mut [u8]| {
            wide::srp_cut(list.as_ptr(), 16, ABOVE | 4, q, ABOVE | 6, ABOVE | 4, buf.as_mut_ptr(), buf.len())
        };
        assert_eq!([0, 1 << 32].map(|q| cut(q, &mut buf)), [0, 0]);
        assert_eq!(buf[..20], [0, 0, 0, 0, 0, 0, 0x10, 4, 0, 0, 0, 7, 0, 0, 0, 2, 0, 0, 0, 4]);
        assert_eq!([ABOVE, ABOVE | 512].map(|q| cut(q, &mut buf)), [2, 2], "Q has 64 bits");
        for (direction, sign) in [(ABOVE, b'>'), (ABOVE | 1, b'<')] {
            let traced = wide::srp_trace(list.as_ptr(), 16, direction, buf.as_mut_ptr(), buf.len());
            assert_eq!((traced, buf[0]), (0, sign));
        }
    }
}

#[test]
fn formats_below_other_bits() {
    for (formats, number, counts) in [(0b110, 0, [9, 208, 39]), (0b000, 0, [1, 240, 15]), (0b001, 2, [0; 3])] {
        let mut answer = [0x5b; 8];
        // SAFETY: as above.
        assert_eq!(unsafe { wide::srp_format_counts(ABOVE | formats, answer.as_mut_ptr()) }, number);
        assert_eq!(answer[..3], counts, "formats {formats:03b}");
    }
}
