//! Messages as lines for a terminal.

mod messages;

use messages::*;
use srp_target::{trace, Port, Refusal, Taken, Way, TRACE_BYTES};

/// A line, of which the end is spaces; it must be part of the lent buffer, whose other bytes stay.
fn assert_line(msg: &[u8], way: Way, start: &str) {
    let mut buf = [FILL; TRACE_BYTES + 19];
    let at = buf.as_ptr();
    let line = trace(msg, way, &mut buf).expect("the buffer is long enough");
    assert_eq!((line.as_ptr(), line.len()), (at, 81));
    assert_eq!(std::str::from_utf8(line), Ok(&*format!("{start:<80}\n")), "{msg:02x?}");
    assert!(is_untouched(&buf[81..]));
}

/// A message of a type and a length, with tag 2a0000000000002bh and a number in bytes 4-7.
fn of_type(kind: u8, length: usize, number: u32) -> Vec<u8> {
    let mut msg = vec![0; length];
    msg[0] = kind;
    msg[4..8].copy_from_slice(&number.to_be_bytes());
    msg[8..16].copy_from_slice(&0x2a00_0000_0000_002b_u64.to_be_bytes());
    msg
}

#[test]
fn each_type() {
    let (to, from) = (Way::ToPort, Way::FromPort);
    assert_line(&login_request(), to, "> LOGIN_REQ    0000000000000708");
    assert_line(&p1(9), to, "> CMD          0000000000000009 0102030405060708");
    assert_line(&task(0xabc, 5, 0x01, 9), to, "> TSK_MGMT     0000000000000abc 0000000000000005");
    assert_line(&of_16_bytes(0x03, 1), to, "> I_LOGOUT     0000000000000001");
    assert_line(&of_16_bytes(0x41, u64::MAX), to, "> CRED_RSP     ffffffffffffffff");
    let start = "< T_LOGOUT     0000000000000000                        00000006";
    assert_line(&target_logout(6), from, start);
    assert_line(&of_type(0x81, 16, 7), from, "< CRED_REQ     2a0000000000002b                      7");
    assert_line(&of_type(0xc0, 52, 16), from, "< LOGIN_RSP    2a0000000000002b                     16");
    assert_line(&of_type(0xc1, 36, 0), from, "< RSP          2a0000000000002b                      0");
    let start = "< RSP          0000000000000009                      1 0000000a";
    assert_line(&answer(0, 1, 9, 0x0a), from, start);
    let start = "< LOGIN_REJ    2a0000000000002b                        00010005";
    assert_line(&of_type(0xc2, 32, 0x0001_0005), from, start);
}

/// A type goes either way.
#[test]
fn each_way() {
    assert_line(&of_16_bytes(0x03, 1), Way::FromPort, "< I_LOGOUT     0000000000000001");
    assert_line(&of_type(0xc1, 36, 3), Way::ToPort, "> RSP          2a0000000000002b                      3");
}

#[test]
fn unknown() {
    assert_line(&[], Way::ToPort, "> UNKNOWN                                            0");
    assert_line(&[0x02; 300], Way::FromPort, "< UNKNOWN                                          300");
    assert_line(&of_16_bytes(0x42, 1), Way::ToPort, "> UNKNOWN                                           16");
    assert_line(&of_type(0x82, 52, 1), Way::FromPort, "< UNKNOWN                                           52");
    assert_line(&login_request()[..63], Way::ToPort, "> UNKNOWN                                           63");
    let mut msg = no_data(9);
    msg[5] = 0x03;
    assert_line(&msg, Way::ToPort, "> UNKNOWN                                           48");
    // Sense whose length would bring a sum of 32 bits back to 39: 36 + 4 + 2^32 - 1.
    let mut msg = answer(0, 1, 9, 0);
    (msg[18], msg[28], msg[29], msg[30], msg[31]) = (0b11, 0xff, 0xff, 0xff, 0xff);
    assert_line(&msg[..39], Way::FromPort, "< UNKNOWN                                           39");
}

#[test]
fn numbers_above_99_999() {
    let numbers = [(99_999, "99999"), (100_000, "*****"), (u32::MAX, "*****")];
    for (number, text) in numbers {
        let start = format!("< CRED_REQ     2a0000000000002b                  {text}");
        assert_line(&of_type(0x81, 16, number), Way::FromPort, &start);
    }
    assert_line(&vec![0xee; 99_999], Way::ToPort, "> UNKNOWN                                        99999");
    assert_line(&vec![0xee; 100_000], Way::ToPort, "> UNKNOWN                                        *****");
}

#[test]
fn short_buffers() {
    for length in 0..TRACE_BYTES {
        let mut buf = vec![FILL; length];
        assert_eq!(trace(&p1(9), Way::ToPort, &mut buf), Err(Refusal::ShortBuffer));
        assert!(is_untouched(&buf));
    }
    assert_eq!(trace(&p1(9), Way::ToPort, &mut [FILL; TRACE_BYTES]).map(<[u8]>::len), Ok(81));
}

/// What a port writes, from login to hang-up.
#[test]
fn messages_of_a_port() {
    let mut buf = lent();
    let (mut port, message) = Port::login(&SETTINGS, &OWN, &login_request(), &mut buf).unwrap();
    assert_line(&message, Way::FromPort, "< LOGIN_RSP    0000000000000708                      4");
    let request = task(9, LUN, 0x40, 0);
    let Ok(Taken::Task { message, .. }) = port.take(&request, &mut buf) else { panic!("refused") };
    assert_line(&message, Way::FromPort, "< RSP          0000000000000009                      1 00000004");
    let refused = port.take(&[0xee; 20], &mut buf).unwrap_err();
    let message = refused.message().expect("a hang-up has one");
    assert_line(&message, Way::FromPort, "< T_LOGOUT     0000000000000000                        00000000");
    assert_line(&[0xee; 20], Way::ToPort, "> UNKNOWN                                           20");
}
