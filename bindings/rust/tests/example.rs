//! The example of the crate's documentation, P1 of document 01, with every byte of the messages.

mod messages;

use messages::*;
use srp_target::{Direction, Kind, Operation, Port, Taken};

/// SRP_LOGIN_RSP: N = 4, tag 0708h, length 1,364, 132, both formats, no SOLNTSUP.
#[rustfmt::skip]
const LOGIN_RESPONSE: [u8; 52] = [
    0xc0, 0, 0, 0, 0, 0, 0, 4,
    0, 0, 0, 0, 0, 0, 0x07, 0x08,
    0, 0, 0x05, 0x54, 0, 0, 0, 132,
    0, 0x06, 0, 0, 0, 0, 0, 0,
    0, 0, 0, 0, 0, 0, 0, 0,
    0, 0, 0, 0, 0, 0, 0, 0,
    0, 0, 0, 0,
];

/// SRP_RSP: SOLNT 0 (SCSOLNT), delta 1, tag 9, flags 0, status 0, no residuals.
#[rustfmt::skip]
const RESPONSE: [u8; 36] = [
    0xc1, 0, 0, 0, 0, 0, 0, 1,
    0, 0, 0, 0, 0, 0, 0, 9,
    0, 0, 0, 0, 0, 0, 0, 0,
    0, 0, 0, 0, 0, 0, 0, 0,
    0, 0, 0, 0,
];

fn write(address: u64, length: u32, offset: u32) -> Operation {
    Operation { kind: Kind::Write, handle: 7, address, length, offset }
}

#[test]
fn from_login_to_response() {
    let mut buf = lent();
    let (mut port, message) = Port::login(&SETTINGS, &OWN, &login_request(), &mut buf).unwrap();
    assert_eq!(message, LOGIN_RESPONSE);
    assert!(is_untouched(&buf[52..]));

    let mut buf = lent();
    let msg = p1(9);
    let taken = port.take(&msg, &mut buf).unwrap();
    assert_eq!(taken, Taken::Command { tag: 9, lun: LUN, cdb: &msg[32..48], waits: false });
    assert!(is_untouched(&buf));

    port.plan(9, 0, 1300).unwrap();
    let pieces: Vec<Operation> = port.pieces(9, Direction::In, 0, 1300).unwrap().collect();
    assert_eq!(pieces, [write(0x1000, 512, 0), write(0x1200, 512, 512), write(0x1400, 276, 1024)]);

    let message = port.finish(9, 0x00, &[], &mut buf).unwrap();
    assert_eq!(message, RESPONSE);
    assert!(is_untouched(&buf[36..]));
}

/// The CDB outlives the lent buffer's loan: the message alone is borrowed.
#[test]
fn the_cdb_is_part_of_the_message() {
    let mut port = open_port();
    let mut buf = lent();
    let msg = command(9, 63, Data::None, Data::None);
    let Ok(Taken::Command { tag, lun, cdb, .. }) = port.take(&msg, &mut buf) else { panic!("refused") };
    buf.fill(0);
    assert_eq!(port.finish(tag, 0x00, &[], &mut buf).unwrap()[0], 0xc1);
    assert_eq!((tag, lun, cdb), (9, LUN, &msg[32..300]));
    assert_eq!(cdb.as_ptr(), msg[32..].as_ptr());
}
