//! Logins accepted, refused and rejected; a port in place; the closed port.

mod messages;

use messages::*;
use srp_target::{
    Counters, Direction, LoginRefusal, Message, Port, Record, Refusal, Settings, Tables, TablesRefusal, TakeRefusal,
};

/// What a login that was not accepted came to.
fn refused<'b>(settings: &Settings, msg: &[u8], buf: &'b mut [u8]) -> LoginRefusal<'b> {
    Port::login(settings, &OWN, msg, buf).expect_err("the login is accepted")
}

/// A login with some bytes other than those of `login_request`.
fn login_with(place: usize, bytes: &[u8]) -> [u8; 64] {
    let mut msg = login_request();
    msg[place..][..bytes.len()].copy_from_slice(bytes);
    msg
}

#[test]
fn accepted() {
    let settings = Settings { buffers: 16, indirect: false, solicited: true, ..SETTINGS };
    let mut buf = lent();
    let msg = login_with(24, &[0x00, 0x02]);
    let (port, message) = Port::login(&settings, &OWN, &msg, &mut buf).unwrap();
    assert_eq!((message.len(), message[7]), (52, 16));
    assert_eq!(message[24..28], [0x00, 0x02, 0x10, 0x00]);
    assert_eq!(port.counters(), Ok(Counters { wanted: 16, announced: 16, held: 0, owed: 0 }));
}

#[test]
fn settings_arrive_each_in_its_place() {
    let bad = [
        Settings { buffers: 0, ..SETTINGS },
        Settings { buffers: 17, ..SETTINGS },
        Settings { maximum: 0, ..SETTINGS },
        Settings { maximum: 1_048_577, ..SETTINGS },
        Settings { longest: 63, ..SETTINGS },
        Settings { longest: 1365, ..SETTINGS },
        Settings { boundary: 1, ..SETTINGS },
        Settings { boundary: 511, ..SETTINGS },
        Settings { boundary: 256, ..SETTINGS },
        Settings { boundary: 768, ..SETTINGS },
        Settings { boundary: (1 << 31) + 1, ..SETTINGS },
        Settings { boundary: 1 << 33, ..SETTINGS },
        Settings { boundary: u64::MAX, ..SETTINGS },
    ];
    for settings in bad {
        let mut buf = lent();
        assert_eq!(refused(&settings, &login_request(), &mut buf), LoginRefusal::Refused(Refusal::Setting));
        assert!(is_untouched(&buf), "{settings:?}");
    }
    let bounds = [
        Settings { buffers: 1, maximum: 1, boundary: 512, ..SETTINGS },
        Settings { buffers: 16, maximum: 1_048_576, boundary: 1 << 32, ..SETTINGS },
    ];
    for settings in bounds {
        assert!(Port::login(&settings, &OWN, &login_request(), &mut lent()).is_ok(), "{settings:?}");
    }
}

/// 1, 2, 3, 4 in that order: each call has all the later faults too.
#[test]
fn refused_in_order_without_a_message() {
    let bad = Settings { buffers: 0, ..SETTINGS };
    let (short_login, other_type) = ([0xff; 63], [0xff; 64]);
    let mut buf = short();
    assert_eq!(refused(&bad, &short_login, &mut buf), LoginRefusal::Refused(Refusal::ShortBuffer));
    assert!(is_untouched(&buf));
    let mut buf = lent();
    for settings in [bad, Settings { boundary: 513, ..SETTINGS }] {
        assert_eq!(refused(&settings, &short_login, &mut buf), LoginRefusal::Refused(Refusal::Setting));
    }
    assert_eq!(refused(&SETTINGS, &short_login, &mut buf), LoginRefusal::Refused(Refusal::Length));
    assert_eq!(refused(&SETTINGS, &[], &mut buf), LoginRefusal::Refused(Refusal::Length));
    assert_eq!(refused(&SETTINGS, &other_type, &mut buf), LoginRefusal::Refused(Refusal::OtherType));
    assert!(is_untouched(&buf));
}

#[test]
fn rejected_with_its_message() {
    let rejections = [
        (login_with(16, &[0, 0, 0, 63]), 0x0001_0000),
        (login_with(16, &[0, 0, 0x05, 0x55]), 0x0001_0002),
        (login_with(24, &[0x00, 0x08]), 0x0001_0004),
        (login_with(26, &[0x01]), 0x0001_0005),
        (login_with(26, &[0x02]), 0x0001_0000),
        (login_with(63, &[0xff]), 0x0001_0003),
    ];
    for (msg, reason) in rejections {
        let mut message = [0; 32];
        message[0] = 0xc2;
        message[4..8].copy_from_slice(&u32::to_be_bytes(reason));
        message[14..16].copy_from_slice(&[0x07, 0x08]);
        message[25] = 0x06;
        let mut buf = lent();
        assert_eq!(refused(&SETTINGS, &msg, &mut buf), LoginRefusal::Rejected { reason, message: Message(&message) });
        assert!(is_untouched(&buf[32..]));
    }
}

/// Every call draws 21; those that write check the lent buffer first.
fn is_closed(port: &mut Port) {
    let (mut buf, mut records) = (lent(), [Record::default(); 16]);
    let closed = Refusal::Closed;
    assert_eq!(port.take(&no_data(1), &mut buf), Err(TakeRefusal::Unaltered(closed)));
    assert_eq!(port.tables(1, Tables::NONE, &mut buf), Err(TablesRefusal::Unaltered(closed)));
    assert_eq!(port.plan(1, 0, 0), Err(closed));
    assert_eq!(port.step(1, Direction::Out), Err(closed));
    assert_eq!(port.name_move(1, Direction::In, 0, 0), Err(closed));
    assert_eq!(port.pieces(1, Direction::In, 0, 0).err(), Some(closed));
    assert_eq!(port.finish(1, 0, &[0; 97], &mut buf), Err(closed));
    assert_eq!(port.add(0), Err(closed));
    assert_eq!(port.withdraw(0), Err(closed));
    assert_eq!(port.grant(&mut buf), Err(closed));
    assert_eq!(port.close(0, &mut buf), Err(closed));
    assert_eq!(port.counters(), Err(closed));
    assert_eq!(port.list(&mut records[..1]), Err(closed));
    assert!(is_untouched(&buf));
    assert_eq!(port.close(0, &mut short()), Err(Refusal::ShortBuffer));
    assert_eq!(format!("{port:?}"), "Port(Err(Closed))");
}

/// A port may stand in a static, as in firmware.
#[test]
fn in_place() {
    static PORT: std::sync::Mutex<Port> = std::sync::Mutex::new(Port::closed());
    let mut port = PORT.lock().unwrap();
    is_closed(&mut port);
    let mut buf = lent();
    assert_eq!(port.renew(&SETTINGS, &OWN, &login_request(), &mut buf).unwrap().len(), 52);
    take_command(&mut port, &p1(9));
    assert_eq!(port.counters().unwrap().held, 1);
    assert_eq!(port.renew(&SETTINGS, &OWN, &login_request(), &mut buf).unwrap()[0], 0xc0);
    assert_eq!(port.counters(), Ok(Counters { wanted: 4, announced: 4, held: 0, owed: 0 }));
}

#[test]
fn not_accepted_leaves_a_closed_port() {
    let mut port = open_port();
    let mut buf = lent();
    let rejected = port.renew(&SETTINGS, &OWN, &login_with(26, &[0x01]), &mut buf);
    assert!(matches!(rejected, Err(LoginRefusal::Rejected { reason: 0x0001_0005, .. })), "{rejected:?}");
    is_closed(&mut port);
    let mut port = open_port();
    let refused = port.renew(&SETTINGS, &OWN, &[], &mut buf);
    assert_eq!(refused, Err(LoginRefusal::Refused(Refusal::Length)));
    is_closed(&mut port);
}
