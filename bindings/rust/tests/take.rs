//! What take takes; its refusals with a message and without.

mod messages;

use messages::*;
use srp_target::{Counters, Message, Port, Refusal, Settings, TakeRefusal, Taken};

const TABLE: u64 = 0x9000;

/// Data-in by a table at 9000h of some length, which the message has copies of.
fn by_table(length: u32, total: u32, copies: Vec<[u8; 16]>) -> Data {
    Data::Indirect { table: memory(TABLE, 3, length), total, copies }
}

/// A port whose login asked for no format.
fn port_without_formats() -> Port {
    let mut login = login_request();
    login[25] = 0;
    Port::login(&SETTINGS, &OWN, &login, &mut lent()).unwrap().0
}

#[test]
fn a_task_request_is_answered() {
    let mut port = open_port();
    take_command(&mut port, &p1(9));
    take_command(&mut port, &p1(10));
    let (msg, mut buf) = (task(77, LUN, 0x01, 9), lent());
    let taken = port.take(&msg, &mut buf);
    assert_eq!(taken, Ok(Taken::Task { tag: 77, lun: LUN, message: Message(&answer(0, 2, 77, 0x00)) }));
    assert!(is_untouched(&buf[40..]));
    assert_eq!(port.counters(), Ok(Counters { wanted: 4, announced: 3, held: 1, owed: 0 }));
    let msg = task(78, 5, 0x40, 0);
    let taken = port.take(&msg, &mut buf);
    assert_eq!(taken, Ok(Taken::Task { tag: 78, lun: 5, message: Message(&answer(1, 1, 78, 0x04)) }));
}

#[test]
fn a_credit_response_and_a_logout_write_nothing() {
    let mut port = open_port();
    port.add(2).unwrap();
    assert_eq!(port.grant(&mut lent()).unwrap()[7], 2);
    let mut buf = lent();
    assert_eq!(port.take(&of_16_bytes(0x41, 1), &mut buf), Ok(Taken::Credit));
    assert_eq!(port.take(&of_16_bytes(0x03, 5), &mut buf), Ok(Taken::Logout));
    assert!(is_untouched(&buf));
    assert_eq!(port.counters(), Err(Refusal::Closed));
}

#[test]
fn hang_ups_from_the_message_carry_theirs() {
    let table = || by_table(16, 1300, vec![memory(0x1000, 7, 1300); 2]);
    hangs_up(&mut open_port(), &[], Refusal::Length, 0);
    hangs_up(&mut open_port(), &[0x02; 1365], Refusal::Length, 0);
    hangs_up(&mut open_port(), &p1(9)[..63], Refusal::Length, 0);
    hangs_up(&mut open_port(), &login_request(), Refusal::OtherType, 0);
    let out = command(9, 0, Data::Direct(memory(0, 7, 1)), Data::None);
    hangs_up(&mut port_without_formats(), &out, Refusal::OutFormat, 6);
    hangs_up(&mut port_without_formats(), &p1(9), Refusal::InFormat, 7);
    hangs_up(&mut open_port(), &command(9, 0, table(), table()), Refusal::OutCount, 8);
    hangs_up(&mut open_port(), &command(9, 0, Data::None, table()), Refusal::InCount, 9);
}

#[test]
fn hang_ups_from_what_went_before_carry_theirs() {
    let settings = Settings { buffers: 1, ..SETTINGS };
    let (mut port, _) = Port::login(&settings, &OWN, &login_request(), &mut lent()).unwrap();
    take_command(&mut port, &p1(9));
    hangs_up(&mut port, &p1(9), Refusal::NoCredit, 0);
    let mut port = open_port();
    take_command(&mut port, &p1(9));
    hangs_up(&mut port, &task(9, LUN, 0x01, 9), Refusal::TagOpen, 0);
    hangs_up(&mut open_port(), &of_16_bytes(0x41, 1), Refusal::CreditResponse, 0);
    let mut port = open_port();
    port.add(1).unwrap();
    assert_eq!(port.grant(&mut lent()).unwrap()[7], 1);
    hangs_up(&mut port, &of_16_bytes(0x41, 2), Refusal::CreditResponse, 0);
}

/// 10: the command is answered with RSP_CODE 02h, and the channel stays open.
#[test]
fn bad_fields_are_answered() {
    let mut port = open_port();
    let mut buf = lent();
    let msg = command(9, 0, Data::Direct(memory(u64::MAX, 7, 2)), Data::None);
    let refused = port.take(&msg, &mut buf).unwrap_err();
    let message = answer(1, 1, 9, 0x02);
    assert_eq!(refused, TakeRefusal::Answered { refusal: Refusal::Fields, message: Message(&message) });
    assert_eq!((refused.refusal(), refused.message()), (Refusal::Fields, Some(Message(&message))));
    assert!(is_untouched(&buf[40..]));
    assert_eq!(port.counters(), Ok(Counters { wanted: 4, announced: 4, held: 0, owed: 0 }));
    take_command(&mut port, &p1(9));
}

/// 1 leaves the message to be taken again.
#[test]
fn without_a_message_nothing_is_altered() {
    let mut port = open_port();
    let mut buf = short();
    let refused = port.take(&p1(9), &mut buf).unwrap_err();
    assert_eq!(refused, TakeRefusal::Unaltered(Refusal::ShortBuffer));
    assert_eq!((refused.refusal(), refused.message()), (Refusal::ShortBuffer, None));
    assert!(is_untouched(&buf));
    assert_eq!(port.counters().unwrap().announced, 4);
    take_command(&mut port, &p1(9));
}

/// A command waits where a table is to be fetched in either direction; else it does not.
#[test]
fn whether_a_command_waits() {
    let (fetched, copied) = (|| by_table(32, 1300, vec![]), || by_table(16, 1300, vec![memory(0x1000, 7, 1300)]));
    let direct = || Data::Direct(memory(0x1000, 7, 1300));
    let mut port = port_with(&Settings { buffers: 16, ..SETTINGS });
    for (tag, (data_out, data_in, waits)) in [
        (Data::None, Data::None, false),
        (direct(), copied(), false),
        (copied(), direct(), false),
        (fetched(), Data::None, true),
        (Data::None, fetched(), true),
        (fetched(), fetched(), true),
        (fetched(), copied(), true),
        (direct(), fetched(), true),
    ]
    .into_iter()
    .enumerate()
    {
        let msg = command(tag as u64, 1, data_out, data_in);
        let expected = Taken::Command { tag: tag as u64, lun: LUN, cdb: &msg[32..52], waits };
        assert_eq!(port.take(&msg, &mut lent()), Ok(expected));
    }
    assert_eq!(port.counters(), Ok(Counters { wanted: 16, announced: 8, held: 8, owed: 0 }));
}
