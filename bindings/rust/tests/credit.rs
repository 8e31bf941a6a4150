//! Buffers added, withdrawn and granted; closing; counters; the listing.

mod messages;

use messages::*;
use srp_target::{Counters, Direction, Message, Port, Record, Refusal, Taken, MOST_BUFFERS};

fn counters(wanted: u32, announced: u32, held: u32, owed: i64) -> Result<Counters, Refusal> {
    Ok(Counters { wanted, announced, held, owed })
}

/// The delta of the response that finishes a command.
fn finish(port: &mut Port, tag: u64) -> u8 {
    let mut buf = lent();
    let message = port.finish(tag, 0, &[], &mut buf).expect("the command is open");
    assert_eq!(message[4..7], [0; 3]);
    message[7]
}

/// P8 to P10: D is negative after a withdrawal, and no delta is written until it is above 0.
#[test]
fn withdrawn_buffers() {
    let mut port = open_port();
    take_command(&mut port, &no_data(1));
    take_command(&mut port, &no_data(2));
    port.withdraw(3).unwrap();
    assert_eq!(port.counters(), counters(1, 2, 2, -3));
    assert_eq!((finish(&mut port, 1), finish(&mut port, 2)), (0, 0));
    assert_eq!(port.counters(), counters(1, 2, 0, -1));
    take_command(&mut port, &no_data(1));
    assert_eq!(finish(&mut port, 1), 0);
    take_command(&mut port, &no_data(1));
    assert_eq!(finish(&mut port, 1), 1);
    assert_eq!(port.counters(), counters(1, 1, 0, 0));
}

#[test]
fn add_and_withdraw_refused() {
    let mut port = open_port();
    assert_eq!((port.add(0), port.withdraw(0)), (Err(Refusal::Argument), Err(Refusal::Argument)));
    assert_eq!((port.add(13), port.withdraw(4)), (Err(Refusal::Wanted), Err(Refusal::Wanted)));
    assert_eq!((port.add(u32::MAX), port.withdraw(u32::MAX)), (Err(Refusal::Wanted), Err(Refusal::Wanted)));
    assert_eq!(port.counters(), counters(4, 4, 0, 0));
    assert_eq!((port.add(12), port.withdraw(15)), (Ok(()), Ok(())));
    assert_eq!(port.counters(), counters(1, 4, 0, -3));
}

#[test]
fn granted_buffers() {
    let mut port = open_port();
    let (mut small, mut buf) = (short(), lent());
    assert_eq!(port.grant(&mut small), Err(Refusal::ShortBuffer));
    assert_eq!(port.grant(&mut buf), Err(Refusal::NotOwed));
    assert!(is_untouched(&small) && is_untouched(&buf));
    port.add(2).unwrap();
    let request = [0x81, 1, 0, 0, 0, 0, 0, 2, 0, 0, 0, 0, 0, 0, 0, 1];
    assert_eq!(port.grant(&mut buf), Ok(Message(&request)));
    assert!(is_untouched(&buf[16..]));
    assert_eq!(port.counters(), counters(6, 6, 0, 0));
    assert_eq!(port.grant(&mut buf), Err(Refusal::Unanswered));
    assert_eq!(port.take(&of_16_bytes(0x41, 1), &mut buf), Ok(Taken::Credit));
    assert_eq!(port.grant(&mut buf), Err(Refusal::NotOwed));
}

#[test]
fn closing() {
    let mut port = open_port();
    take_command(&mut port, &p1(9));
    let (mut small, mut buf) = (short(), lent());
    assert_eq!(port.close(1, &mut small), Err(Refusal::ShortBuffer));
    assert!(is_untouched(&small));
    assert_eq!(port.close(0x0102_0304, &mut buf), Ok(Message(&target_logout(0x0102_0304))));
    assert!(is_untouched(&buf[16..]));
    assert_eq!(port.close(0, &mut buf), Err(Refusal::Closed));
}

#[test]
fn listing() {
    let mut port = open_port();
    let kept = Record { tag: u64::MAX, lun: 2, data_out: 3, data_in: 4 };
    let mut records = [kept; 18];
    assert_eq!(port.list(&mut records), Ok(&[][..]));
    let data = || Data::Direct(memory(0x1000, 7, 1300));
    take_command(&mut port, &command(9, 0, data(), data()));
    take_command(&mut port, &no_data(10));
    port.plan(9, 600, 1300).unwrap();
    assert_eq!(port.pieces(9, Direction::Out, 0, 600).map(|pieces| pieces.count()), Ok(2));
    assert!(port.pieces(9, Direction::In, 0, 1300).unwrap().next().is_some());
    let idle = Record { tag: 10, lun: LUN, data_out: 0, data_in: 0 };
    assert_eq!(port.list(&mut records), Ok(&[Record { tag: 9, lun: LUN, data_out: 600, data_in: 512 }, idle][..]));
    assert_eq!(records[2..], [kept; 16]);
    let mut records = [kept; MOST_BUFFERS];
    assert_eq!(port.list(&mut records[1..]), Err(Refusal::Argument));
    assert_eq!(records, [kept; MOST_BUFFERS]);
    assert_eq!(port.list(&mut records).map(|listed| listed.len()), Ok(2));
    abort(&mut port, 9);
    assert_eq!(port.list(&mut records), Ok(&[idle][..]));
}

fn tags(port: &Port) -> Vec<u64> {
    port.list(&mut [Record::default(); 16]).unwrap().iter().map(|record| record.tag).collect()
}

/// One in the middle ends, or is aborted, and the others keep their order; a tag used again counts as taken anew.
#[test]
fn oldest_first() {
    let mut port = open_port();
    [12, 9, 11, 10].map(|tag| take_command(&mut port, &p1(tag)));
    assert_eq!(tags(&port), [12, 9, 11, 10]);
    assert_eq!(finish(&mut port, 9), 1);
    assert_eq!(tags(&port), [12, 11, 10]);
    abort(&mut port, 11);
    assert_eq!(tags(&port), [12, 10]);
    [11, 9].map(|tag| take_command(&mut port, &p1(tag)));
    assert_eq!(tags(&port), [12, 10, 11, 9]);
}

/// As many commands as there are buffers.
#[test]
fn sixteen_listed() {
    let mut port = open_port();
    port.add(12).unwrap();
    assert_eq!(port.grant(&mut lent()).unwrap()[7], 12);
    (1..=16).rev().for_each(|tag| take_command(&mut port, &p1(tag)));
    assert!(tags(&port).into_iter().eq((1..=16).rev()));
    assert_eq!(format!("{port:?}"), "Port(Ok(Counters { wanted: 16, announced: 0, held: 16, owed: 0 }))");
}
