//! Commands that wait for their tables: brought in any order, refused with a message and without, aborted.

mod messages;

use messages::*;
use srp_target::{Counters, Direction, Message, Port, Record, Refusal, Tables, TablesRefusal};

/// A direction by a table of one entry at 9000h, none of it in the message.
fn by_table(total: u32) -> Data {
    Data::Indirect { table: memory(0x9000, 3, 16), total, copies: vec![] }
}

/// A command with a table each way, of 10 and 20 bytes, which its tag tells apart from others; and its tables.
fn both_ways(tag: u64) -> (Vec<u8>, [[u8; 16]; 2]) {
    let tables = [memory(0x100 * tag, 1, 10), memory(0x200 * tag, 2, 20)];
    (command(tag, 0, by_table(10), by_table(20)), tables)
}

/// A port on which these commands wait.
fn waiting(tags: &[u64]) -> Port {
    let mut port = open_port();
    tags.iter().for_each(|&tag| assert!(take_and_wait(&mut port, &both_ways(tag).0), "{tag} waits"));
    port
}

/// Brings a command its tables; the lent buffer is as it was.
fn bring(port: &mut Port, tag: u64) -> Result<(), Refusal> {
    let ([data_out, data_in], mut buf) = (both_ways(tag).1, lent());
    let brought = port.tables(tag, Tables { data_out: &data_out, data_in: &data_in }, &mut buf);
    let brought = brought.map_err(|refused| refused.refusal());
    assert!(is_untouched(&buf));
    brought
}

/// Addresses and lengths of both directions' operations.
fn operations(port: &mut Port, tag: u64) -> Vec<(u64, u32)> {
    port.plan(tag, 10, 20).expect("no refusal");
    let mut of = |way, count| -> Vec<(u64, u32)> {
        port.pieces(tag, way, 0, count).expect("no refusal").map(|piece| (piece.address, piece.length)).collect()
    };
    [of(Direction::Out, 10), of(Direction::In, 20)].concat()
}

/// The second first: each has its own tables, and the listing is as they were taken.
#[test]
fn in_any_order() {
    for order in [[7, 8, 9], [9, 8, 7], [8, 9, 7], [8, 7, 9], [7, 9, 8], [9, 7, 8]] {
        let mut port = waiting(&[7, 8, 9]);
        assert_eq!(port.counters(), Ok(Counters { wanted: 4, announced: 1, held: 3, owed: 0 }));
        for tag in order {
            assert_eq!(bring(&mut port, tag), Ok(()));
            let record = |tag| Record { tag, lun: LUN, data_out: 0, data_in: 0 };
            let mut records = [Record::default(); 16];
            assert_eq!(port.list(&mut records), Ok(&[record(7), record(8), record(9)][..]));
        }
        for tag in order {
            assert_eq!(operations(&mut port, tag), [(0x100 * tag, 10), (0x200 * tag, 20)]);
        }
    }
}

/// 33: until the tables are there, and for tables afterwards.
#[test]
fn refused_while_waiting_and_afterwards() {
    let mut port = waiting(&[9]);
    assert_eq!(port.plan(9, 10, 20), Err(Refusal::Waiting));
    assert_eq!(port.name_move(9, Direction::In, 0, 1), Err(Refusal::Waiting));
    assert_eq!(port.pieces(9, Direction::In, 0, 1).err(), Some(Refusal::Waiting));
    assert_eq!(port.step(9, Direction::Out), Err(Refusal::Waiting));
    assert_eq!(port.finish(9, 0, &[], &mut lent()), Err(Refusal::Waiting));
    assert_eq!(port.finish(9, 0, &[1], &mut lent()), Err(Refusal::Argument));
    assert_eq!(bring(&mut port, 9), Ok(()));
    assert_eq!(bring(&mut port, 9), Err(Refusal::Waiting), "brought twice");
    assert_eq!(port.tables(9, Tables::NONE, &mut lent()), Err(TablesRefusal::Unaltered(Refusal::Waiting)));
    take_command(&mut port, &p1(10));
    assert_eq!(bring(&mut port, 10), Err(Refusal::Waiting), "no fetch was named");
    assert_eq!(port.finish(9, 0, &[], &mut lent()).map(|message| message[0]), Ok(0xc1));
}

/// 1, 24 and 9 leave the command waiting.
#[test]
fn without_a_message_it_waits_on() {
    let mut port = waiting(&[9]);
    let [out, inn] = both_ways(9).1;
    let right = Tables { data_out: &out, data_in: &inn };
    let mut small = short();
    let refused = port.tables(9, right, &mut small).unwrap_err();
    assert_eq!(refused, TablesRefusal::Unaltered(Refusal::ShortBuffer));
    assert_eq!((refused.refusal(), refused.message()), (Refusal::ShortBuffer, None));
    assert!(is_untouched(&small));
    assert_eq!(bring(&mut port, 8), Err(Refusal::TagNotOpen));
    let long = [out, out].concat();
    for tables in [
        Tables::NONE,
        Tables { data_out: &out, ..Tables::NONE },
        Tables { data_in: &inn, ..Tables::NONE },
        Tables { data_out: &out[..15], data_in: &inn },
        Tables { data_out: &long, data_in: &[0xff; 16] },
    ] {
        let mut buf = lent();
        assert_eq!(port.tables(9, tables, &mut buf), Err(TablesRefusal::Unaltered(Refusal::TableLength)));
        assert!(is_untouched(&buf), "{tables:?}");
    }
    assert_eq!(bring(&mut port, 9), Ok(()));
    assert_eq!(operations(&mut port, 9), [(0x900, 10), (0x1200, 20)]);
}

/// 10: the command is answered with RSP_CODE 02h, notified as its message says, and is open no more.
#[test]
fn bad_fields_are_answered() {
    let [out, inn] = both_ways(9).1;
    for tables in [
        Tables { data_out: &inn, data_in: &out },
        Tables { data_out: &out, data_in: &[0xff; 16] },
        Tables { data_out: &[0xff; 16], data_in: &inn },
    ] {
        let (mut port, mut buf) = (waiting(&[8, 9]), lent());
        let refused = port.tables(9, tables, &mut buf).unwrap_err();
        let message = answer(1, 1, 9, 0x02);
        assert_eq!(refused, TablesRefusal::Answered { refusal: Refusal::Fields, message: Message(&message) });
        assert_eq!((refused.refusal(), refused.message()), (Refusal::Fields, Some(Message(&message))));
        assert!(is_untouched(&buf[40..]));
        assert_eq!(port.counters(), Ok(Counters { wanted: 4, announced: 3, held: 1, owed: 0 }));
        assert_eq!(bring(&mut port, 9), Err(Refusal::TagNotOpen));
        assert_eq!(bring(&mut port, 8), Ok(()), "the other one waited on");
    }
}

/// A tag used again waits for tables of its own.
#[test]
fn aborted_while_waiting() {
    let mut port = waiting(&[8, 9]);
    abort(&mut port, 9);
    assert_eq!(bring(&mut port, 9), Err(Refusal::TagNotOpen));
    assert!(take_and_wait(&mut port, &command(9, 0, Data::None, by_table(30))));
    assert_eq!(bring(&mut port, 9), Err(Refusal::TableLength));
    let table = memory(0x5000, 6, 30);
    assert_eq!(port.tables(9, Tables { data_in: &table, ..Tables::NONE }, &mut lent()), Ok(()));
    port.plan(9, 0, 30).unwrap();
    assert_eq!(port.pieces(9, Direction::In, 0, 30).unwrap().next().map(|piece| piece.address), Some(0x5000));
    assert_eq!(bring(&mut port, 8), Ok(()));
}

/// The message may be gone as soon as it is taken; what it copied of a table is not.
#[test]
fn the_message_is_not_kept() {
    let segments = [memory(0x1000, 7, 1000), memory(0x8000, 8, 300)];
    let copied = |copies| Data::Indirect { table: memory(0x9000, 3, 32), total: 1300, copies };
    for (table, expected) in [(segments.concat(), Ok(())), ([segments[1], segments[0]].concat(), Err(Refusal::Fields))]
    {
        let mut port = open_port();
        let mut msg = command(9, 0, Data::None, copied(vec![segments[0]]));
        assert!(take_and_wait(&mut port, &msg));
        msg.fill(0xff);
        let tables = Tables { data_in: &table, ..Tables::NONE };
        assert_eq!(port.tables(9, tables, &mut lent()).map_err(|refused| refused.refusal()), expected);
    }
}

#[test]
fn closing_drops_those_that_wait() {
    let mut port = waiting(&[8, 9]);
    assert_eq!(port.close(0, &mut lent()).map(|message| message[0]), Ok(0x80));
    assert_eq!(bring(&mut port, 9), Err(Refusal::Closed));
}
