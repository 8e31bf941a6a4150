//! README.md's lines for Rust, which tests/readme compares with those between the two markers, run: P1 directly, two
//! commands whose tables in the initiator's memory are read side by side and complete in the other order, a bad table, a
//! login that is rejected, and a command that hangs up.

mod messages;

use std::cell::RefCell;

use messages::*;
use srp_target::{Fetch, Fetches, Message, Operation, Refusal, Settings};

/// What the adapter says: a message came, or the Reads of a tag's tables are complete.
enum Event {
    Message(Vec<u8>),
    Tables { tag: u64, data_out: Vec<u8>, data_in: Vec<u8> },
}

/// What the adapter was told: messages to send, RDMA operations, tables to read; and the CDBs kept.
#[derive(Default)]
struct Adapter {
    sent: Vec<Vec<u8>>,
    posted: Vec<Operation>,
    fetched: Vec<(u64, Fetches)>,
    cdbs: Vec<(u64, usize)>,
}

thread_local! { static ADAPTER: RefCell<Adapter> = RefCell::default() }

fn told<R>(what: impl FnOnce(&mut Adapter) -> R) -> R {
    ADAPTER.with_borrow_mut(what)
}

fn send(message: Message) {
    told(|adapter| adapter.sent.push(message.to_vec()));
}

fn rdma(operation: Operation) {
    told(|adapter| adapter.posted.push(operation));
}

fn fetch(tag: u64, tables: Fetches) {
    told(|adapter| adapter.fetched.push((tag, tables)));
}

fn keep_cdb(tag: u64, cdb: &[u8]) {
    told(|adapter| adapter.cdbs.push((tag, cdb.len())));
}

/// What the CDB says: 1,300 bytes of data-in.
fn required(_tag: u64, way: srp_target::Direction) -> u32 {
    if way == srp_target::Direction::In {
        1300
    } else {
        0
    }
}

#[rustfmt::skip]
fn owner(settings: &Settings, own: &[u8; 16], login: &[u8], events: Vec<Event>) -> Result<(), Refusal> {
    let (agreed, formats) = (1364, BOTH_FORMATS);
    // README.md:
    use srp_target::{look, Direction, LoginRefusal, Port, Tables, Taken, MESSAGE_BYTES};
    let mut buf = [0; MESSAGE_BYTES];
    let mut port = match Port::login(settings, own, login, &mut buf) {
        Ok((port, message)) => { send(message); port }
        Err(LoginRefusal::Rejected { message, .. }) => { send(message); return Ok(()) } // and make no connection
        Err(LoginRefusal::Refused(refusal)) => return Err(refusal),
    };
    for event in events { // a message came, or the Reads of a waiting tag are complete
        let (ready, answer) = match event {
            Event::Message(msg) => match port.take(&msg, &mut buf) {
                Ok(Taken::Command { tag, cdb, waits, .. }) => {
                    keep_cdb(tag, cdb);
                    if waits { fetch(tag, look(&msg, agreed, formats)?) } // post its Reads; agreed, formats: the login's bytes 16-19 and 24-25
                    ((!waits).then_some(tag), None)
                }
                Ok(Taken::Task { message, .. }) => (None, Some(message)),
                Ok(Taken::Credit | Taken::Logout) => (None, None), // after a logout: disconnect
                Err(refused) => (None, refused.message()), // after a hang-up: send, disconnect
            },
            Event::Tables { tag, data_out, data_in } => {
                let refused = port.tables(tag, Tables { data_out: &data_out, data_in: &data_in }, &mut buf).err();
                (refused.is_none().then_some(tag), refused.and_then(|refused| refused.message())) // 10: answered and ended
            }
        };
        if let Some(message) = answer { send(message) }
        let Some(tag) = ready else { continue }; // meanwhile the next message is taken
        port.plan(tag, required(tag, Direction::Out), required(tag, Direction::In))?;
        for way in [Direction::Out, Direction::In] { // all of it; or in parts, in any order
            for operation in port.pieces(tag, way, 0, required(tag, way))? { rdma(operation); }
        }
        send(port.finish(tag, 0x00, &[], &mut buf)?);
    }
    // end
    Ok(())
}

/// The types, tags and lengths of the messages sent.
fn sent() -> Vec<(u8, u8, usize)> {
    told(|adapter| adapter.sent.iter().map(|message| (message[0], message[15], message.len())).collect())
}

/// A command with P1's segment as a table at 9000h.
fn by_table(tag: u64) -> Event {
    Event::Message(command(
        tag,
        0,
        Data::None,
        Data::Indirect { table: memory(0x9000, 3, 16), total: 1300, copies: vec![] },
    ))
}

fn complete(tag: u64, table: [u8; 16]) -> Event {
    Event::Tables { tag, data_out: vec![], data_in: table.to_vec() }
}

/// Addresses, lengths and offsets of P1.
const P1: [(u64, u32, u32); 3] = [(0x1000, 512, 0), (0x1200, 512, 512), (0x1400, 276, 1024)];

fn posted() -> Vec<(u64, u32, u32)> {
    told(|adapter| adapter.posted.iter().map(|o| (o.address, o.length, o.offset)).collect())
}

#[test]
fn a_command_without_a_table() {
    assert_eq!(owner(&SETTINGS, &OWN, &login_request(), vec![Event::Message(p1(9))]), Ok(()));
    assert_eq!((posted(), sent()), (P1.to_vec(), vec![(0xc0, 8, 52), (0xc1, 9, 36)]));
    assert_eq!(told(|adapter| (adapter.fetched.len(), adapter.cdbs.clone())), (0, vec![(9, 16)]));
}

#[test]
fn fetches_side_by_side() {
    let table = memory(0x1000, 7, 1300);
    let events = vec![by_table(9), by_table(10), complete(10, table), complete(9, table)];
    assert_eq!(owner(&SETTINGS, &OWN, &login_request(), events), Ok(()));
    let named = Fetches { data_out: None, data_in: Some(Fetch { address: 0x9000, handle: 3, length: 16 }) };
    assert_eq!(told(|adapter| adapter.fetched.clone()), [(9, named), (10, named)]);
    assert_eq!(posted(), [P1, P1].concat());
    assert_eq!(sent(), [(0xc0, 8, 52), (0xc1, 10, 36), (0xc1, 9, 36)]);
    assert_eq!(told(|adapter| adapter.sent[1][18..28].to_vec()), [0; 10]);
}

#[test]
fn a_bad_table() {
    let events = vec![by_table(9), complete(9, [0xff; 16]), complete(9, [0xff; 16])];
    assert_eq!(owner(&SETTINGS, &OWN, &login_request(), events), Ok(()));
    assert_eq!((sent(), posted()), (vec![(0xc0, 8, 52), (0xc1, 9, 40)], vec![]));
}

#[test]
fn a_rejected_login_and_a_hang_up() {
    let (msg, other) = (p1(9), [0xff; 16]);
    assert_eq!(owner(&SETTINGS, &other, &login_request(), vec![Event::Message(msg.clone())]), Ok(()));
    assert_eq!(sent(), [(0xc2, 8, 32)]);
    assert_eq!(owner(&SETTINGS, &OWN, &login_request(), vec![Event::Message(msg[..63].to_vec())]), Ok(()));
    assert_eq!(sent(), [(0xc2, 8, 32), (0xc0, 8, 52), (0x80, 0, 16)]);
    assert_eq!(owner(&SETTINGS, &OWN, &[], vec![Event::Message(msg)]), Err(Refusal::Length));
    assert_eq!(posted(), []);
}
