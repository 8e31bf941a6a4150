//! Every value of the port's small arguments and of each byte of its messages, from one state, against the model.

use srp_tests::generate::{self, Descriptor};
use srp_tests::model::MemoryDescriptor;
use srp_tests::port::both::{Both, Saved};
use srp_tests::port::generate::{command, Data};
use srp_tests::port::plain::{self, buffer, tables, take};
use srp_tests::port::{kinds, Call, Outcome, Target};
use srp_tests::random::Random;
use srp_tests::tally::Tally;

const LONGEST: u32 = 1364;

fn login(agreed: u32) -> Call {
    plain::login(&mut Random::new(1), 4, 512, agreed, 0b110)
}

fn direct(address: u64, length: u32) -> Data {
    let segment = MemoryDescriptor { address, handle: 7, length };
    Data { descriptor: Descriptor::Direct(segment), table: Vec::new() }
}

/// Two segments behind a table, of which the first is copied.
fn indirect() -> Data {
    let segments =
        [(0x3000, 600), (0x5000, 100)].map(|(address, length)| MemoryDescriptor { address, handle: 9, length });
    let table = MemoryDescriptor { address: 0x9000, handle: 8, length: 32 };
    let descriptor = Descriptor::Indirect { table, total: 700, copies: segments[..1].to_vec() };
    Data { descriptor, table: generate::list_of(&segments) }
}

fn task(tag: u64, lun: u64, function: u8, task_tag: u64) -> Vec<u8> {
    let mut msg = vec![0; 48];
    msg[0] = 0x01;
    msg[8..16].copy_from_slice(&tag.to_be_bytes());
    msg[20..28].copy_from_slice(&lun.to_be_bytes());
    msg[30] = function;
    msg[32..40].copy_from_slice(&task_tag.to_be_bytes());
    msg
}

fn short(kind: u8) -> Vec<u8> {
    let mut msg = vec![0; 16];
    (msg[0], msg[15]) = (kind, 1);
    msg
}

/// A port with commands 1 and 2 of LUN 0 and command 3 of LUN 1 open, the first two planned, of the first one's data-in
/// a move with a piece handed out, and a credit request unanswered.
fn prepared(agreed: u32) -> Both {
    let (mut both, mut random) = (Both::new(3), Random::new(4));
    both.call(&login(agreed));
    for (tag, lun, data) in [(1, 0, direct(0x1000, 1300)), (2, 0, Data::none()), (3, 1, Data::none())] {
        let msg = command(&mut random, tag, lun, 0, &[Data::none(), data]);
        assert_eq!(both.call(&take(&msg)).returned, 0);
    }
    both.call(&Call::Plan { tag: 1, r_out: 0, r_in: 1300 });
    both.call(&Call::Plan { tag: 2, r_out: 5, r_in: 0 });
    both.call(&Call::Move { tag: 1, direction: 1, offset: 0, count: 1300 });
    both.call(&Call::Step { tag: 1, direction: 1 });
    both.call(&Call::Add { k: 2 });
    assert_eq!(both.call(&Call::Grant { buf: buffer(132) }).returned, 0);
    both
}

/// Calls from one state, counted by what they came to.
struct From {
    both: Both,
    state: Saved,
    tally: Tally,
}

impl From {
    fn new(both: Both) -> Self {
        From { state: both.save(), both, tally: Tally::default() }
    }

    fn call(&mut self, call: &Call) -> Outcome {
        self.both.restore(&self.state);
        self.go_on(call)
    }

    fn go_on(&mut self, call: &Call) -> Outcome {
        let outcome = self.both.call(call);
        self.tally.add(kinds::outcome(call, &outcome));
        outcome
    }

    /// A message, and its tables where it is a command that waits for them.
    fn take(&mut self, msg: &[u8], [out, inn]: &[Vec<u8>; 2]) {
        let taken = self.call(&take(msg)).answer;
        if taken[6] == 1 {
            self.go_on(&tables(taken[2], [out, inn]));
        }
    }
}

/// The messages that a port takes, and the tables of each.
fn messages() -> Vec<(Vec<u8>, [Vec<u8>; 2])> {
    let mut random = Random::new(5);
    let data = [direct(0xffff_ffff_0000_0000, 70), indirect()];
    let whole = command(&mut random, 4, 1, 1, &data);
    vec![
        (whole, data.map(|data| data.table)),
        (command(&mut random, 5, 1, 0, &[Data::none(), Data::none()]), Default::default()),
        (task(6, 0, 0x01, 2), Default::default()),
        (task(7, 0, 0x02, 0), Default::default()),
        (short(0x03), Default::default()),
        (short(0x41), Default::default()),
    ]
}

#[test]
fn of_a_byte_of_a_message() {
    let mut from = From::new(prepared(LONGEST));
    for (msg, tables) in messages() {
        for at in 0..msg.len() {
            for value in 0..=255 {
                let mut msg = msg.clone();
                msg[at] = value;
                from.take(&msg, &tables);
            }
        }
    }
    from.tally.print("port, each value of each byte of a message");
    let refused = ["3", "4", "5", "6", "8", "10", "23", "25"].map(|number| format!("take: refused {number}"));
    from.tally.assert_at_least(1, &refused.each_ref().map(String::as_str));
    from.tally.assert_at_least(10, &["tables: done", "tables: refused 9", "tables: refused 10"]);
}

#[test]
fn of_a_message_s_length() {
    let mut tally = Tally::default();
    for agreed in [64, 103, 104, 105, LONGEST] {
        let mut from = From::new(prepared(agreed));
        for (msg, tables) in messages() {
            for length in 0..=1400 {
                let mut msg = msg.clone();
                msg.resize(length, 0);
                from.take(&msg, &tables);
            }
        }
        tally.join(&from.tally);
    }
    tally.print("port, each length of a message");
    // Each is taken at its own length alone; the first command, which waits, has 104 bytes.
    let kinds = ["take: command that waits", "tables: done", "take: command", "take: task, code 0", "take: logout"];
    assert_eq!(kinds.map(|kind| tally.count(kind)), [3, 3, 5, 5 + 5, 5]);
    assert_eq!(tally.count("take: credit response"), 5);
    assert_eq!((tally.count("take: refused 3"), tally.total()), (6 * 5 * 1401 - 28, 6 * 5 * 1401 + 3));
}

#[test]
fn of_a_byte_of_a_login() {
    let mut from = From::new(prepared(LONGEST));
    let Call::Login { settings, boundary, own, msg, buf } = login(LONGEST) else { unreachable!() };
    for at in 0..msg.len() {
        for value in 0..=255 {
            let mut msg = msg.clone();
            msg[at] = value;
            from.call(&Call::Login { settings, boundary, own, msg, buf: buf.clone() });
        }
    }
    for length in 0..=140 {
        let mut msg = msg.clone();
        msg.resize(length, 0);
        from.call(&Call::Login { settings, boundary, own, msg, buf: buf.clone() });
    }
    from.tally.print("port, each value of each byte of a login");
    let rejected = ["login: rejected 10000", "login: rejected 10002", "login: rejected 10003", "login: rejected 10004"];
    let others = ["login: accepted", "login: rejected 10005", "login: refused 3", "login: refused 4"];
    from.tally.assert_each(16, &[rejected, others].concat());
}

#[test]
fn of_a_setting() {
    let mut from = From::new(prepared(LONGEST));
    let Call::Login { settings, boundary, own, msg, buf } = login(64) else { unreachable!() };
    let mut with = |at: usize, value: u32| {
        let mut settings = settings;
        settings[at] = value;
        from.call(&Call::Login { settings, boundary, own, msg: msg.clone(), buf: buf.clone() });
    };
    for value in 0..=1500 {
        (0..5).for_each(|at| with(at, value));
    }
    for bit in 0..32 {
        for near in [(1u32 << bit) - 1, 1 << bit, (1 << bit) | 1] {
            (0..5).for_each(|at| with(at, near));
        }
    }
    (1_048_500..1_048_650).for_each(|m| with(1, m));
    from.tally.print("port, each value of a setting");
    // Without indirect descriptors the required formats are not supported: twice 0.
    from.tally.assert_each(2, &["login: accepted", "login: refused 2", "login: rejected 10004"]);
}

#[test]
fn of_a_buffer_s_length() {
    let mut from = From::new(prepared(LONGEST));
    let Call::Login { settings, boundary, own, msg, .. } = login(64) else { unreachable!() };
    for length in 0..=300 {
        let buf = || buffer(length);
        from.call(&Call::Login { settings, boundary, own, msg: msg.clone(), buf: buf() });
        for (msg, _) in messages() {
            from.call(&Call::Take { msg, buf: buf() });
        }
        from.call(&Call::Finish { tag: 1, status: 2, sense: buffer(96), buf: buf() });
        from.call(&Call::Grant { buf: buf() });
        from.call(&Call::Close { reason: 5, buf: buf() });
        from.call(&Call::List { records: (1..=length as u64).collect() });
    }
    from.tally.print("port, each length of a lent buffer");
    let [takes, logins] = [6, 1].map(|calls| calls * 132);
    let refused =
        ["login", "take", "finish", "grant", "close"].map(|name| from.tally.count(&format!("{name}: refused 1")));
    assert_eq!(refused, [logins, takes, 132, 132, 132]);
    assert_eq!((from.tally.count("list: refused 11"), from.tally.count("list: done")), (64, 237));
}

#[test]
fn of_status_and_sense() {
    let mut from = From::new(prepared(LONGEST));
    for status in 0..=255 {
        for length in [0, 1, 95, 96, 97] {
            from.call(&Call::Finish { tag: 1, status, sense: buffer(length), buf: buffer(140) });
        }
    }
    for length in 0..=300 {
        from.call(&Call::Finish { tag: 2, status: 2, sense: buffer(length), buf: buffer(140) });
    }
    from.tally.print("port, each status and each length of sense");
    assert_eq!(from.tally.count("finish: done"), 256 + 3 + 97);
    assert_eq!(from.tally.total(), 256 * 5 + 301);
}

/// From each number of wanted buffers, 1 to 16.
#[test]
fn of_a_number_of_buffers() {
    let mut tally = Tally::default();
    for wanted in 1..=16 {
        let mut both = Both::new(6);
        let Call::Login { own, msg, buf, .. } = login(64) else { unreachable!() };
        both.call(&Call::Login { settings: [wanted, 1, 64, 1, 0], boundary: 0, own, msg, buf });
        let mut from = From::new(both);
        for k in (0..=40).chain((0..32).flat_map(|bit| [(1u32 << bit) + 15, 0u32.wrapping_sub(1 << bit)])) {
            from.call(&Call::Add { k });
            from.call(&Call::Withdraw { k });
        }
        tally.join(&from.tally);
    }
    tally.print("port, each number of buffers");
    let outcomes = ["add: done", "add: refused 11", "add: refused 28"];
    tally.assert_each(16, &[outcomes, ["withdraw: done", "withdraw: refused 11", "withdraw: refused 28"]].concat());
}

/// A tag or a LUN that differs in one bit is another one.
#[test]
fn of_a_bit_of_a_tag() {
    let mut from = From::new(prepared(LONGEST));
    for bit in 0..64 {
        for tag in [1, 2, 3].map(|tag| tag ^ 1 << bit) {
            from.call(&Call::Plan { tag, r_out: 1, r_in: 1 });
            from.call(&Call::Move { tag, direction: 0, offset: 0, count: 1 });
            from.call(&Call::Step { tag, direction: 0 });
            from.call(&Call::Finish { tag, status: 0, sense: Vec::new(), buf: buffer(132) });
            from.call(&take(&task(9, 0, 0x01, tag)));
            from.call(&take(&task(9, 1 << bit, 0x04, 1)));
        }
    }
    from.tally.print("port, each bit of a tag");
    // 1, 2 and 3 are two bits apart at most: 1 and 3, 2 and 3 become each other.
    let not_open = ["plan", "move", "step"].map(|name| from.tally.count(&format!("{name}: refused 24")));
    assert_eq!(not_open, [64 * 3 - 4; 3]);
    assert_eq!(from.tally.count("finish: done"), 4);
}

/// Every direction word: 0 out, else in.
#[test]
fn of_a_direction() {
    let mut from = From::new(prepared(LONGEST));
    for direction in (0..=300).chain((0..32).map(|bit| 1 << bit)) {
        from.call(&Call::Step { tag: 1, direction });
        from.call(&Call::Move { tag: 1, direction, offset: 1, count: 1 });
    }
    from.tally.print("port, each direction");
    assert_eq!((from.tally.count("step: done"), from.tally.count("step: RDMA Write")), (1, 332));
    // Data-out has no byte, data-in pieces left.
    assert_eq!((from.tally.count("move: refused 31"), from.tally.count("move: refused 32")), (1, 332));
}
