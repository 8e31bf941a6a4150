//! Demand 3: the two-ended machine over the library's port.

use srp_tests::port::{library::Library, machine::Machine};
use srp_tests::position;

const STATES: [&str; 39] = [
    "16 commands open",
    "SRP_CRED_REQ lifts 1",
    "SRP_CRED_REQ lifts more",
    "SRP_RSP lifts 0",
    "SRP_RSP lifts 1",
    "SRP_RSP lifts more",
    "a boundary",
    "a tag used again",
    "aborted in the middle",
    "aborted while it waited",
    "done after none",
    "done after one",
    "done after several",
    "ended by a boundary",
    "ended by its tables in the middle",
    "ended with pieces left",
    "finished in the middle",
    "from a boundary to the next",
    "h above the bytes handed out",
    "h below the bytes handed out",
    "idle, none open",
    "idle, some open",
    "last by a step, between others",
    "last by a step, first",
    "last by a step, last",
    "move after operations",
    "move after operations, refused",
    "no boundary",
    "owed 0",
    "owed above 0",
    "owed below 0",
    "served alone, its last",
    "served alone, put back",
    "served before its place",
    "served before others, its last",
    "served before others, put back",
    "tables before those of an older one",
    "tables of the oldest that waits",
    "up to 2^64, with a boundary",
];

/// Events that come up whatever the initiator does.
const EVENTS: [&str; 65] = [
    "add: done",
    "add: refused 11",
    "add: refused 28",
    "deliver: SRP_CRED_REQ",
    "deliver: SRP_RSP",
    "finish: done",
    "finish: refused 1",
    "finish: refused 11",
    "finish: refused 24",
    "finish: refused 33",
    "grant: done",
    "grant: refused 1",
    "grant: refused 26",
    "grant: refused 27",
    "login: accepted",
    "login: refused 2",
    "move: done",
    "move: refused 24",
    "move: refused 29",
    "move: refused 31",
    "move: refused 32",
    "move: refused 33",
    "plan: done",
    "plan: refused 24",
    "plan: refused 30",
    "plan: refused 33",
    "send: any bytes",
    "send: command",
    "send: credit response",
    "send: logout",
    "send: task",
    "step: RDMA Read",
    "step: RDMA Write",
    "step: done",
    "step: refused 24",
    "step: refused 29",
    "step: refused 33",
    "tables: done",
    "tables: refused 1",
    "tables: refused 10",
    "tables: refused 24",
    "tables: refused 33",
    "tables: refused 9",
    "take: command",
    "take: command that waits",
    "take: credit response",
    "take: logout",
    "take: refused 1",
    "take: refused 10",
    "take: refused 23",
    "take: refused 3",
    "take: refused 4",
    "take: refused 5",
    "take: refused 6",
    "take: refused 7",
    "take: refused 8",
    "take: task, code 0",
    "take: task, code 2",
    "take: task, code 4",
    "turn: RDMA Read",
    "turn: RDMA Write",
    "turn: idle",
    "withdraw: done",
    "withdraw: refused 11",
    "withdraw: refused 28",
];

/// Lines of the messages. Unknown are those of any bytes, and of commands with a format above 2.
const LINES: [&str; 10] = [
    "< CRED_REQ",
    "< LOGIN_RSP",
    "< RSP",
    "< T_LOGOUT",
    "> CMD",
    "> CRED_RSP",
    "> I_LOGOUT",
    "> LOGIN_REQ",
    "> TSK_MGMT",
    "> UNKNOWN",
];

/// Runs the machine until so many events have come; each of EVENTS, STATES and LINES must come up, moves from each
/// position among the segments, and these too.
fn run(name: &str, seed: u64, fair: bool, count: u64, events: &[&str], states: &[&str]) {
    let mut machine = Machine::new(Library::new(seed), seed);
    while machine.events.total() < count {
        machine.list(fair, 1_000);
    }
    machine.events.print_as(name, "events");
    machine.states.print_as(name, "states");
    machine.lines.print_as(name, "lines");
    println!("{name}: longest wait in line {} turns", machine.longest_wait);
    machine.events.assert_each(12, &[&EVENTS[..], events].concat());
    machine.states.assert_each(12, &[&STATES[..], &position::KINDS, states].concat());
    machine.lines.assert_each(12, &LINES);
}

#[test]
fn a_fair_initiator() {
    run("machine, a fair initiator", 19, true, 240_000, &[], &[]);
}

#[test]
fn an_initiator_below_its_limit() {
    let unfair = ["send: a request below a limit of 1", "take: refused 22", "take: refused 25"];
    run("machine, an initiator below its limit", 12, false, 180_000, &unfair, &["limit below 0"]);
}

/// 32 moves of very unlike length in line: the longest wait is as long as it may be, and each event asserts that none is
/// longer.
#[test]
fn thirty_two_moves_in_line() {
    let mut machine = Machine::new(Library::new(18), 18);
    for _ in 0..60 {
        machine.crowded(600);
    }
    machine.events.print_as("machine, 32 moves in line", "events");
    machine.states.print_as("machine, 32 moves in line", "states");
    let pieces = ["turn: RDMA Read", "turn: RDMA Write", "step: RDMA Read", "step: RDMA Write"];
    machine.events.assert_at_least(1_000, &pieces);
    machine.states.assert_at_least(100, &["served before its place", "last by a step, between others"]);
    assert_eq!(machine.longest_wait, 32, "turns");
}
