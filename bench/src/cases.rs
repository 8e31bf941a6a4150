//! The cases: what is timed, and the calls before and after it. Each case starts from the port that the login gave and
//! leaves its counters as they were.

use crate::batch::{login_request, Batch, Message};
use crate::library::LIBRARY;
use crate::messages::*;
use crate::series::{Part, Series};
use crate::sides::{Side, PLAIN, YARDSTICK};

pub struct Case {
    pub name: String,
    pub series: Option<Series>,
    /// How many ports take turns; more than one where only one call of a kind can be made on a port.
    pub ports: usize,
    pub before: Vec<Batch>,
    pub timed: Batch,
    pub after: Vec<Batch>,
}

const OUT: u32 = 0;
const IN: u32 = 1;

/// Q, in the cases that have one.
pub const BOUNDARY: u64 = 4096;

const PORTS: usize = 8;

/// How many moves are in line, in the names of its cases.
pub const ONE_IN_LINE: &str = "1 move in line";
pub const ALL_IN_LINE: &str = "32 moves in line";

/// How often a call that alters nothing is made in a row.
const REPEATED: usize = 64;

fn tags() -> Vec<u64> {
    (0x100..0x110).collect()
}

fn login(boundary: u64) -> Batch {
    Batch::Login { messages: vec![login_request()], boundary }
}

fn take_all(message: impl Fn(u64) -> Message) -> Batch {
    Batch::Take(tags().into_iter().map(message).collect())
}

fn finish_all(tags: Vec<u64>) -> Batch {
    Batch::Finish { tags, status: 0, sense: Vec::new() }
}

fn case(name: &str, before: Vec<Batch>, timed: Batch, after: Vec<Batch>) -> Case {
    let ports = if timed.calls() == 1 { PORTS } else { 1 };
    Case { name: name.into(), series: None, ports, before, timed, after }
}

fn take_case(name: &str, message: impl Fn(u64) -> Message) -> Case {
    case(&format!("take, {name}"), vec![], take_all(message), vec![finish_all(tags())])
}

fn bring_all(entries: u32) -> Batch {
    Batch::Tables(tags().into_iter().map(|tag| table(entries, tag)).collect())
}

/// Commands that wait for a table of so many entries.
fn waiting_case(entries: u32, copies: u32) -> Case {
    let name = format!("take, waits for a table of {entries} entries, {copies} copies");
    let after = vec![bring_all(entries), finish_all(tags())];
    case(&name, vec![], take_all(|tag| fetched(entries, copies, tag)), after)
}

/// Their tables, the oldest command's first.
fn tables_case(entries: u32, copies: u32) -> Case {
    let name = format!("tables, {entries} entries, {copies} copies, 16 commands open");
    let before = vec![take_all(|tag| fetched(entries, copies, tag))];
    case(&name, before, bring_all(entries), vec![finish_all(tags())])
}

fn task_case() -> Case {
    let commands = tags().into_iter().take(15).map(direct).collect();
    let timed = Batch::Take(vec![abort_task_set()]);
    case("take, a task that aborts 15 commands", vec![Batch::Take(commands)], timed, vec![])
}

/// A case of calls that end no command.
fn with_commands(name: &str, timed: Batch) -> Case {
    case(&format!("{name}, 16 commands open"), vec![take_all(direct)], timed, vec![finish_all(tags())])
}

/// Every second command has ended, and its tag came again.
fn taken_anew_case() -> Case {
    let again: Vec<u64> = tags().into_iter().step_by(2).collect();
    let anew = Batch::Take(again.iter().map(|&tag| direct(tag)).collect());
    let before = vec![take_all(direct), finish_all(again), anew];
    case("list, 8 of 16 commands taken anew", before, Batch::List(REPEATED), vec![finish_all(tags())])
}

fn close_case() -> Case {
    case("close, 16 commands open", vec![take_all(direct)], Batch::Close, vec![login(0)])
}

fn plan_case() -> Case {
    let timed = Batch::Plan { tags: tags(), required: 1300 };
    with_commands("plan", timed)
}

fn move_case(name: &str, tag: u64) -> Case {
    let before = vec![take_all(direct), Batch::Plan { tags: tags(), required: 1300 }];
    let timed = Batch::Move { tags: vec![tag], direction: IN, offset: 0, count: 1300 };
    case(&format!("move, {name} of 16 commands"), before, timed, vec![finish_all(tags())])
}

/// A move that starts far from the last one.
fn far_move_case() -> Case {
    let required = 32 * SEGMENT;
    let before = vec![take_all(|tag| all_copied(32, tag)), Batch::Plan { tags: tags(), required }];
    let timed = Batch::Move { tags: tags(), direction: IN, offset: required - 1, count: 1 };
    case("move, last byte of 32 segments, 16 commands open", before, timed, vec![finish_all(tags())])
}

/// A step of a move that names all bytes from the part on.
fn step_case(part: Part, segments: u32) -> Case {
    let required = SEGMENT * segments;
    let offset = part.offset(required);
    let before = vec![
        take_all(|tag| all_copied(segments, tag)),
        Batch::Plan { tags: tags(), required },
        Batch::Move { tags: tags(), direction: IN, offset, count: required - offset },
    ];
    let timed = Batch::Step(tags().into_iter().map(|tag| (tag, IN)).collect());
    let series = Series { call: "step", part, segments };
    let name = format!("{series}, 16 commands open");
    Case { series: Some(series), ..case(&name, before, timed, vec![finish_all(tags())]) }
}

/// A step whose piece ends at a multiple of Q, before M bytes. Its port is logged in anew, with a boundary.
fn bounded_step_case() -> Case {
    let before = vec![
        login(BOUNDARY),
        take_all(direct_before_multiple),
        Batch::Plan { tags: tags(), required: 1300 },
        Batch::Move { tags: tags(), direction: IN, offset: 0, count: 1300 },
    ];
    let timed = Batch::Step(tags().into_iter().map(|tag| (tag, IN)).collect());
    case("step, up to a multiple of Q, 16 commands open", before, timed, vec![finish_all(tags()), login(0)])
}

/// 16 commands with these moves in line, in this order, and calls that hand out their pieces.
fn line_case(name: &str, moves: &[(u64, u32)], timed: Batch) -> Case {
    let mut before = vec![take_all(both_ways), Batch::Plan { tags: tags(), required: LONG }];
    let named = |&(tag, direction)| Batch::Move { tags: vec![tag], direction, offset: 0, count: LONG };
    before.extend(moves.iter().map(named));
    case(name, before, timed, vec![finish_all(tags())])
}

/// Turns, and steps of the same moves in the same order.
fn line_cases() -> Vec<Case> {
    let newest = vec![(0x10f, IN)];
    let each_way: Vec<(u64, u32)> = tags().into_iter().flat_map(|tag| [(tag, OUT), (tag, IN)]).collect();
    let of_line = |in_line: &str, moves: &[(u64, u32)]| {
        let steps = moves.iter().copied().cycle().take(REPEATED).collect();
        let name = |call: &str| format!("{call}, {in_line}, 16 commands open");
        [line_case(&name("turn"), moves, Batch::Turn(REPEATED)), line_case(&name("step"), moves, Batch::Step(steps))]
    };
    [of_line(ONE_IN_LINE, &newest), of_line(ALL_IN_LINE, &each_way)].into_iter().flatten().collect()
}

fn finish_case(name: &str, tag: u64, status: u8, sense: Vec<u8>) -> Case {
    let others = tags().into_iter().filter(|&other| other != tag).collect();
    let timed = Batch::Finish { tags: vec![tag], status, sense };
    case(&format!("finish, {name} of 16 commands"), vec![take_all(direct)], timed, vec![finish_all(others)])
}

fn grant_case() -> Case {
    let before = vec![Batch::Withdraw(1), Batch::Take(vec![no_data(1)]), finish_all(vec![1]), Batch::Add(1)];
    case("grant", before, Batch::Grant, vec![Batch::Take(vec![credit_response()])])
}

fn look_case(name: &str, message: Message) -> Case {
    case(&format!("look, {name}"), vec![], Batch::Look(vec![message.0; REPEATED]), vec![])
}

fn cut_case(part: Part, count: u32) -> Case {
    let required = SEGMENT * count;
    let lists = vec![segments(count); REPEATED];
    let timed = Batch::Cut { lists, boundary: 0, required, handed: part.offset(required) };
    let series = Series { call: "cut", part, segments: count };
    Case { series: Some(series), ..case(&series.to_string(), vec![], timed, vec![]) }
}

/// As the step.
fn bounded_cut_case() -> Case {
    let lists = vec![before_multiple(); REPEATED];
    let timed = Batch::Cut { lists, boundary: BOUNDARY, required: 1300, handed: 0 };
    case("cut, up to a multiple of Q, 1 segment", vec![], timed, vec![])
}

/// Towards the port or from it.
fn trace_case(name: &str, message: Message, direction: u32) -> Case {
    let timed = Batch::Trace { messages: vec![message.0; REPEATED], direction };
    case(&format!("trace, {name}"), vec![], timed, vec![])
}

fn format_case(name: &str, formats: u32) -> Case {
    case(&format!("format counts, {name}"), vec![], Batch::FormatCounts(vec![formats; REPEATED]), vec![])
}

/// A case for each number of segments, of the first piece and of the last byte.
fn by_segments(of: fn(Part, u32) -> Case) -> impl Iterator<Item = Case> {
    [Part::FirstPiece, Part::LastByte].into_iter().flat_map(move |part| [1, 8, 16, 32].map(|count| of(part, count)))
}

/// Entries of a table, and how many of them are in the message too.
fn with_tables() -> Vec<Case> {
    let tables = [(2, 0), (32, 0), (32, 16)];
    let [waiting, brought] = [waiting_case, tables_case].map(|of| tables.map(|(entries, copies)| of(entries, copies)));
    waiting.into_iter().chain(brought).collect()
}

impl Case {
    /// All its batches, in order.
    pub fn batches(&self) -> Vec<&Batch> {
        self.before.iter().chain([&self.timed]).chain(&self.after).collect()
    }

    /// The sides that make it: the library, plain Rust and, for the last byte, the yardstick.
    pub fn sides(&self) -> Vec<&'static Side> {
        let mut sides = vec![&LIBRARY, &PLAIN];
        if self.series.is_some_and(|series| series.part == Part::LastByte) {
            sides.push(&YARDSTICK);
        }
        sides
    }
}

pub fn cases() -> Vec<Case> {
    let mut cases = vec![
        case("login, accepted", vec![Batch::Close], login(0), vec![]),
        take_case("no data", no_data),
        take_case("direct", direct),
        take_case("32 copies each way, 1,364 bytes", longest),
        task_case(),
        plan_case(),
        move_case("oldest", 0x100),
        move_case("newest", 0x10f),
        far_move_case(),
    ];
    cases.splice(4..4, with_tables());
    cases.extend(by_segments(step_case));
    cases.push(bounded_step_case());
    cases.extend(line_cases());
    cases.extend([
        finish_case("oldest", 0x100, 0, vec![]),
        finish_case("newest", 0x10f, 0, vec![]),
        finish_case("newest, 96 bytes of sense,", 0x10f, 2, vec![0xa5; 96]),
        grant_case(),
        close_case(),
        with_commands("counters", Batch::Counters(REPEATED)),
        with_commands("list", Batch::List(REPEATED)),
        taken_anew_case(),
        look_case("no data, 48 bytes", no_data(1)),
        look_case("direct, 64 bytes", direct(1)),
        look_case("32 copies each way, 1,364 bytes", longest(1)),
    ]);
    cases.extend(by_segments(cut_case));
    cases.extend([
        bounded_cut_case(),
        trace_case("SRP_CMD with 1 descriptor, 64 bytes", direct(1), 0),
        trace_case("SRP_CMD with 16 descriptors, 324 bytes", all_copied(16, 1), 0),
        trace_case("SRP_RSP with RSP_CODE, 40 bytes", response(), 1),
        trace_case("UNKNOWN, 52 bytes", other_type(), 1),
        format_case("both agreed", 0b110),
        format_case("none agreed", 0b000),
    ]);
    cases
}
