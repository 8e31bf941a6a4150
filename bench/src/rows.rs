//! The plain port and the yardstick against the rows of tests/rows, made elsewhere; read and judged as by tests/rust.

use srp_target_sys::{Store, Words, STORE_BYTES};
use srp_tests::limits::Limits;
use srp_tests::port::call::{Call, Outcome, Restore, Target, UNWRITTEN};
use srp_tests::{port as ports, rows};

use crate::port::Port;
use crate::sides::{Side, PLAIN, YARDSTICK};

/// The current port of a side, and its store.
struct Current {
    side: &'static Side,
    port: *mut Words,
    store: Box<Store>,
}

impl Target for Current {
    fn call(&mut self, call: &Call) -> Outcome {
        let (mut buf, mut records, mut answer) = (call.buf().to_vec(), call.records().to_vec(), UNWRITTEN);
        // SAFETY: the port is of this side, and each pointer leads to what its length says.
        let returned = unsafe { self.make(call, &mut buf, &mut records, &mut answer) };
        Outcome { returned, answer, buf, records }
    }
}

impl Current {
    unsafe fn make(&mut self, call: &Call, buf: &mut [u8], records: &mut [u64], answer: &mut [u64; 8]) -> u32 {
        let (side, port) = (self.side, self.port);
        let (store, buf, buf_len) = (&mut *self.store, buf.as_mut_ptr(), buf.len());
        let (msg, msg_len) = (call.input().as_ptr(), call.input().len());
        let [(out, out_len), (inn, in_len)] = call.tables().map(|table| (table.as_ptr(), table.len()));
        match call {
            Call::Login { settings, boundary, own, .. } => {
                (side.login)(port, settings, *boundary, own, msg, msg_len, buf, buf_len, answer)
            }
            Call::Take { .. } => (side.take)(port, store, msg, msg_len, buf, buf_len, answer),
            Call::Tables { tag, .. } => {
                (side.tables)(port, store, *tag, out, out_len, inn, in_len, buf, buf_len, answer)
            }
            Call::Plan { tag, r_out, r_in } => (side.plan)(port, *tag, *r_out, *r_in),
            Call::Move { tag, direction, offset, count } => (side.name_move)(port, *tag, *direction, *offset, *count),
            Call::Step { tag, direction } => (side.step)(port, store, *tag, *direction, answer),
            Call::Turn => (side.turn)(port, store, answer),
            Call::Finish { tag, status, .. } => (side.finish)(port, *tag, *status, msg, msg_len, buf, buf_len, answer),
            Call::Add { k } => (side.add)(port, *k),
            Call::Withdraw { k } => (side.withdraw)(port, *k),
            Call::Grant { .. } => (side.grant)(port, buf, buf_len, answer),
            Call::Close { reason, .. } => (side.close)(port, *reason, buf, buf_len, answer),
            Call::Counters => (side.counters)(port, answer),
            Call::List { .. } => (side.list)(port, records.as_mut_ptr(), records.len(), answer),
        }
    }
}

/// The sides that rows are put to have a plain port each.
impl Restore for Current {
    type State = Port;

    fn state(&self) -> Port {
        // SAFETY: it is a plain port.
        unsafe { (*self.port.cast::<Port>()).clone() }
    }

    fn restore(&mut self, state: Port) {
        // SAFETY: as above.
        unsafe { *self.port.cast::<Port>() = state }
    }
}

fn closed_port(side: &'static Side) -> Current {
    Current { side, port: (side.new_port)(), store: Box::new([0; STORE_BYTES]) }
}

fn run_port(side: &'static Side) {
    ports::rows::run_base(&mut closed_port(side), side.name);
}

fn run_moves(side: &'static Side) {
    ports::rows::run_job_1(&mut closed_port(side), side.name);
}

fn run_numbers(side: &'static Side) {
    ports::rows::run_job_4(&mut closed_port(side), side.name);
}

fn run_order(side: &'static Side) {
    ports::rows::run_job_5(&mut closed_port(side), side.name);
}

fn run_boundary(side: &'static Side) {
    ports::rows::run_job_6(&mut closed_port(side), side.name);
}

fn run_waiting(side: &'static Side) {
    ports::rows::run_job_7(&mut closed_port(side), side.name);
}

fn run_turns(side: &'static Side) {
    ports::rows::run_job_8(&mut closed_port(side), side.name);
}

fn run_cut(side: &'static Side) {
    rows::run_cut(side.name, |call, buf| {
        let (list, Limits { m, q }) = (&call.list, call.limits);
        // SAFETY: as above.
        unsafe { (side.cut)(list.as_ptr(), list.len(), m, q, call.r, call.handed, buf.as_mut_ptr(), buf.len()) }
    });
}

#[test]
fn port_rows() {
    run_port(&PLAIN);
}

#[test]
fn move_rows() {
    run_moves(&PLAIN);
}

#[test]
fn number_rows() {
    run_numbers(&PLAIN);
}

#[test]
fn order_rows() {
    run_order(&PLAIN);
}

#[test]
fn boundary_rows() {
    run_boundary(&PLAIN);
}

#[test]
fn waiting_rows() {
    run_waiting(&PLAIN);
}

#[test]
fn turn_rows() {
    run_turns(&PLAIN);
}

#[test]
fn look_rows() {
    // SAFETY: as above.
    rows::run_look(PLAIN.name, |call, buf| unsafe {
        (PLAIN.look)(call.msg.as_ptr(), call.msg.len(), call.agreed, call.formats, buf.as_mut_ptr(), buf.len())
    });
}

#[test]
fn cut_rows() {
    run_cut(&PLAIN);
}

#[test]
fn trace_rows() {
    // SAFETY: as above.
    rows::run_trace(PLAIN.name, |call, buf| unsafe {
        (PLAIN.trace)(call.msg.as_ptr(), call.msg.len(), call.direction, buf.as_mut_ptr(), buf.len())
    });
}

#[test]
fn port_rows_by_the_yardstick() {
    run_port(&YARDSTICK);
}

#[test]
fn move_rows_by_the_yardstick() {
    run_moves(&YARDSTICK);
}

#[test]
fn number_rows_by_the_yardstick() {
    run_numbers(&YARDSTICK);
}

#[test]
fn order_rows_by_the_yardstick() {
    run_order(&YARDSTICK);
}

#[test]
fn boundary_rows_by_the_yardstick() {
    run_boundary(&YARDSTICK);
}

#[test]
fn waiting_rows_by_the_yardstick() {
    run_waiting(&YARDSTICK);
}

#[test]
fn turn_rows_by_the_yardstick() {
    run_turns(&YARDSTICK);
}

#[test]
fn cut_rows_by_the_yardstick() {
    run_cut(&YARDSTICK);
}
