//! The rows of tests/rows through the C interface.

use srp_tests::calls::Call;
use srp_tests::port::{self, library::Library};
use srp_tests::rows;

#[test]
fn look_rows() {
    rows::run_look("the C interface", |call, buf| call.on_library(&call.msg, buf));
}

#[test]
fn cut_rows() {
    rows::run_cut("the C interface", |call, buf| call.on_library(&call.list, buf));
}

#[test]
fn trace_rows() {
    rows::run_trace("the C interface", |call, buf| call.on_library(&call.msg, buf));
}

#[test]
fn port_rows() {
    port::rows::run_base(&mut Library::new(1), "the C interface");
}

#[test]
fn move_rows() {
    port::rows::run_job_1(&mut Library::new(1), "the C interface");
}

#[test]
fn number_rows() {
    port::rows::run_job_4(&mut Library::new(1), "the C interface");
}

#[test]
fn order_rows() {
    port::rows::run_job_5(&mut Library::new(1), "the C interface");
}

#[test]
fn boundary_rows() {
    port::rows::run_job_6(&mut Library::new(1), "the C interface");
}

#[test]
fn waiting_rows() {
    port::rows::run_job_7(&mut Library::new(1), "the C interface");
}

#[test]
fn turn_rows() {
    port::rows::run_job_8(&mut Library::new(1), "the C interface");
}
