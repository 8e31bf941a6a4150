//! The library's side.

use srp_target_sys::*;

use crate::sides::{Aligned, Side};

fn library_port() -> *mut Words {
    // SAFETY: it has no arguments.
    assert_eq!(unsafe { srp_target_words() }, PORT_WORDS as u64);
    let port: *mut Aligned<Words> = Box::leak(Box::new(Aligned([0; PORT_WORDS])));
    port.cast()
}

pub static LIBRARY: Side = Side {
    name: "library",
    new_port: library_port,
    login: srp_target_login,
    take: srp_target_take,
    tables: srp_target_tables,
    plan: srp_target_plan,
    name_move: srp_target_move,
    step: srp_target_step,
    turn: srp_target_turn,
    finish: srp_target_finish,
    add: srp_target_add,
    withdraw: srp_target_withdraw,
    grant: srp_target_grant,
    close: srp_target_close,
    counters: srp_target_counters,
    list: srp_target_list,
    look: srp_look,
    cut: srp_cut,
    trace: srp_trace,
    format_counts: srp_format_counts,
};
