//! The sides that are compared, behind the same functions: the library, the plain Rust port, and this port with the
//! yardstick's search.

use srp_target_sys::{Answer, Own, Settings, Store, Words};

use crate::plain;
use crate::port::Port;
use crate::search::{Plain, Search};
use crate::yardstick::Yardstick;

pub type Login = unsafe extern "C" fn(
    *mut Words,
    *const Settings,
    u64,
    *const Own,
    *const u8,
    usize,
    *mut u8,
    usize,
    *mut Answer,
) -> u32;
pub type Take = unsafe extern "C" fn(*mut Words, *mut Store, *const u8, usize, *mut u8, usize, *mut Answer) -> u32;
pub type Tables = unsafe extern "C" fn(
    *mut Words,
    *mut Store,
    u64,
    *const u8,
    usize,
    *const u8,
    usize,
    *mut u8,
    usize,
    *mut Answer,
) -> u32;
pub type Plan = unsafe extern "C" fn(*mut Words, u64, u32, u32) -> u32;
pub type Move = unsafe extern "C" fn(*mut Words, u64, u32, u32, u32) -> u32;
pub type Step = unsafe extern "C" fn(*mut Words, *const Store, u64, u32, *mut Answer) -> u32;
pub type Turn = unsafe extern "C" fn(*mut Words, *const Store, *mut Answer) -> u32;
pub type Finish = unsafe extern "C" fn(*mut Words, u64, u8, *const u8, usize, *mut u8, usize, *mut Answer) -> u32;
pub type Buffers = unsafe extern "C" fn(*mut Words, u32) -> u32;
pub type Grant = unsafe extern "C" fn(*mut Words, *mut u8, usize, *mut Answer) -> u32;
pub type Close = unsafe extern "C" fn(*mut Words, u32, *mut u8, usize, *mut Answer) -> u32;
pub type Counters = unsafe extern "C" fn(*const Words, *mut Answer) -> u32;
pub type List = unsafe extern "C" fn(*const Words, *mut u64, usize, *mut Answer) -> u32;
pub type Look = unsafe extern "C" fn(*const u8, usize, u32, u32, *mut u8, usize) -> u32;
pub type Cut = unsafe extern "C" fn(*const u8, usize, u32, u64, u32, u32, *mut u8, usize) -> u32;
pub type Trace = unsafe extern "C" fn(*const u8, usize, u32, *mut u8, usize) -> u32;
pub type FormatCounts = unsafe extern "C" fn(u32, *mut Answer) -> u32;

pub struct Side {
    pub name: &'static str,
    /// Memory for a port, zero or closed, which stays until the program ends.
    pub new_port: fn() -> *mut Words,
    pub login: Login,
    pub take: Take,
    pub tables: Tables,
    pub plan: Plan,
    pub name_move: Move,
    pub step: Step,
    pub turn: Turn,
    pub finish: Finish,
    pub add: Buffers,
    pub withdraw: Buffers,
    pub grant: Grant,
    pub close: Close,
    pub counters: Counters,
    pub list: List,
    pub look: Look,
    pub cut: Cut,
    pub trace: Trace,
    pub format_counts: FormatCounts,
}

/// Starts on a cache line, so that both sides' ports lie alike.
#[repr(align(64))]
pub struct Aligned<T>(pub T);

fn plain_port() -> *mut Words {
    let port: *mut Aligned<Port> = Box::leak(Box::new(Aligned(Port::CLOSED)));
    port.cast()
}

const fn plain_side<S: Search>(name: &'static str) -> Side {
    Side {
        name,
        new_port: plain_port,
        login: plain::plain_login,
        take: plain::plain_take,
        tables: plain::plain_tables,
        plan: plain::plain_plan,
        name_move: plain::plain_move,
        step: plain::plain_step::<S>,
        turn: plain::plain_turn::<S>,
        finish: plain::plain_finish,
        add: plain::plain_add,
        withdraw: plain::plain_withdraw,
        grant: plain::plain_grant,
        close: plain::plain_close,
        counters: plain::plain_counters,
        list: plain::plain_list,
        look: plain::plain_look,
        cut: plain::plain_cut::<S>,
        trace: plain::plain_trace,
        format_counts: plain::plain_format_counts,
    }
}

pub static PLAIN: Side = plain_side::<Plain>("plain");

pub static YARDSTICK: Side = plain_side::<Yardstick>("yardstick");
