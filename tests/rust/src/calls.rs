//! A call with all its arguments, made on the library and on the model and compared in every byte.

use std::fmt::Debug;

use crate::guarded::{GuardedMemory, Side};
use crate::limits::Limits;
use crate::model;
use crate::random::Random;

/// Arguments of srp_look; the lent buffer by its length.
#[derive(Clone, Debug)]
pub struct Look {
    pub msg: Vec<u8>,
    pub agreed: u32,
    pub formats: u32,
    pub lent: usize,
}

/// Arguments of srp_cut.
#[derive(Clone, Debug)]
pub struct Cut {
    pub list: Vec<u8>,
    pub limits: Limits,
    pub r: u32,
    pub handed: u32,
    pub lent: usize,
}

/// Arguments of srp_trace.
#[derive(Clone, Debug)]
pub struct Trace {
    pub msg: Vec<u8>,
    pub direction: u32,
    pub lent: usize,
}

/// What a call returned, and the lent buffer after it.
#[derive(Debug, PartialEq, Eq)]
pub struct Outcome {
    pub returned: u32,
    pub buf: Vec<u8>,
}

/// The memory of a call's input and of its lent buffer.
#[derive(Default)]
pub struct Memory {
    input: GuardedMemory,
    lent: GuardedMemory,
}

impl Memory {
    /// For inputs of up to so many bytes.
    pub fn holding(bytes: usize) -> Self {
        Memory { input: GuardedMemory::holding(bytes), ..Memory::default() }
    }
}

/// Where input and lent buffer lie in their memory, and from which byte the lent buffer is filled before the call.
#[derive(Clone, Copy, Debug)]
pub struct Placement {
    pub input: Side,
    pub lent: Side,
    pub fill: u8,
}

impl Placement {
    pub const AT_END: Placement = Placement { input: Side::End, lent: Side::End, fill: 0x5b };

    pub fn random(random: &mut Random) -> Self {
        let sides = [Side::Start, Side::End];
        Placement { input: random.of(&sides), lent: random.of(&sides), fill: random.u8() }
    }
}

pub trait Call: Debug {
    /// The message or the list.
    fn input(&self) -> &[u8];
    /// The lent buffer's length.
    fn lent(&self) -> usize;
    fn on_library(&self, input: &[u8], buf: &mut [u8]) -> u32;
    fn on_model(&self, buf: &mut [u8]) -> u32;

    /// The library's outcome. Panics where the input or a byte around it or around the lent buffer was written.
    fn outcome(&self, memory: &mut Memory, placement: Placement) -> Outcome {
        let input = memory.input.place(self.input(), placement.input);
        let mut lent = memory.lent.place(&filled(self.lent(), placement.fill), placement.lent);
        let returned = self.on_library(input.values(), lent.values_mut());
        assert!(input.values() == self.input(), "the input was written: {self:02x?}");
        assert!(input.guard_is_whole(), "a byte around the input was written: {self:02x?}");
        assert!(lent.guard_is_whole(), "a byte around the lent buffer was written: {self:02x?}");
        Outcome { returned, buf: lent.values().to_vec() }
    }

    /// The library's outcome. Panics where it is not the model's.
    fn compared(&self, memory: &mut Memory, placement: Placement) -> Outcome {
        let outcome = self.outcome(memory, placement);
        self.assert_model(&outcome, placement.fill);
        outcome
    }

    /// As `compared`, with the input and the lent buffer in heap memory of just their length, so that valgrind sees a
    /// byte read or written outside them.
    fn compared_on_heap(&self, fill: u8) -> Outcome {
        let (input, mut buf) = (Box::<[u8]>::from(self.input()), filled(self.lent(), fill).into_boxed_slice());
        let returned = self.on_library(&input, &mut buf);
        assert!(*input == *self.input(), "the input was written: {self:02x?}");
        let outcome = Outcome { returned, buf: buf.into_vec() };
        self.assert_model(&outcome, fill);
        outcome
    }

    fn assert_model(&self, outcome: &Outcome, fill: u8) {
        let mut buf = filled(self.lent(), fill);
        let returned = self.on_model(&mut buf);
        assert!(
            outcome.returned == returned && outcome.buf == buf,
            "{self:02x?}, {fill:02x}\nlibrary: {} {:02x?}\n  model: {returned} {buf:02x?}",
            outcome.returned,
            outcome.buf
        );
    }
}

/// A lent buffer before the call: each byte differs from its neighbours.
fn filled(length: usize, fill: u8) -> Vec<u8> {
    (0..length).map(|i| fill.wrapping_add((i % 253) as u8 ^ 0x80)).collect()
}

impl Call for Look {
    fn input(&self) -> &[u8] {
        &self.msg
    }

    fn lent(&self) -> usize {
        self.lent
    }

    fn on_library(&self, msg: &[u8], buf: &mut [u8]) -> u32 {
        crate::look(msg, self.agreed, self.formats, buf)
    }

    fn on_model(&self, buf: &mut [u8]) -> u32 {
        model::look_in_c(&self.msg, self.agreed, self.formats, buf)
    }
}

impl Call for Cut {
    fn input(&self) -> &[u8] {
        &self.list
    }

    fn lent(&self) -> usize {
        self.lent
    }

    fn on_library(&self, list: &[u8], buf: &mut [u8]) -> u32 {
        crate::cut(list, self.limits, self.r, self.handed, buf)
    }

    fn on_model(&self, buf: &mut [u8]) -> u32 {
        model::cut_in_c(&self.list, self.limits, self.r, self.handed, buf)
    }
}

impl Call for Trace {
    fn input(&self) -> &[u8] {
        &self.msg
    }

    fn lent(&self) -> usize {
        self.lent
    }

    fn on_library(&self, msg: &[u8], buf: &mut [u8]) -> u32 {
        crate::trace(msg, self.direction, buf)
    }

    fn on_model(&self, buf: &mut [u8]) -> u32 {
        model::trace_in_c(&self.msg, self.direction, buf)
    }
}
