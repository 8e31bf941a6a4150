//! Memory for a call's argument, between two pages that cannot be touched. The argument lies at the memory's start or
//! at its end, so that a byte read or written past that side faults; the rest is compared after the call.

use std::marker::PhantomData;
use std::ops::Range;
use std::{mem, ptr, slice};

const PAGE: usize = 4096;

// From the C library that std links; the constants are those of Linux.
extern "C" {
    fn mmap(at: *mut u8, length: usize, protection: i32, flags: i32, file: i32, offset: i64) -> *mut u8;
    fn mprotect(at: *mut u8, length: usize, protection: i32) -> i32;
    fn munmap(at: *mut u8, length: usize) -> i32;
}
const NO_ACCESS: i32 = 0;
const READ_WRITE: i32 = 3;
const PRIVATE_ANONYMOUS: i32 = 0x22;
const NO_RESERVE: i32 = 0x4000;

/// Fresh memory, zeros where it may be read.
fn mapped(length: usize, protection: i32, flags: i32) -> *mut u8 {
    // SAFETY: a mapping of its own, which overlaps no other.
    let at = unsafe { mmap(ptr::null_mut(), length, protection, PRIVATE_ANONYMOUS | flags, -1, 0) };
    assert_ne!(at as isize, -1, "mmap");
    at
}

/// Memory that starts with these values, and of which only what is touched costs anything. It stays until the end.
pub fn reserved<T: Number>(count: usize, start: &[T]) -> &'static mut [T] {
    let at = mapped(count * mem::size_of::<T>(), READ_WRITE, NO_RESERVE);
    // SAFETY: as long, and any bytes are numbers.
    let memory = unsafe { slice::from_raw_parts_mut(at.cast::<T>(), count) };
    memory[..start.len()].copy_from_slice(start);
    memory
}

#[derive(Clone, Copy, Debug, PartialEq, Eq)]
pub enum Side {
    Start,
    End,
}

pub struct GuardedMemory {
    mapping: *mut u8,
    memory: *mut u8,
    /// What the memory holds around an argument.
    guard: Vec<u8>,
    /// Where the last argument lay.
    used: Range<usize>,
}

impl GuardedMemory {
    /// Of so many pages as hold these bytes.
    pub fn holding(bytes: usize) -> Self {
        let bytes = bytes.next_multiple_of(PAGE);
        // Never 0, and unlike its neighbours.
        let guard: Vec<u8> = (0..bytes).map(|i| (i % 251) as u8 + 1).collect();
        let mapping = mapped(bytes + 2 * PAGE, NO_ACCESS, 0);
        // SAFETY: of the mapping all but the first and the last page is opened.
        unsafe {
            let memory = mapping.add(PAGE);
            assert_eq!(mprotect(memory, bytes, READ_WRITE), 0, "mprotect");
            slice::from_raw_parts_mut(memory, bytes).copy_from_slice(&guard);
            GuardedMemory { mapping, memory, guard, used: 0..0 }
        }
    }

    /// Lays out `values` at that side of the memory, guard bytes beside them. Pages are aligned for all of them.
    pub fn place<T: Number>(&mut self, values: &[T], side: Side) -> Placed<'_, T> {
        let length = mem::size_of_val(values);
        let at = if side == Side::Start { 0 } else { self.guard.len() - length };
        let used = mem::replace(&mut self.used, at..at + length);
        // SAFETY: the memory is lent to nobody else meanwhile.
        let memory = unsafe { slice::from_raw_parts_mut(self.memory, self.guard.len()) };
        memory[used.clone()].copy_from_slice(&self.guard[used]);
        let mut placed = Placed { within: self, values: PhantomData };
        placed.values_mut().copy_from_slice(values);
        placed
    }
}

impl Default for GuardedMemory {
    /// More than any message that is tried.
    fn default() -> Self {
        GuardedMemory::holding(3 * PAGE)
    }
}

impl Drop for GuardedMemory {
    fn drop(&mut self) {
        // SAFETY: the mapping that new made.
        unsafe { munmap(self.mapping, self.guard.len() + 2 * PAGE) };
    }
}

/// What arguments are made of.
pub trait Number: Copy {}
impl Number for u8 {}
impl Number for u32 {}
impl Number for u64 {}

/// An argument in its memory.
pub struct Placed<'a, T> {
    within: &'a mut GuardedMemory,
    values: PhantomData<T>,
}

impl<T: Number> Placed<'_, T> {
    fn at(&self) -> *mut T {
        // SAFETY: place has laid it out inside the memory.
        unsafe { self.within.memory.add(self.within.used.start).cast() }
    }

    fn count(&self) -> usize {
        self.within.used.len() / mem::size_of::<T>()
    }

    pub fn values(&self) -> &[T] {
        // SAFETY: as above, aligned, and any bytes are a number.
        unsafe { slice::from_raw_parts(self.at(), self.count()) }
    }

    pub fn values_mut(&mut self) -> &mut [T] {
        // SAFETY: as above.
        unsafe { slice::from_raw_parts_mut(self.at(), self.count()) }
    }

    /// Whether every byte of the memory beside the argument is as it was.
    pub fn guard_is_whole(&self) -> bool {
        let (guard, used) = (&self.within.guard, &self.within.used);
        // SAFETY: the memory is lent to nobody else meanwhile.
        let memory = unsafe { slice::from_raw_parts(self.within.memory, guard.len()) };
        memory[..used.start] == guard[..used.start] && memory[used.end..] == guard[used.end..]
    }
}
