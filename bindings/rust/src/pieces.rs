//! The pieces of a move, as an iterator.

use core::iter::FusedIterator;

use crate::answer::{Operation, Step};
use crate::argument::Direction;
use crate::port::Port;

/// The operations of a move, from [`Port::pieces`]. It has the port to itself while it lives.
#[derive(Debug)]
#[must_use = "pieces are handed out only as they are asked for"]
pub struct Pieces<'p> {
    port: &'p mut Port,
    tag: u64,
    direction: Direction,
    /// As the last step told it.
    number: u32,
}

impl<'p> Pieces<'p> {
    /// Of a move that was named: its command is open and planned, and nobody else has the port.
    pub(crate) fn new(port: &'p mut Port, tag: u64, direction: Direction) -> Self {
        Pieces { port, tag, direction, number: 0 }
    }

    /// How many operations of the move were handed out so far. At its end no other list of operations that covers the
    /// same bytes in order, each inside one segment, at most M long and across no multiple of Q, has fewer.
    pub fn number(&self) -> u32 {
        self.number
    }
}

impl Iterator for Pieces<'_> {
    type Item = Operation;

    fn next(&mut self) -> Option<Operation> {
        let step = self.port.step(self.tag, self.direction);
        let Step { operation, number } = step.expect("libexports.a refuses no step of a move that it took");
        self.number = number;
        operation
    }
}

impl FusedIterator for Pieces<'_> {}
