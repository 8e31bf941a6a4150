//! Turns, as an iterator.

use core::iter::FusedIterator;

use crate::answer::Turn;
use crate::port::Port;
use crate::refusal::Refusal;

/// The operations of all moves, each in its turn, from [`Port::turns`]. It has the port to itself while it lives, and
/// ends where no move has pieces left.
#[derive(Debug)]
#[must_use = "turns are taken only as they are asked for"]
pub struct Turns<'p>(&'p mut Port);

impl Port {
    /// Takes turns as the iterator is asked for them, until no move has pieces left. Dropped early, it leaves the rest,
    /// in its order, to further turns and to [`Port::step`]: an owner with a few free slots takes that many.
    ///
    /// # Errors
    /// Refused: 21 closed. After that no turn is refused: the iterator has the port to itself.
    ///
    /// # Examples
    /// Two commands, each with data-in of 1,300 bytes. The moves are named, and their operations come in turn:
    /// ```
    /// use srp_target::{Direction, Port, Turn};
    /// # use srp_target::{Settings, Taken, MESSAGE_BYTES};
    /// # let settings = Settings { buffers: 4, maximum: 512, boundary: 0, longest: 1364, indirect: true, solicited: false };
    /// # let (own, mut buf, mut login, mut command) = ([0xa5; 16], [0; MESSAGE_BYTES], [0; 64], [0; 64]);
    /// # login[16..20].copy_from_slice(&1364u32.to_be_bytes());
    /// # login[25] = 0x06;
    /// # login[48..64].copy_from_slice(&own);
    /// # let (mut port, _) = Port::login(&settings, &own, &login, &mut buf).unwrap();
    /// # (command[0], command[5], command[62], command[63]) = (0x02, 0x01, 5, 0x14);
    /// # for tag in [9, 10] {
    /// #     command[15] = tag;
    /// #     let Ok(Taken::Command { .. }) = port.take(&command, &mut buf) else { panic!() };
    /// # }
    /// for tag in [9, 10] {
    ///     port.plan(tag, 0, 1300)?;
    ///     port.name_move(tag, Direction::In, 0, 1300)?;
    /// }
    /// let mut posted = Vec::new();
    /// for Turn { tag, direction, operation, number } in port.turns()? { // the owner posts the operation
    ///     assert_eq!(direction, Direction::In);
    ///     posted.push((tag, operation.offset, number));
    /// }
    /// assert_eq!(posted, [(9, 0, 1), (10, 0, 1), (9, 512, 2), (10, 512, 2), (9, 1024, 3), (10, 1024, 3)]);
    /// assert_eq!(port.turn()?, None); // idle
    /// # Ok::<(), srp_target::Refusal>(())
    /// ```
    pub fn turns(&mut self) -> Result<Turns<'_>, Refusal> {
        self.counters()?; // 21 where it is closed
        Ok(Turns(self))
    }
}

impl Iterator for Turns<'_> {
    type Item = Turn;

    fn next(&mut self) -> Option<Turn> {
        self.0.turn().expect("libexports.a refuses no turn of an open channel")
    }
}

impl FusedIterator for Turns<'_> {}
