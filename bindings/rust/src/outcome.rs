//! The words of a call's outcome, read as answers. By the library's contract each is in its range; a refusal or a kind
//! that is not declared panics.

use srp_target_sys::{KIND_COMMAND, KIND_CREDIT_RESPONSE, KIND_LOGOUT, KIND_TASK, RDMA_READ, RDMA_WRITE};

use crate::answer::{Kind, Operation, Step, Taken, Turn};
use crate::argument::Direction;
use crate::ffi::Outcome;
use crate::message::Message;
use crate::refusal::Refusal;

/// The refusal that a call returned, if any.
pub fn checked(number: u32) -> Result<(), Refusal> {
    if number == 0 {
        return Ok(());
    }
    Err(Refusal::try_from(number).expect("libexports.a returns the refusals that are declared"))
}

/// The message that a call wrote.
pub fn written<'b>(buf: &'b mut [u8], outcome: &Outcome) -> Message<'b> {
    Message(&buf[..outcome.words[0] as usize])
}

/// What an unrefused take took.
pub fn taken<'m, 'b>(outcome: &Outcome, msg: &'m [u8], message: Message<'b>) -> Taken<'m, 'b> {
    let [_, kind, tag, lun, place, length, waits, _] = outcome.words;
    match kind {
        KIND_COMMAND => Taken::Command { tag, lun, cdb: &msg[place as usize..][..length as usize], waits: waits != 0 },
        KIND_TASK => Taken::Task { tag, lun, message },
        KIND_CREDIT_RESPONSE => Taken::Credit,
        KIND_LOGOUT => Taken::Logout,
        _ => unreachable!("libexports.a took a message of kind {kind}"),
    }
}

fn kind_of(number: u64) -> Kind {
    match number {
        RDMA_READ => Kind::Read,
        RDMA_WRITE => Kind::Write,
        _ => unreachable!("libexports.a handed out an operation of kind {number}"),
    }
}

/// What an unrefused step came to.
pub fn stepped(outcome: &Outcome) -> Step {
    Step { operation: operation(outcome), number: outcome.words[6] as u32 }
}

/// What an unrefused turn handed out, or none where it says idle.
pub fn turned(outcome: &Outcome) -> Option<Turn> {
    let [.., number, tag] = outcome.words;
    operation(outcome).map(|operation| {
        let direction = match operation.kind {
            Kind::Read => Direction::Out,
            Kind::Write => Direction::In,
        };
        Turn { tag, direction, operation, number: number as u32 }
    })
}

/// The operation of an unrefused step or turn, or none where it says done or idle.
fn operation(outcome: &Outcome) -> Option<Operation> {
    let [1, kind, handle, address, length, offset, ..] = outcome.words else {
        return None;
    };
    Some(Operation {
        kind: kind_of(kind),
        handle: handle as u32,
        address,
        length: length as u32,
        offset: offset as u32,
    })
}
