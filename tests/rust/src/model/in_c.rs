//! Look and the cut in their C forms.

use super::{cut, look, Refusal};
use crate::limits::Limits;

/// "In C the answer takes 32 bytes (a shorter buffer draws 1 first)."
pub const ANSWER_BYTES: usize = 32;

/// Look in its C form: "look's two fetches, out then in, length F".
pub fn look_in_c(msg: &[u8], agreed: u32, formats: u32, buf: &mut [u8]) -> u32 {
    answer(buf, || {
        let fetches = look(msg, agreed, formats)?;
        let mut bytes = [0; ANSWER_BYTES];
        bytes[0..16].copy_from_slice(&fetches.data_out.to_bytes());
        bytes[16..32].copy_from_slice(&fetches.data_in.to_bytes());
        Ok(bytes)
    })
}

/// The cut in its C form: "the piece and then its offset (4 bytes)"; "done .. and unused bytes are 0".
pub fn cut_in_c(list: &[u8], limits: Limits, r: u32, handed: u32, buf: &mut [u8]) -> u32 {
    answer(buf, || {
        let mut bytes = [0; ANSWER_BYTES];
        if let Some(piece) = cut(list, limits, r, handed)? {
            bytes[0..16].copy_from_slice(&piece.memory.to_bytes());
            bytes[16..20].copy_from_slice(&piece.offset.to_be_bytes());
        }
        Ok(bytes)
    })
}

/// "Every other refusal returns its number and alters nothing."
fn answer(buf: &mut [u8], outcome: impl FnOnce() -> Result<[u8; ANSWER_BYTES], Refusal>) -> u32 {
    if buf.len() < ANSWER_BYTES {
        return Refusal::ShortBuffer.number();
    }
    match outcome() {
        Ok(bytes) => {
            buf[..ANSWER_BYTES].copy_from_slice(&bytes);
            0
        }
        Err(refusal) => refusal.number(),
    }
}

#[cfg(test)]
mod tests {
    use crate::calls::Call;
    use crate::rows;

    // The rows through this version: where a row fails through the C interface and not here, the library is wrong.

    #[test]
    fn look_rows() {
        rows::run_look("the model", |call, buf| call.on_model(buf));
    }

    #[test]
    fn cut_rows() {
        rows::run_cut("the model", |call, buf| call.on_model(buf));
    }
}
