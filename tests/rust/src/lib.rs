//! The C interface of the SRP target port, called from Rust (`interface`), and what its tests need: the port, look and
//! the cut written anew from documents 01 and 02, the trace page and the format counts (`model`), calls on a port and
//! what is checked of each (`port`), generated arguments of look, the cut and the trace (`generate`), calls of the
//! format counts (`formats`), M and Q (`limits`), pieces judged byte by byte (`judge`), every list of operations for
//! some bytes (`rivals`), the piece at an offset (`search`), where in its buffer that stands (`position`), a line's
//! columns (`line`), and the rows of tests/rows (`rows`).

pub mod calls;
pub mod formats;
pub mod generate;
pub mod guarded;
pub mod interface;
pub mod judge;
pub mod limits;
pub mod line;
pub mod model;
pub mod port;
pub mod position;
pub mod random;
pub mod rivals;
pub mod rows;
pub mod search;
pub mod tally;

pub use interface::{cut, look, trace};
