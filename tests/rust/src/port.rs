//! Calls on a port, on the library and on the model.

pub mod both;
pub mod call;
pub mod crowd;
pub mod frame;
pub mod garbage;
pub mod generate;
pub mod heap;
pub mod kinds;
pub mod library;
pub mod machine;
pub mod plain;
pub mod rows;
pub mod side_by_side;
pub mod slots;
pub mod waiting;

pub use call::{Call, Outcome, Target};
