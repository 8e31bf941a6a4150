//! What limits a piece beside its segment's end and the move's.

/// M, and Q, 0 for none: as a login has them, and as the cut is given them.
#[derive(Clone, Copy, Debug, Default, PartialEq, Eq)]
pub struct Limits {
    pub m: u32,
    pub q: u64,
}

/// M without a boundary.
impl From<u32> for Limits {
    fn from(m: u32) -> Self {
        Limits { m, q: 0 }
    }
}
