//! Series of cases that differ in the number of segments alone.

use std::fmt;

/// What is handed out.
#[derive(Clone, Copy, Debug, PartialEq)]
pub enum Part {
    FirstPiece,
    LastByte,
}

/// A case's series, which is of a call and a part, and its number of segments.
#[derive(Clone, Copy, Debug, PartialEq)]
pub struct Series {
    pub call: &'static str,
    pub part: Part,
    pub segments: u32,
}

impl Part {
    /// Where it starts, of so many bytes.
    pub fn offset(self, required: u32) -> u32 {
        match self {
            Part::FirstPiece => 0,
            Part::LastByte => required - 1,
        }
    }
}

impl fmt::Display for Part {
    fn fmt(&self, f: &mut fmt::Formatter) -> fmt::Result {
        f.write_str(match self {
            Part::FirstPiece => "first piece",
            Part::LastByte => "last byte",
        })
    }
}

impl fmt::Display for Series {
    fn fmt(&self, f: &mut fmt::Formatter) -> fmt::Result {
        let Series { call, part, segments } = self;
        write!(f, "{call}, {part} of {segments} segment{}", if *segments == 1 { "" } else { "s" })
    }
}
