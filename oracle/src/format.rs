//! What a reader is asked, and what came of it; formats, manners and answers are those of all comparisons.

pub use crate::common::format::*;

pub const RADIXES: [u32; 4] = [2, 8, 10, 16];

/// The longest text that is read; a longer one is refused with 4. S has no such limit.
pub const LONGEST_TEXT: usize = 4096;

#[derive(Clone, Copy, Debug, PartialEq, Eq)]
pub enum Reader {
    Plain { radix: u32, manner: u32 },
    Literal,
}

/// What came of a question to S or to the port.
#[derive(Clone, Copy, Debug, PartialEq, Eq)]
pub enum Outcome {
    Answered(Answer),
    #[cfg_attr(without_s, allow(dead_code))]
    Panicked,
    /// That side was not at hand when the harness was built.
    Absent,
}
