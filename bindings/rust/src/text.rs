//! The text of a number.

use core::fmt;
use core::ops::Deref;

/// The longest text of a number, in bytes.
pub const LONGEST: usize = 67;

/// The exact decimal text of a number, without an allocation; it derefs to `str`.
#[derive(Clone, Copy)]
pub struct Text {
    pub(crate) bytes: [u8; LONGEST],
    pub(crate) len: usize,
}

impl Deref for Text {
    type Target = str;

    fn deref(&self) -> &str {
        // the writer gives `-`, `.` and digits alone
        core::str::from_utf8(&self.bytes[..self.len]).unwrap_or("")
    }
}

impl fmt::Display for Text {
    fn fmt(&self, f: &mut fmt::Formatter<'_>) -> fmt::Result {
        f.pad(self)
    }
}

impl fmt::Debug for Text {
    fn fmt(&self, f: &mut fmt::Formatter<'_>) -> fmt::Result {
        fmt::Debug::fmt(&**self, f)
    }
}
