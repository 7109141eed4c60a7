//! The answers as C gives them, and what Rust makes of them.

use crate::Error;

/// A number, a flag and a value of 64 bits.
#[repr(C)]
#[derive(Clone, Copy)]
pub struct Answer<T> {
    number: u32,
    flag: u32,
    value: T,
}

impl<T> Answer<T> {
    pub fn value(self) -> Result<T, Error> {
        self.flagged().map(|(value, _)| value)
    }

    pub fn flagged(self) -> Result<(T, bool), Error> {
        match self.number {
            0 => Ok((self.value, self.flag != 0)),
            number => Err(Error::of(number)),
        }
    }
}

/// The answer to a fitting file.
#[repr(C)]
#[derive(Clone, Copy)]
pub struct File {
    pub number: u32,
    pub line: u32,
    pub inner: u32,
    pub values: u32,
}
