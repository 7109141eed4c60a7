//! Why a call was refused.

use core::fmt;

/// `errors! { Name = number, "what it says"; .. }`
macro_rules! errors {
    ($($name:ident = $number:literal, $says:literal;)*) => {
        /// A refusal. [`Error::number`] is its number in the C interface and in the project's documents.
        #[derive(Clone, Copy, Debug, PartialEq, Eq, Hash)]
        #[non_exhaustive]
        pub enum Error {
            $(#[doc = $says] $name,)*
            /// a number that this crate does not know
            Unknown(u32),
        }

        impl Error {
            /// The refusal's number.
            pub const fn number(self) -> u32 {
                match self {
                    $(Error::$name => $number,)*
                    Error::Unknown(number) => number,
                }
            }

            /// The refusal with a number that is not 0.
            pub const fn of(number: u32) -> Error {
                match number {
                    $($number => Error::$name,)*
                    _ => Error::Unknown(number),
                }
            }
        }

        impl fmt::Display for Error {
            fn fmt(&self, f: &mut fmt::Formatter<'_>) -> fmt::Result {
                match self {
                    $(Error::$name => f.write_str($says),)*
                    Error::Unknown(number) => write!(f, "refusal {number}"),
                }
            }
        }
    };
}

errors! {
    WrongWidth = 1, "the width is not 8, 16, 32 or 64";
    WrongFrac = 2, "more fraction bits than the width has";
    WrongRadix = 3, "the radix is not 2, 8, 10 or 16";
    TooLong = 4, "a text above 4096 bytes, or a fitting file above 16384";
    WrongLength = 5, "an output buffer is too small, or lists are of unequal length";
    Overflow = 10, "overflow";
    NoDigits = 11, "no digits";
    MisplacedSign = 12, "a misplaced sign";
    InvalidDigit = 13, "an invalid digit";
    MisplacedUnderscore = 14, "a misplaced underscore";
    TooManyPoints = 15, "too many points";
    ExpInvalidDigit = 16, "an invalid digit in the exponent";
    ExpNoDigits = 17, "an exponent without digits";
    TooManyExp = 18, "too many exponents";
    ExpOverflow = 19, "the exponent is outside -2^31 to 2^31 - 1";
    NotFinite = 30, "NaN, or an infinity outside the saturating manner";
    ZeroDivisor = 31, "a zero divisor";
    NotPositive = 32, "logarithm of zero or of a negative number";
    WrongTaps = 40, "taps are not 1 to 64";
    TooManyValues = 41, "the fitting file holds more than 64 values";
}

impl core::error::Error for Error {}

/// Why a fitting file was refused.
#[derive(Clone, Copy, Debug, PartialEq, Eq, Hash)]
pub enum FileError {
    /// The file as a whole, or the buffers.
    File(Error),
    /// A line is refused (number 42).
    Line {
        /// the first such line, from 1
        line: u32,
        /// why
        error: Error,
    },
}

impl FileError {
    /// The refusal's number: 42 for a line.
    pub const fn number(self) -> u32 {
        match self {
            FileError::File(error) => error.number(),
            FileError::Line { .. } => 42,
        }
    }
}

impl fmt::Display for FileError {
    fn fmt(&self, f: &mut fmt::Formatter<'_>) -> fmt::Result {
        match self {
            FileError::File(error) => error.fmt(f),
            FileError::Line { line, error } => write!(f, "line {line}: {error}"),
        }
    }
}

impl core::error::Error for FileError {}
