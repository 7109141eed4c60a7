//! S's own files, compiled unchanged from the folder named by S_FOLDER at build time, and what they need around them.
//!
//! This file is the root of a crate of its own, so that `crate::..` in S's files means what it says there.
//! The stubs stand for the parts of S that reading a text never runs: the number types exist only because
//! from_str.rs implements `FromStr` for them.
#![allow(dead_code)]

pub mod bytes {
    include!(concat!(env!("S_FOLDER"), "/bytes.rs"));
}
pub mod from_str {
    include!(concat!(env!("S_FOLDER"), "/from_str.rs"));
}
pub mod int256 {
    include!(concat!(env!("S_FOLDER"), "/int256.rs"));
}
pub mod log10 {
    include!(concat!(env!("S_FOLDER"), "/log10.rs"));
}

pub mod types {
    pub mod extra {
        pub trait LeEqU8 {}
        pub trait LeEqU16 {}
        pub trait LeEqU32 {}
        pub trait LeEqU64 {}
        pub trait LeEqU128 {}
    }
}

macro_rules! stub_of_a_number_type {
    ($($Fixed:ident)*) => {$(
        pub struct $Fixed<Frac>(core::marker::PhantomData<Frac>);

        impl<Frac> $Fixed<Frac> {
            fn from_str(_: &str) -> Result<Self, from_str::ParseFixedError> {
                unreachable!("the harness calls the functions of from_str.rs")
            }
        }
    )*};
}
stub_of_a_number_type! { FixedI8 FixedI16 FixedI32 FixedI64 FixedI128 FixedU8 FixedU16 FixedU32 FixedU64 FixedU128 }

/// The number of document 01's table for S's kind of error. The kind itself is private to from_str.rs; its message is not.
fn number_of(error: from_str::ParseFixedError) -> u32 {
    match error.message() {
        "overflow" => 10,
        "string has no digits" => 11,
        "misplaced sign found in string" => 12,
        "invalid digit found in string" => 13,
        "misplaced underscore found in string" => 14,
        "more than one point found in string" => 15,
        "invalid digit found in exponent" => 16,
        "exponent has no digits" => 17,
        "more than one exponent found" => 18,
        "exponent overflow" => 19,
        other => unreachable!("S has a kind of error that document 01 does not number: {other}"),
    }
}

/// The raw and the flag, or the number of the refusal.
pub type Reading = Result<(i128, bool), u32>;

macro_rules! by_format {
    ($signed:expr, $width:expr, $function:ident, $($argument:expr),*) => {
        match ($signed, $width) {
            (true, 8) => $function!(i8, $($argument),*),
            (true, 16) => $function!(i16, $($argument),*),
            (true, 32) => $function!(i32, $($argument),*),
            (true, 64) => $function!(i64, $($argument),*),
            (false, 8) => $function!(u8, $($argument),*),
            (false, 16) => $function!(u16, $($argument),*),
            (false, 32) => $function!(u32, $($argument),*),
            (false, 64) => $function!(u64, $($argument),*),
            _ => unreachable!("no such width"),
        }
    };
}

macro_rules! plain {
    ($Int:ident, $text:expr, $radix:expr, $frac:expr, $manner:expr) => {
        match $manner {
            0 => unflagged(from_str::$Int::from_str_radix($text, $radix, $frac).map(i128::from)),
            1 => unflagged(from_str::$Int::saturating_from_str_radix($text, $radix, $frac).map(i128::from)),
            2 => unflagged(from_str::$Int::wrapping_from_str_radix($text, $radix, $frac).map(i128::from)),
            _ => match from_str::$Int::overflowing_from_str_radix($text, $radix, $frac) {
                Ok((raw, flag)) => Ok((i128::from(raw), flag)),
                Err(error) => Err(number_of(error)),
            },
        }
    };
}

macro_rules! literal {
    ($Int:ident, $text:expr, $frac:expr) => {
        unflagged(from_str::$Int::lit($text, $frac).map(i128::from))
    };
}

fn unflagged(result: Result<i128, from_str::ParseFixedError>) -> Reading {
    match result {
        Ok(raw) => Ok((raw, false)),
        Err(error) => Err(number_of(error)),
    }
}

/// The plain reader; manners are numbered as in the C interface: strict, saturating, wrapping, overflowing.
pub fn read(signed: bool, width: u32, frac: u32, radix: u32, manner: u32, text: &[u8]) -> Reading {
    by_format!(signed, width, plain, text, radix, frac, manner)
}

/// The literal reader.
pub fn literal(signed: bool, width: u32, frac: u32, text: &[u8]) -> Reading {
    by_format!(signed, width, literal, text, frac)
}

/// log10 of a fraction below one, given as the W bits after the point; it is not zero.
pub fn log10_of_fraction(width: u32, bits: u64) -> i32 {
    use core::num::NonZero;
    const NOT_ZERO: &str = "S takes no zero here";
    match width {
        8 => log10::frac_part::u8(NonZero::new(bits as u8).expect(NOT_ZERO)),
        16 => log10::frac_part::u16(NonZero::new(bits as u16).expect(NOT_ZERO)),
        32 => log10::frac_part::u32(NonZero::new(bits as u32).expect(NOT_ZERO)),
        _ => log10::frac_part::u64(NonZero::new(bits).expect(NOT_ZERO)),
    }
}
