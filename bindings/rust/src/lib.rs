//! Tamqoret: proved fixed-point numbers for hearing aids, from Rust.
//!
//! This crate calls the archive `libcapi.a`, whose every function is proved against a written definition; it adds types, and nothing that
//! computes. It has no dependencies, uses no `std` and allocates nothing.
//!
//! A format is a width and fraction bits, [`signed::Format`] or [`unsigned::Format`], with a constant for each that is named as the crate
//! `fixed` names its type: [`signed::I1F15`], [`unsigned::U0F16`]. A raw is an `i64` or a `u64`, and the raw `r` stands for `r / 2^frac`. What
//! computes is a method of the format, in four manners that are named as in `fixed`: `add` is strict and refuses what does not fit,
//! `saturating_add` holds it to the nearer end of the range, `wrapping_add` wraps it, and `overflowing_add` says that it did.
//!
//! ```
//! use tamqoret::{Error, signed::I1F15};
//! let half = I1F15.read("0.5", 10)?;
//! assert_eq!(half, 16384);
//! assert_eq!(I1F15.add(half, half), Err(Error::Overflow));
//! assert_eq!(I1F15.saturating_add(half, half), Ok(32767));
//! assert_eq!(I1F15.wrapping_add(half, half), Ok(-32768));
//! assert_eq!(I1F15.overflowing_add(half, half), Ok((-32768, true)));
//! # Ok::<(), Error>(())
//! ```
//!
//! [`fitting()`] reads the taps of a fitting file, [`headroom()`] says whether they can ever clip, and [`Filter`] runs blocks of samples.
//!
//! To build: `tools/archive capi` in the repository writes the archive; `cargo test --offline` here links it from `target/staticlib`, or
//! from the folder that `TAMQORET_LIB` names.

#![no_std]
#![warn(missing_docs)]

mod answer;
mod error;
mod family;
mod filter;
mod fitting;
pub mod signed;
mod text;
pub mod unsigned;

pub use error::{Error, FileError};
pub use filter::{Filter, Raws, State, TAPS, Verdict, headroom, run};
pub use fitting::{Entry, List, fitting, fitting_list};
pub use text::{LONGEST, Text};
