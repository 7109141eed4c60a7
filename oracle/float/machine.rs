//! What the machine's own arithmetic makes of patterns. Scaling by a power of two is exact here, and so are the casts of what is small enough.

use crate::common::exact::Exact;
use crate::common::format::{Answer, Format, SATURATING};

fn power(frac: u32) -> f64 {
    (1u128 << frac) as f64
}

/// From an f64, or from an f32 widened to one, which loses nothing.
pub fn from(x: f64, f: Format, manner: u32) -> Answer {
    match f.refusal() {
        Some(number) => Answer::refused(number),
        None if x.is_infinite() && manner == SATURATING => {
            Answer::done(if x < 0.0 { f.lowest() } else { f.highest() }, false)
        }
        None if !x.is_finite() => Answer::refused(30),
        None => whole((x * power(f.frac)).round_ties_even()).settled(f, manner),
    }
}

/// A float that is a whole number. From 2^127 on it is a multiple of 2^64 and beyond every format, as 2^127 is.
fn whole(y: f64) -> Exact {
    let size = if y.abs() < power(127) { y.abs() as u128 } else { 1 << 127 };
    Exact { neg: y < 0.0, size }
}

pub fn to_f32(raw: i128, f: Format) -> Answer {
    match f.refusal() {
        Some(number) => Answer::refused(number),
        None => Answer::done(i128::from((raw as f32 / power(f.frac) as f32).to_bits()), false),
    }
}

pub fn to_f64(raw: i128, f: Format) -> Answer {
    match f.refusal() {
        Some(number) => Answer::refused(number),
        None => Answer::done(i128::from((raw as f64 / power(f.frac)).to_bits()), false),
    }
}
