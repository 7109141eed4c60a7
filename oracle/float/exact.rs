//! The same from IEEE 754's words, over integers: a second judge, that shares nothing with the machine's floats.

use crate::common::exact::Exact;
use crate::common::format::{Answer, Format, SATURATING};

/// Bits of the stored significand, and of the exponent.
#[derive(Clone, Copy, PartialEq)]
pub struct Kind {
    pub stored: u32,
    pub exponent: u32,
}

pub const F32: Kind = Kind { stored: 23, exponent: 8 };
pub const F64: Kind = Kind { stored: 52, exponent: 11 };

impl Kind {
    pub fn top(self) -> u64 {
        (1 << self.exponent) - 1
    }

    /// The exponent of the last place of a pattern whose exponent field is 1.
    fn lowest(self) -> i64 {
        1 - (self.top() as i64 >> 1) - i64::from(self.stored)
    }
}

/// m x 2^by rounded to nearest, ties to even; what is a multiple of 2^64 and beyond every format is 2^127.
fn scaled(m: u64, by: i64) -> u128 {
    match by {
        _ if m == 0 => 0,
        75.. => 1 << 127,
        0..=74 => u128::from(m) << by,
        -100..=-1 => {
            let down = -by as u32;
            let (kept, lost, half) = (u128::from(m) >> down, u128::from(m) & ((1 << down) - 1), 1u128 << (down - 1));
            kept + u128::from(lost > half || lost == half && kept % 2 == 1)
        }
        _ => 0,
    }
}

pub fn from(pattern: u64, kind: Kind, f: Format, manner: u32) -> Answer {
    let fraction = pattern & ((1 << kind.stored) - 1);
    let field = pattern >> kind.stored & kind.top();
    let neg = pattern >> (kind.stored + kind.exponent) & 1 == 1;
    if let Some(number) = f.refusal() {
        return Answer::refused(number);
    }
    if field == kind.top() {
        return match (fraction, manner) {
            (0, SATURATING) => Answer::done(if neg { f.lowest() } else { f.highest() }, false),
            _ => Answer::refused(30),
        };
    }
    let significand = if field == 0 { fraction } else { fraction | 1 << kind.stored };
    let place = kind.lowest() + field.max(1) as i64 - 1;
    Exact { neg, size: scaled(significand, place + i64::from(f.frac)) }.settled(f, manner)
}

/// The pattern nearest to raw / 2^F, ties to even. No raw is so small or so great that its pattern would be subnormal or infinite.
pub fn to(raw: i128, kind: Kind, f: Format) -> Answer {
    if let Some(number) = f.refusal() {
        return Answer::refused(number);
    }
    let size = raw.unsigned_abs() as u64;
    if size == 0 {
        return Answer::done(0, false);
    }
    let last = 63 - i64::from(size.leading_zeros()) - i64::from(kind.stored);
    // a significand rounded up to the next power of two carries into the exponent, as it must
    let significand = scaled(size, -last) as u64;
    let field = last - i64::from(f.frac) - kind.lowest() + 1;
    let pattern = (((field - 1) as u64) << kind.stored) + significand;
    Answer::done(i128::from(pattern | u64::from(raw < 0) << (kind.stored + kind.exponent)), false)
}
