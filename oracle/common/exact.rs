//! Exact results as a sign and a size of 128 bits, and what a format and a manner make of them, in the words of document 01.

use super::format::{Answer, Format, OVERFLOWING, SATURATING, WRAPPING};

#[derive(Clone, Copy, Debug)]
pub struct Exact {
    pub neg: bool,
    pub size: u128,
}

impl Exact {
    pub fn of(n: i128) -> Exact {
        Exact { neg: n < 0, size: n.unsigned_abs() }
    }

    /// The floor of a x b / 2^F: the size is rounded up where the product is negative.
    pub fn product(a: i128, b: i128, frac: u32) -> Exact {
        let neg = (a < 0) != (b < 0) && a != 0 && b != 0;
        let size = a.unsigned_abs() * b.unsigned_abs();
        let lost = size & ((1u128 << frac) - 1) != 0;
        Exact { neg, size: (size >> frac) + u128::from(neg && lost) }
    }

    fn fits(self, format: Format) -> bool {
        self.size <= if self.neg { format.lowest().unsigned_abs() } else { format.highest() as u128 }
    }

    /// The raw congruent to the number modulo 2^W.
    pub fn wrapped(self, Format { signed, width, .. }: Format) -> i128 {
        let low = if self.neg { self.size.wrapping_neg() } else { self.size } & ((1u128 << width) - 1);
        match signed && low >> (width - 1) == 1 {
            true => low as i128 - (1i128 << width),
            false => low as i128,
        }
    }

    /// The number in the format, in the manner.
    pub fn settled(self, format: Format, manner: u32) -> Answer {
        let fits = self.fits(format);
        match manner {
            SATURATING if !fits => Answer::done(if self.neg { format.lowest() } else { format.highest() }, false),
            SATURATING | WRAPPING => Answer::done(self.wrapped(format), false),
            OVERFLOWING => Answer::done(self.wrapped(format), !fits),
            _ if fits => Answer::done(self.wrapped(format), false),
            _ => Answer::refused(10),
        }
    }
}
