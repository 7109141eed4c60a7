//! The classes of texts on which S computes another number than the one written: docs/DIFFERENCES.md, one by one.
//!
//! A predicate speaks of the text and the format only, never of what S answered, so that a difference is
//! explained by its cause. A difference outside every class is a failure.

use crate::format::{Format, Reader};
use crate::natural::Natural;
use crate::scan::Written;

/// One question, and what its text says if it is a number.
pub struct Occasion<'a> {
    pub text: &'a [u8],
    pub reader: Reader,
    pub format: Format,
    pub written: Option<&'a Written>,
}

#[derive(Clone, Copy, Debug, PartialEq, Eq)]
pub enum Class {
    CutTie,
    QuarterAndMore,
    NoWholeBits,
    HexLetter,
    HexShift,
    FalseHalf,
    MissedHalf,
    FirstDigit,
}

impl Class {
    pub const ALL: [Class; 8] = [
        Class::CutTie,
        Class::QuarterAndMore,
        Class::NoWholeBits,
        Class::HexLetter,
        Class::HexShift,
        Class::FalseHalf,
        Class::MissedHalf,
        Class::FirstDigit,
    ];

    /// The class that explains a difference here; the first one if several do.
    pub fn of(occasion: &Occasion) -> Option<Class> {
        let moved = Moved::of(occasion.written?);
        Class::ALL.into_iter().find(|class| class.holds(&moved, occasion.format))
    }

    fn holds(self, moved: &Moved, format: Format) -> bool {
        match self {
            Class::CutTie => cut_tie(moved, format),
            Class::QuarterAndMore => moved.radix == 10 && format.frac == 1 && moved.fraction_is(&[2, 5, 1]),
            Class::NoWholeBits => format.frac == format.width && moved.bits != 0 && moved.no_whole,
            Class::HexLetter => whole_from_fraction(moved) && moved.first_digit() > 9,
            Class::HexShift => whole_from_fraction(moved) && moved.first_digit() >> (3 - moved.bits) != 0,
            Class::FalseHalf => format.frac == 0 && moved.bits == 1 && moved.fraction_is(&[(moved.radix / 2) as u8]),
            Class::MissedHalf => format.frac == 0 && moved.bits != 0 && half_above_odd(moved),
            Class::FirstDigit => {
                !moved.fraction.is_empty() && moved.bits != 0 && format.frac < moved.digit_bits - moved.bits
            }
        }
    }
}

/// The digits as S holds them: the exponent moved the point, as far as whole digits go; `bits` is what is left of an
/// exponent of `p`, 0 to 2 in radix 8 and 0 to 3 in radix 16.
struct Moved<'a> {
    radix: u32,
    digit_bits: u32,
    bits: u32,
    /// No digit before the point but zeros.
    no_whole: bool,
    /// The digits after the point: so many zeros, then these, without zeros at the end.
    zeros: u64,
    fraction: &'a [u8],
}

impl Moved<'_> {
    fn of(written: &Written) -> Moved<'_> {
        let digit_bits = written.radix.trailing_zeros();
        let counts_bits = written.base != written.radix;
        let exponent = i64::from(written.exponent);
        let (shift, bits) = match counts_bits {
            true => (exponent.div_euclid(i64::from(digit_bits)), exponent.rem_euclid(i64::from(digit_bits))),
            false => (exponent, 0),
        };
        let point = (written.digits.len() - written.places) as i64 + shift;
        let (whole, fraction) = written.digits.split_at(point.clamp(0, written.digits.len() as i64) as usize);
        let end = fraction.iter().rposition(|digit| *digit != 0).map_or(0, |last| last + 1);
        Moved {
            radix: written.radix,
            digit_bits,
            bits: bits as u32,
            no_whole: whole.iter().all(|digit| *digit == 0),
            zeros: (-point).max(0) as u64,
            fraction: &fraction[..end],
        }
    }

    fn fraction_is(&self, digits: &[u8]) -> bool {
        self.zeros == 0 && self.fraction == digits
    }

    fn first_digit(&self) -> u8 {
        if self.zeros > 0 { 0 } else { self.fraction.first().copied().unwrap_or(0) }
    }
}

/// In radix 16, with nothing before the point, S takes the whole part, which is `digit >> (4 - bits)`, from the first
/// digit's byte less `0`, shifted by 3 - bits: wrong for a letter, and for a digit as soon as that is not zero.
fn whole_from_fraction(moved: &Moved) -> bool {
    moved.radix == 16 && moved.bits != 0 && moved.no_whole
}

/// The fraction's only digit gives an odd bit to the whole part and leaves exactly one half.
fn half_above_odd(moved: &Moved) -> bool {
    let left = moved.digit_bits - moved.bits;
    moved.zeros == 0 && moved.fraction.len() == 1 && moved.first_digit() & ((2 << left) - 1) == 3 << (left - 1)
}

/// Decimal digits that S takes in one group, by the bits of the fraction.
fn group(frac: u32) -> usize {
    match frac {
        0..=8 => 3,
        9..=16 => 6,
        17..=32 => 13,
        _ => 27,
    }
}

/// More digits than one group, and they end before the tie above them does, having been equal to its digits so far:
/// S takes the number for the tie itself, and an odd floor then goes up.
fn cut_tie(moved: &Moved, format: Format) -> bool {
    // a tie has frac + 1 digits, so a longer text is not cut
    let length = moved.zeros as usize + moved.fraction.len();
    if moved.radix != 10 || moved.fraction.is_empty() || length <= group(format.frac) || length > format.frac as usize {
        return false;
    }
    let digits: Vec<u8> = std::iter::repeat_n(0, moved.zeros as usize).chain(moved.fraction.iter().copied()).collect();
    let floor = floor_of_fraction(&digits, format.frac);
    floor % 2 == 1 && digits == tie_above(floor, format.frac, length)
}

/// floor(0.digits x 2^frac)
fn floor_of_fraction(digits: &[u8], frac: u32) -> u64 {
    let mut number = Natural::default();
    for digit in digits {
        number.multiply_add(10, u64::from(*digit));
    }
    number.double(u64::from(frac));
    for _ in digits {
        number.divide(10);
    }
    number.low()
}

/// The first `length` decimal digits of (floor + 1/2) / 2^frac.
fn tie_above(floor: u64, frac: u32, length: usize) -> Vec<u8> {
    let one = 1u128 << (frac + 1);
    let mut rest = 2 * u128::from(floor) + 1;
    let mut digits = Vec::with_capacity(length);
    for _ in 0..length {
        rest *= 10;
        digits.push((rest / one) as u8);
        rest %= one;
    }
    digits
}
