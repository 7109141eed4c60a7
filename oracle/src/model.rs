//! The exact model: the answer that document 01 asks for, by big naturals.

use crate::format::{Answer, Format, LONGEST_TEXT, OVERFLOWING, RADIXES, Reader, SATURATING, STRICT, WRAPPING};
use crate::natural::Natural;
use crate::scan::{Written, scan};

/// The largest power of five that is one place of a `Natural`.
const FIVES_AT_ONCE: u64 = 27;

/// The number written, without its sign: `digits` x 2^twos x 5^fives. Every base here is a product of twos and fives.
pub struct Exact {
    negative: bool,
    digits: Natural,
    twos: i64,
    fives: i64,
}

/// The exact number of steps, rounded to an integer.
pub struct Rounded {
    negative: bool,
    magnitude: Natural,
}

impl Exact {
    pub fn of(written: &Written) -> Exact {
        let mut digits = Natural::default();
        for digit in &written.digits {
            digits.multiply_add(u64::from(written.radix), u64::from(*digit));
        }
        let (radix_twos, radix_fives) = twos_and_fives(written.radix);
        let (base_twos, base_fives) = twos_and_fives(written.base);
        let places = written.places as i64;
        let exponent = held(written);
        Exact {
            negative: written.negative,
            digits,
            twos: base_twos * exponent - radix_twos * places,
            fives: base_fives * exponent - radix_fives * places,
        }
    }

    /// |t| x 2^frac rounded to nearest, ties to even. The floor of twice that number and whether something is left
    /// below it decide: an odd floor is half a step too many.
    pub fn rounded(&self, frac: u32) -> Rounded {
        let mut twice = self.digits.clone();
        let twos = self.twos + i64::from(frac) + 1;
        times_fives(&mut twice, self.fives);
        twice.double(twos.max(0) as u64);
        let below_fives = over_fives(&mut twice, -self.fives);
        let below_twos = twice.halve((-twos).max(0) as u64);
        let past_half = below_fives || below_twos;
        let half = twice.halve(1);
        if half && (past_half || twice.is_odd()) {
            twice.multiply_add(1, 1);
        }
        Rounded { negative: self.negative, magnitude: twice }
    }
}

/// The exponent, brought near enough that the number can be written out. Above 64 + 4 x places the number is 0 or a
/// multiple of 2^64 that no format holds; below -(66 + 4 x digits) it is less than a quarter of the smallest step.
fn held(written: &Written) -> i64 {
    let most = 64 + 4 * written.places as i64;
    let least = -(66 + 4 * written.digits.len() as i64);
    i64::from(written.exponent).clamp(least, most)
}

fn twos_and_fives(base: u32) -> (i64, i64) {
    match base {
        10 => (1, 1),
        _ => (i64::from(base.trailing_zeros()), 0),
    }
}

fn times_fives(number: &mut Natural, mut count: i64) {
    while count > 0 {
        let now = count.min(FIVES_AT_ONCE as i64);
        number.multiply_add(5u64.pow(now as u32), 0);
        count -= now;
    }
}

fn over_fives(number: &mut Natural, mut count: i64) -> bool {
    let mut left_over = false;
    while count > 0 {
        let now = count.min(FIVES_AT_ONCE as i64);
        left_over |= number.divide(5u64.pow(now as u32));
        count -= now;
    }
    left_over
}

/// A rounded number in a format and the reader's manner.
pub fn settle(rounded: &Rounded, format: Format, reader: Reader) -> Answer {
    let manner = match reader {
        Reader::Plain { manner, .. } => manner,
        Reader::Literal => STRICT,
    };
    let Rounded { negative, magnitude } = rounded;
    let wrapped = wrap(*negative, magnitude.low(), format);
    let fits = fits(*negative, magnitude, format);
    match manner {
        SATURATING if !fits => Answer::done(if *negative { format.lowest() } else { format.highest() }, false),
        WRAPPING => Answer::done(wrapped, false),
        OVERFLOWING => Answer::done(wrapped, !fits),
        _ if !fits => Answer::refused(10),
        _ => Answer::done(wrapped, false),
    }
}

fn fits(negative: bool, magnitude: &Natural, format: Format) -> bool {
    let furthest = if negative { -format.lowest() } else { format.highest() };
    magnitude.small().is_some_and(|magnitude| i128::from(magnitude) <= furthest)
}

/// The raw congruent to the number modulo 2^W; the magnitude's low 64 bits are enough for that.
fn wrap(negative: bool, low: u64, format: Format) -> i128 {
    let number = if negative { -i128::from(low) } else { i128::from(low) };
    let modulus = 1i128 << format.width;
    let residue = number.rem_euclid(modulus);
    if residue > format.highest() { residue - modulus } else { residue }
}

/// The answer to a text, refusals of the format, the radix and the length included.
pub fn answer(text: &[u8], reader: Reader, format: Format) -> Answer {
    if let Some(number) = refusal(text, reader, format) {
        return Answer::refused(number);
    }
    match scan(text, reader, format.signed) {
        Ok(written) => settle(&Exact::of(&written).rounded(format.frac), format, reader),
        Err(number) => Answer::refused(number),
    }
}

/// Refusals 1 to 4, in document 01's order.
pub fn refusal(text: &[u8], reader: Reader, format: Format) -> Option<u32> {
    let unknown_radix = matches!(reader, Reader::Plain { radix, .. } if !RADIXES.contains(&radix));
    let of_text = if unknown_radix {
        Some(3)
    } else if text.len() > LONGEST_TEXT {
        Some(4)
    } else {
        None
    };
    format.refusal().or(of_text)
}

/// The greatest k with 10^k <= raw / 2^frac, by trying; 32 where there is none.
pub fn log10(raw: i128, format: Format) -> Answer {
    if let Some(number) = format.refusal() {
        return Answer::refused(number);
    }
    if raw <= 0 {
        return Answer::refused(32);
    }
    let one = 1i128 << format.frac;
    let mut k = 0;
    let mut power = one;
    while power <= raw / 10 {
        power *= 10;
        k += 1;
    }
    let mut scaled = raw;
    while scaled < one {
        scaled *= 10;
        k -= 1;
    }
    Answer::done(k, false)
}
