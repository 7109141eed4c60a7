//! Decimal fractions that bring the port's division of the first 27 digits to its corners.
//!
//! The port divides the number of these digits, times 2^(F-26), by D = 2 x 5^27, a number of 128 bits by one of 64. Divisions of that
//! kind take half words as digits: each digit of the quotient is guessed by the upper half of D, and mended, and a fault in this may show
//! only for one number in 2^32. So the corners are made from these equations. The model, which judges, divides otherwise.

use crate::near::neighbours;
use crate::picks::raws;
use crate::random::Random;
use crate::texts::{joined, tie_above};

const DIVISOR: u128 = 2 * 5u128.pow(27);
const UPPER_HALF: u128 = DIVISOR >> 32;
/// Above every number of 27 digits.
const PAST: u128 = 10u128.pow(27);
/// What may stand after the digits made: nothing, little, half of the last digit, nearly all of it.
const TAILS: [&[u8]; 4] = [b"", b"0000000000001", b"5", b"9999999999999"];
/// Where a tie is cut: around the 27th digit, and far behind it.
const CUTS: [usize; 4] = [26, 27, 28, 40];
/// So many tries for a first step that some 27 digits meet: at F = 64 one of 64 is.
const TRIES: usize = 400;

/// All kinds, `count` times.
pub fn fractions(random: &mut Random, frac: u32, count: u64) -> Vec<Vec<u8>> {
    let mut texts = Vec::new();
    for number in numbers(random, frac, count) {
        let digits = format!("{number:027}");
        texts.extend(TAILS.iter().map(|tail| joined(b"", b"", &[digits.as_bytes(), tail].concat())));
    }
    for raw in raws(random, 64, frac, count) {
        texts.extend(cut_ties(raw, frac));
    }
    texts
}

/// Numbers of 27 digits: at the corners of either step of the division, with a rest beside 0, the half and D, and beside 0 and 1.
fn numbers(random: &mut Random, frac: u32, count: u64) -> Vec<u128> {
    let mut numbers: Vec<u128> = (0..27).flat_map(|k| [10u128.pow(k), PAST - 10u128.pow(k)]).collect();
    for _ in 0..count {
        numbers.extend(beside(first_step(random, frac), frac));
        numbers.extend(beside(second_step(random, frac), frac));
        numbers.extend(beside(whole_quotient(random, frac), frac));
    }
    numbers
}

/// The numbers of 27 digits whose dividends are nearest to this one.
fn beside(dividend: u128, frac: u32) -> impl Iterator<Item = u128> {
    let number = if frac < 26 { dividend << (26 - frac) } else { dividend >> (frac - 26) };
    (number.saturating_sub(1)..=number + 2).filter(|number| *number < PAST)
}

/// The greatest dividend.
fn most(frac: u32) -> u128 {
    if frac < 26 { (PAST - 1) >> (26 - frac) } else { (PAST - 1) << (frac - 26) }
}

/// A dividend whose upper word is beside a multiple of the upper half of D.
fn first_step(random: &mut Random, frac: u32) -> u128 {
    let multiple = up_to(random, (most(frac) >> 64) / UPPER_HALF) * UPPER_HALF;
    (aside(random, multiple) << 64).min(most(frac))
}

/// A dividend whose first step leaves a number beside a multiple of the upper half of D, or beside 0 or D.
fn second_step(random: &mut Random, frac: u32) -> u128 {
    let top = most(frac) >> 32;
    let zeros = 1u128 << frac.saturating_sub(58);
    let mut first = 0;
    for _ in 0..TRIES {
        let multiple = up_to(random, (DIVISOR - 1) / UPPER_HALF) * UPPER_HALF;
        let place = random.pick(&[multiple, multiple, 0, DIVISOR - 2]);
        let rest = aside(random, place).min(DIVISOR - 1);
        first = (up_to(random, top / DIVISOR) * DIVISOR + rest).min(top);
        if first % zeros == 0 {
            break;
        }
    }
    first << 32
}

/// A dividend whose rest is beside 0, the half of D or D.
fn whole_quotient(random: &mut Random, frac: u32) -> u128 {
    let multiple = up_to(random, most(frac) / DIVISOR) * DIVISOR;
    (multiple + random.pick(&[0, DIVISOR / 2, DIVISOR - 1])).min(most(frac))
}

/// A number up to this one, of any size, and as often so far from the top.
fn up_to(random: &mut Random, top: u128) -> u128 {
    let number = u128::from(random.sized(64)).min(top);
    if random.one_in(2) { top - number } else { number }
}

/// The number, or one of the two next to it on either side.
fn aside(random: &mut Random, number: u128) -> u128 {
    (number + random.pick(&[0, 1, 2, 3, 4])).saturating_sub(2)
}

/// The tie above a raw, cut, with its last digit one more or less, and tails.
fn cut_ties(raw: u64, frac: u32) -> Vec<Vec<u8>> {
    let (whole, fraction) = tie_above(raw, frac, 10);
    let mut texts = Vec::new();
    for cut in CUTS.iter().filter(|cut| **cut <= fraction.len()) {
        let cut = &fraction[..*cut];
        for digits in [cut.to_vec()].into_iter().chain(neighbours(10, cut)) {
            texts.extend(TAILS.iter().map(|tail| joined(b"", &whole, &[&digits, *tail].concat())));
        }
    }
    texts
}
