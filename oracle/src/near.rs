//! Texts near a number that is given by its digits: cut short, a digit more or less, a tail, the point elsewhere.

use crate::random::Random;
use crate::texts::{digits_of, joined, marks_of};

/// The number, cut anywhere after the point, with its last digit one more or less, with something behind it, with the
/// point elsewhere and an exponent that makes up for it, and scaled by some powers of two.
pub fn near(random: &mut Random, radix: u32, whole: &[u8], fraction: &[u8]) -> Vec<Vec<u8>> {
    let sign: &[u8] = random.pick(&[b"".as_slice(), b"-"]);
    let mut texts: Vec<Vec<u8>> = (0..=fraction.len()).map(|cut| joined(sign, whole, &fraction[..cut])).collect();
    texts.extend(neighbours(radix, fraction).iter().map(|fraction| joined(sign, whole, fraction)));
    texts.push(joined(sign, whole, &[fraction, b"1"].concat()));
    texts.push(joined(sign, whole, &[fraction, b"0000"].concat()));
    for _ in 0..4 {
        texts.push(moved_at_random(random, radix, whole, fraction));
    }
    if radix == 8 || radix == 16 {
        texts.extend((0..4).map(|_| scaled_by_bits(random, radix, whole, fraction)));
    }
    texts
}

/// The digits with the last one smaller and larger by one, where there is such a digit.
pub fn neighbours(radix: u32, fraction: &[u8]) -> Vec<Vec<u8>> {
    let Some((last, before)) = fraction.split_last() else {
        return Vec::new();
    };
    let digits = digits_of(radix);
    let value = digits.iter().position(|digit| digit == last).unwrap_or(0);
    let values = [value.wrapping_sub(1), value + 1];
    values.iter().filter_map(|value| digits.get(*value)).map(|digit| [before, &[*digit]].concat()).collect()
}

fn moved_at_random(random: &mut Random, radix: u32, whole: &[u8], fraction: &[u8]) -> Vec<u8> {
    let (mark, base) = random.pick(marks_of(radix));
    let left = random.below(2 * (whole.len() + fraction.len()) + 2) as i64 - fraction.len() as i64 - 2;
    let per_digit = if base == radix { 1 } else { i64::from(radix.trailing_zeros()) };
    moved(whole, fraction, left, mark, per_digit)
}

/// The digits with the point moved `left` places to the left, and an exponent of `per_digit` for each place.
fn moved(whole: &[u8], fraction: &[u8], left: i64, mark: u8, per_digit: i64) -> Vec<u8> {
    let point = whole.len() as i64 - left;
    let zeros_before = vec![b'0'; (-point).max(0) as usize];
    let zeros_after = vec![b'0'; (point - (whole.len() + fraction.len()) as i64).max(0) as usize];
    let digits = [&zeros_before, whole, fraction, &zeros_after].concat();
    let (new_whole, new_fraction) = digits.split_at(point.max(0) as usize);
    let mut text = joined(b"", new_whole, new_fraction);
    text.push(mark);
    text.extend((left * per_digit).to_string().bytes());
    text
}

/// The same digits under a `p`, which need not be a whole number of digits.
fn scaled_by_bits(random: &mut Random, radix: u32, whole: &[u8], fraction: &[u8]) -> Vec<u8> {
    let most = radix.trailing_zeros() as usize * 4;
    let mut text = joined(b"", whole, fraction);
    text.push(b'p');
    text.extend((random.below(2 * most + 1) as i64 - most as i64).to_string().bytes());
    text
}

/// The number with a long tail, a hair below it and a hair above, and with much in front.
pub fn with_tail(radix: u32, whole: &[u8], fraction: &[u8], length: usize) -> Vec<Vec<u8>> {
    let zeros = vec![b'0'; length];
    vec![
        joined(b"", whole, &[fraction, &zeros].concat()),
        joined(b"-", whole, &[fraction, &zeros, b"1"].concat()),
        joined(b"", whole, &a_hair_less(radix, fraction, length)),
        joined(b"", &[&zeros, whole].concat(), fraction),
        joined(b"", &[b"1", &zeros[..], whole].concat(), fraction),
    ]
}

/// The last digit, which is not 0, made one smaller, and highest digits behind it.
fn a_hair_less(radix: u32, fraction: &[u8], length: usize) -> Vec<u8> {
    let highest = digits_of(radix)[radix as usize - 1];
    let mut less = neighbours(radix, fraction).into_iter().next().unwrap_or_default();
    less.extend(std::iter::repeat_n(highest, length));
    less
}
