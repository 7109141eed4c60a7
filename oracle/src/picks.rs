//! Formats and raws that are worth a look.

use crate::format::{Format, WIDTHS};
use crate::random::Random;

pub fn both_signs(width: u32, frac: u32) -> [Format; 2] {
    [Format { signed: true, width, frac }, Format { signed: false, width, frac }]
}

/// Every F of every width.
pub fn all_pairs() -> Vec<(u32, u32)> {
    WIDTHS.iter().flat_map(|width| (0..=*width).map(|frac| (*width, frac))).collect()
}

pub fn all_formats() -> Vec<Format> {
    all_pairs().iter().flat_map(|(width, frac)| both_signs(*width, *frac)).collect()
}

/// Formats in which short texts show something: the ends of F, the smallest F, and a body of each width.
pub fn telling_formats() -> Vec<Format> {
    let pairs = [(8, 0), (8, 1), (8, 2), (8, 3), (8, 4), (8, 8), (16, 0), (16, 16), (32, 1), (64, 32), (64, 64)];
    pairs.iter().flat_map(|(width, frac)| both_signs(*width, *frac)).collect()
}

/// Formats in which decimal fractions of a few digits show something: every F up to 16.
pub fn narrow_formats() -> Vec<Format> {
    let narrow = all_pairs().into_iter().filter(|(width, _)| *width <= 16);
    let wide = [(32, 0), (32, 1), (32, 4), (64, 1), (64, 8), (64, 16)];
    narrow.chain(wide).map(|(width, frac)| Format { signed: false, width, frac }).collect()
}

/// A few formats, of both signs.
pub fn some_formats(random: &mut Random) -> Vec<Format> {
    let pairs = all_pairs();
    let mut formats = Vec::new();
    for _ in 0..3 {
        let (width, frac) = random.pick(&pairs);
        formats.extend(both_signs(width, frac));
    }
    // small F and F = W are where bits run out
    let width = random.pick(&WIDTHS);
    let frac = random.pick(&[0, 1, 2, 3, width - 1, width]);
    formats.extend(both_signs(width, frac));
    formats
}

/// Magnitudes below 2^W: those at the ends of the range and of the whole part, and random ones.
pub fn raws(random: &mut Random, width: u32, frac: u32, count: u64) -> Vec<u64> {
    let top = u64::MAX >> (64 - width);
    let one = if frac < 64 { 1u64 << frac } else { 0 };
    let mut raws: Vec<u64> = (0..4)
        .flat_map(|near| [near, top - near, (top / 2).wrapping_add(near), one.wrapping_sub(near + 1), one + near])
        .collect();
    raws.extend((0..count).map(|_| random.sized(64)));
    raws.iter().map(|raw| raw & top).collect()
}

/// 10^k x 2^frac, for k of either sign, and its neighbours; the low 64 bits of them.
pub fn around_powers_of_ten(frac: u32) -> Vec<u64> {
    let mut raws = vec![0, 1, u64::MAX, u64::MAX / 2, u64::MAX / 2 + 1];
    let one = 1u128 << frac;
    let mut power = 1u128;
    for _ in 0..20 {
        for centre in [one / power, one.wrapping_mul(power)] {
            raws.extend((0..5).map(|near| centre.wrapping_add(near).wrapping_sub(2) as u64));
        }
        power *= 10;
    }
    raws
}

/// The raw of the format that these bits are.
pub fn raw_of(bits: u64, Format { signed, width, .. }: Format) -> i128 {
    let left = bits << (64 - width);
    if signed { i128::from(left as i64 >> (64 - width)) } else { i128::from(left >> (64 - width)) }
}
