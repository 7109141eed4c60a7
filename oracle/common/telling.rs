//! Numbers that are worth asking: the ends of a width, what is no format or no manner, and raws at random.

use super::exact::Exact;
use super::format::{Format, MANNERS, WIDTHS};
use super::random::Random;

/// The four manners, and numbers that stand for strict as every other does, some with the low byte of another manner.
pub const ANY_MANNER: [u32; 9] = [0, 1, 2, 3, 4, 0x101, 0x102, 0x1_0003, u32::MAX];

/// Widths and fraction bits of which one is wrong at least; some would be right in their low bytes.
const NO_FORMATS: [(u32, u32); 20] = [
    (0, 0),
    (1, 1),
    (7, 0),
    (9, 3),
    (24, 8),
    (63, 1),
    (65, 66),
    (128, 0),
    (256, 4),
    (0x108, 4),
    (0x1_0010, 4),
    (0x8000_0040, 4),
    (u32::MAX, u32::MAX),
    (8, 9),
    (8, 0x104),
    (16, u32::MAX),
    (32, 0x1_0010),
    (64, 65),
    (64, 0x8000_0004),
    (64, 0x100),
];

pub fn no_formats(signed: bool) -> impl Iterator<Item = Format> {
    NO_FORMATS.into_iter().map(move |(width, frac)| Format { signed, width, frac })
}

/// The ends of a width and what is near them, near zero and near the middle of the word.
pub fn edges(signed: bool, width: u32) -> Vec<i128> {
    let format = Format { signed, width, frac: 0 };
    let (least, most, half) = (format.lowest(), format.highest(), 1i128 << (width / 2));
    let middle = [-half - 1, -half, -half + 1, -3, -2, -1, 0, 1, 2, 3, 10, half - 1, half, half + 1];
    let ends = [least, least + 1, least + 2, least / 2, most / 2, most / 2 + 1, most - 2, most - 1, most];
    let mut all: Vec<i128> = middle.into_iter().chain(ends).filter(|raw| format.holds(*raw)).collect();
    all.sort();
    all.dedup();
    all
}

/// Hands out numbers that are worth asking one by one and in pairs, and thirds to go with the pairs: all raws of W = 8 in
/// every manner; the edges of every width in every width, also in narrower ones, which could not hold them; and what is no
/// format.
pub fn every_case(signed: bool, mut ask: impl FnMut(Format, u32, &[i128], &[i128])) {
    let narrow = Format { signed, width: 8, frac: 0 };
    let all: Vec<i128> = (narrow.lowest()..=narrow.highest()).collect();
    for frac in [0, 1, 4, 7, 8] {
        MANNERS.iter().for_each(|manner| ask(Format { frac, ..narrow }, *manner, &all, &edges(signed, 8)));
    }
    for near in WIDTHS.map(|width| edges(signed, width)) {
        for format in end_formats(signed) {
            ANY_MANNER.iter().for_each(|manner| ask(format, *manner, &near, &near));
        }
    }
    for format in no_formats(signed) {
        ANY_MANNER.iter().for_each(|manner| ask(format, *manner, &[0, 1], &[0, 1]));
    }
}

/// Every width with the ends and the middle of its fraction bits.
fn end_formats(signed: bool) -> impl Iterator<Item = Format> {
    let of = move |width| [0, 1, width / 2, width - 1, width].map(|frac| Format { signed, width, frac });
    WIDTHS.into_iter().flat_map(of)
}

/// A number of 64 bits, of any size: an operand, also of formats that could not hold it.
pub fn operand(random: &mut Random, signed: bool) -> i128 {
    let small = random.below(64);
    match (random.one_in(8), signed) {
        (true, _) => random.pick(&edges(signed, 64)),
        (_, true) => i128::from(random.next() as i64 >> small),
        (_, false) => i128::from(random.next() >> small),
    }
}

/// A raw of the format, of any size.
pub fn raw(random: &mut Random, format: Format) -> i128 {
    let small = random.below(format.width as usize);
    Exact::of(i128::from(random.next() as i64 >> (64 - format.width) >> small)).wrapped(format)
}

/// A format of any width.
pub fn format(random: &mut Random, signed: bool) -> Format {
    let width = random.pick(&WIDTHS);
    Format { signed, width, frac: random.below(width as usize + 1) as u32 }
}
