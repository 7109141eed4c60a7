//! The runs: each looks at one kind of text.

use crate::compare::Tally;
use crate::division;
use crate::format::{Format, LONGEST_TEXT, MANNERS, RADIXES, Reader, STRICT};
use crate::near;
use crate::picks::{
    all_formats, all_pairs, around_powers_of_ten, both_signs, narrow_formats, raw_of, raws, some_formats,
    telling_formats,
};
use crate::random::Random;
use crate::texts::{self, exhaustive};

/// How much is done: `times` multiplies what is random, `longest` bounds the texts that are all tried.
pub struct Effort {
    pub times: u64,
    pub seed: u64,
    pub longest: usize,
}

type Run = fn(&mut Tally, &Effort);

pub const RUNS: [(&str, Run); 14] = [
    ("short", short),
    ("formats", formats),
    ("bytes", bytes),
    ("decimals", decimals),
    ("ties", ties),
    ("ends", ends),
    ("tails", tails),
    ("division", division),
    ("exponents", exponents),
    ("literals", literals),
    ("damaged", damaged),
    ("random", random),
    ("refusals", refusals),
    ("log10", log10),
];

/// Every short text over the bytes that matter in its radix, plain and literal, in formats that show something.
fn short(tally: &mut Tally, effort: &Effort) {
    let formats = telling_formats();
    for (radix, alphabet) in texts::TELLING_BYTES {
        exhaustive(b"", alphabet, effort.longest, |text| tally.text(text, Some(radix), &formats));
    }
    exhaustive(b"", b"018box.+-_ep@", effort.longest, |text| tally.text(text, None, &formats));
    let prefixed: [(&[u8], &[u8]); 3] =
        [(b"0b", b"012.+-_epx@"), (b"0o", b"01348.+-_ep@"), (b"-0x", b"0148fA.+-_p@eg")];
    for (prefix, alphabet) in prefixed {
        exhaustive(prefix, alphabet, effort.longest - 1, |text| tally.text(text, None, &formats));
    }
}

/// Every shorter text over all digits of its radix, in every format.
fn formats(tally: &mut Tally, effort: &Effort) {
    let formats = all_formats();
    for (radix, others) in [(2, b".-@p"), (8, b".-@p"), (10, b".-e@"), (16, b".-@p")] {
        let alphabet = [texts::digits_of(radix), others].concat();
        exhaustive(b"", &alphabet, effort.longest - 2, |text| tally.text(text, Some(radix), &formats));
    }
}

/// Every byte in every state of the automaton, alone and with every byte after it.
fn bytes(tally: &mut Tally, _: &Effort) {
    let every_byte: Vec<u8> = (0..=255).collect();
    let formats = both_signs(16, 8);
    for beginning in texts::INTO_EACH_STATE {
        exhaustive(beginning, &every_byte, 2, |text| {
            for radix in RADIXES {
                tally.text(text, Some(radix), &formats);
            }
            for prefix in [&b""[..], b"0b", b"0o", b"0x"] {
                tally.text(&[prefix, text].concat(), None, &formats);
            }
        });
    }
}

/// Every decimal fraction of some digits, where that many digits show something.
fn decimals(tally: &mut Tally, effort: &Effort) {
    let formats = narrow_formats();
    for whole in [&b"."[..], b"1.", b"-254."] {
        exhaustive(whole, b"0123456789", effort.longest - 1, |text| tally.text(text, Some(10), &formats));
    }
}

/// Ties between two raws and what is near them, in every format and radix.
fn ties(tally: &mut Tally, effort: &Effort) {
    let mut random = Random::new(effort.seed);
    for (width, frac) in all_pairs() {
        for raw in raws(&mut random, width, frac, 8 * effort.times) {
            for radix in RADIXES {
                let (whole, fraction) = texts::tie_above(raw, frac, radix);
                let near = near::near(&mut random, radix, &whole, &fraction);
                near.iter().for_each(|text| tally.text(text, Some(radix), &both_signs(width, frac)));
            }
        }
    }
}

/// The ends of every format's range.
fn ends(tally: &mut Tally, _: &Effort) {
    for (width, frac) in all_pairs() {
        for bits in [width - 1, width] {
            // quarters of a step, from one and a half below the end to one and a half above
            let end = 4 * (1u128 << bits);
            (end - 6..=end + 6).for_each(|quarters| around_end(tally, width, frac, quarters));
        }
    }
}

fn around_end(tally: &mut Tally, width: u32, frac: u32, quarters: u128) {
    let formats = both_signs(width, frac);
    for radix in RADIXES {
        let (whole, fraction) = texts::expansion(quarters, frac + 2, radix);
        let a_hair_more = [&fraction[..], b"0001"].concat();
        for sign in [&b""[..], b"-", b"+"] {
            tally.text(&texts::joined(sign, &whole, &fraction), Some(radix), &formats);
            tally.text(&texts::joined(sign, &whole, &a_hair_more), Some(radix), &formats);
        }
    }
    // the same numbers under an exponent that is a part of a digit
    for (radix, bits) in [(8, 1), (8, 2), (16, 1), (16, 2), (16, 3)] {
        let (whole, fraction) = texts::expansion(quarters, frac + 2 + bits, radix);
        let mark = format!("p{bits}");
        for sign in [&b""[..], b"-"] {
            let text = [texts::joined(sign, &whole, &fraction), mark.clone().into_bytes()].concat();
            tally.text(&text, Some(radix), &formats);
        }
    }
}

/// Ties with long tails, some of them as long as a text may be.
fn tails(tally: &mut Tally, effort: &Effort) {
    let mut random = Random::new(effort.seed + 1);
    for (width, frac) in all_pairs() {
        for raw in raws(&mut random, width, frac, 20 * effort.times) {
            let radix = random.pick(&RADIXES);
            let (whole, fraction) = texts::tie_above(raw, frac, radix);
            let longest = if random.one_in(50) { LONGEST_TEXT - whole.len() - fraction.len() - 2 } else { 60 };
            let tails = near::with_tail(radix, &whole, &fraction, random.below(longest));
            tails.iter().for_each(|text| tally.text(text, Some(radix), &both_signs(width, frac)));
        }
    }
}

/// Fractions at the corners of the division of the first 27 digits, for every F.
fn division(tally: &mut Tally, effort: &Effort) {
    let mut random = Random::new(effort.seed + 7);
    for frac in 0..=64 {
        let texts = division::fractions(&mut random, frac, 40 * effort.times);
        texts.iter().for_each(|text| tally.text(text, Some(10), &both_signs(64, frac)));
    }
}

/// Every mark with every small exponent, and the exponents at the ends of their range.
fn exponents(tally: &mut Tally, effort: &Effort) {
    let mut random = Random::new(effort.seed + 2);
    let least = i64::from(i32::MIN);
    let most = i64::from(i32::MAX);
    let exponents: Vec<i64> = (-160..=160).chain([least - 1, least, most - 1, most, most + 1]).collect();
    for radix in RADIXES {
        for (mark, _) in texts::marks_of(radix) {
            for exponent in exponents.iter().cycle().take(exponents.len() * 4 * effort.times as usize) {
                let sign: &[u8] = random.pick(&[b"".as_slice(), b"-", b"+"]);
                let whole = texts::digits(&mut random, radix, 20);
                let mut text = texts::joined(sign, &whole, &texts::digits(&mut random, radix, 20));
                text.push(*mark);
                text.extend(exponent.to_string().bytes());
                tally.text(&text, Some(radix), &some_formats(&mut random));
            }
        }
    }
}

/// Underscores and prefixes.
fn literals(tally: &mut Tally, effort: &Effort) {
    let mut random = Random::new(effort.seed + 3);
    for _ in 0..100_000 * effort.times {
        let text = texts::literal(&mut random, 24);
        tally.text(&text, None, &some_formats(&mut random));
    }
}

/// Good texts, plain and literal, with some bytes wrong.
fn damaged(tally: &mut Tally, effort: &Effort) {
    let mut random = Random::new(effort.seed + 4);
    for _ in 0..100_000 * effort.times {
        let radix = random.pick(&RADIXES);
        let mut text = texts::plain(&mut random, radix, 16);
        texts::damage(&mut random, &mut text);
        tally.text(&text, Some(radix), &some_formats(&mut random));
        let mut text = texts::literal(&mut random, 16);
        texts::damage(&mut random, &mut text);
        tally.text(&text, None, &some_formats(&mut random));
    }
}

/// Texts of any length and temper.
fn random(tally: &mut Tally, effort: &Effort) {
    let mut random = Random::new(effort.seed + 5);
    for _ in 0..200_000 * effort.times {
        let radix = random.pick(&RADIXES);
        let longest = random.pick(&[3, 8, 20, 40, 80]);
        let text = texts::plain(&mut random, radix, longest);
        tally.text(&text, Some(radix), &some_formats(&mut random));
    }
}

/// Refusals 1 to 4, which S does not know: the port against the model.
fn refusals(tally: &mut Tally, _: &Effort) {
    for width in (0..=130).chain([256, u32::MAX]) {
        for frac in [0, 1, 8, 9, 16, 17, 32, 33, 64, 65, u32::MAX] {
            both_signs(width, frac).iter().for_each(|format| refusals_of(tally, *format));
        }
    }
    // a manner without a number of its own is strict
    for manner in [MANNERS.len() as u32, u32::MAX] {
        tally.port_only(b"300", Reader::Plain { radix: 10, manner }, Format { signed: true, width: 8, frac: 0 });
    }
}

fn refusals_of(tally: &mut Tally, format: Format) {
    tally.log10(1, format);
    let long = vec![b'1'; LONGEST_TEXT + 1];
    for text in [&b""[..], b"1", &long[..LONGEST_TEXT], &long] {
        tally.port_only(text, Reader::Literal, format);
        for radix in [0, 1, 2, 3, 8, 9, 10, 11, 16, 17, 36, u32::MAX] {
            tally.port_only(text, Reader::Plain { radix, manner: STRICT }, format);
        }
    }
}

/// log10 of every raw of the narrow widths, of raws around the powers of ten and random ones of the wide widths, and of
/// some that the format does not hold: an operand is the number that it is.
fn log10(tally: &mut Tally, effort: &Effort) {
    let mut random = Random::new(effort.seed + 6);
    for (width, frac) in all_pairs() {
        let mut raws = if width <= 16 { (0..1 << width).collect() } else { around_powers_of_ten(frac) };
        raws.extend((0..100 * effort.times).map(|_| random.sized(64)));
        for format in both_signs(width, frac) {
            raws.iter().for_each(|bits| tally.log10(raw_of(*bits, format), format));
            let most = if format.signed { i128::from(i64::MAX) } else { i128::from(u64::MAX) };
            [format.highest() + 1, most / 3, most].iter().for_each(|raw| tally.log10((*raw).min(most), format));
        }
    }
}
