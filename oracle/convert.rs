//! Holds the archive's conversions from format to format against document 01's words over 128-bit integers. Built and
//! run by `oracle/program convert`.

mod common;

use common::capi::*;
use common::exact::Exact;
use common::format::{Answer, Format, MANNERS};
use common::random::Random;
use common::tally::Tally;
use common::telling::{ANY_MANNER, edges, format, no_formats, operand};

fn found(raw: i128, from: Format, to: Format, manner: u32) -> Answer {
    let (fw, ff, width, frac) = (from.width, from.frac, to.width, to.frac);
    unsafe {
        match (from.signed, to.signed) {
            (true, true) => tq_convert_signed_to_signed(raw as i64, fw, ff, width, frac, manner).into(),
            (true, false) => tq_convert_signed_to_unsigned(raw as i64, fw, ff, width, frac, manner).into(),
            (false, true) => tq_convert_unsigned_to_signed(raw as u64, fw, ff, width, frac, manner).into(),
            (false, false) => tq_convert_unsigned_to_unsigned(raw as u64, fw, ff, width, frac, manner).into(),
        }
    }
}

/// Fraction bits that the target has not are dropped: the floor.
fn exact(raw: i128, from: u32, to: u32) -> Exact {
    match to >= from {
        true => Exact { neg: raw < 0, size: raw.unsigned_abs() << (to - from) },
        false => Exact::of(raw.div_euclid(1 << (from - to))),
    }
}

fn wanted(raw: i128, from: Format, to: Format, manner: u32) -> Answer {
    match Format::refusal_of_both(from, to) {
        Some(number) => Answer::refused(number),
        None => exact(raw, from.frac, to.frac).settled(to, manner),
    }
}

fn compare(t: &mut Tally, raw: i128, from: Format, to: Format, manner: u32) {
    t.same(found(raw, from, to, manner), wanted(raw, from, to, manner), || {
        format!("{raw} of {from:?} to {to:?}, manner {manner}")
    });
}

/// The signs of source and target.
const SIGNS: [(bool, bool); 4] = [(true, true), (true, false), (false, true), (false, false)];

/// Every raw of W = 8 and some numbers that it could not hold, from every F to every format.
fn narrow(t: &mut Tally, signs: (bool, bool)) {
    let all = Format { signed: signs.0, width: 8, frac: 0 };
    let outside = edges(signs.0, 64).into_iter().chain(edges(signs.0, 16));
    let raws: Vec<i128> = (all.lowest()..=all.highest()).chain(outside).collect();
    for frac in 0..=8 {
        for to in Format::all(signs.1) {
            for &raw in &raws {
                for manner in MANNERS {
                    compare(t, raw, Format { frac, ..all }, to, manner);
                }
            }
        }
    }
}

/// The edges of a format, and the numbers whose result is at an edge of the target.
fn telling(from: Format, to: Format) -> Vec<i128> {
    let mut raws = edges(from.signed, from.width);
    for end in [to.lowest(), to.highest() + 1] {
        let at = if to.frac >= from.frac { end >> (to.frac - from.frac) } else { end << (from.frac - to.frac) };
        raws.extend([at - 1, at, at + 1]);
    }
    let held = Format { signed: from.signed, width: 64, frac: 0 };
    raws.retain(|raw| held.holds(*raw));
    raws
}

/// Every format to every format.
fn wide(t: &mut Tally, signs: (bool, bool)) {
    for from in Format::all(signs.0) {
        for to in Format::all(signs.1) {
            for raw in telling(from, to) {
                for manner in MANNERS {
                    compare(t, raw, from, to, manner);
                }
            }
        }
    }
}

/// What is no format, on one side or on both; and numbers of manners that are none.
fn refused(t: &mut Tally, signs: (bool, bool)) {
    let some = |signed| {
        let good = [(8, 4), (64, 64), (16, 0)].map(|(width, frac)| Format { signed, width, frac });
        good.into_iter().chain(no_formats(signed))
    };
    for from in some(signs.0) {
        for to in some(signs.1) {
            for manner in ANY_MANNER {
                for raw in [0, 1, 255, 1 << 40] {
                    compare(t, raw, from, to, manner);
                }
            }
        }
    }
}

fn at_random(t: &mut Tally, signs: (bool, bool), random: &mut Random) {
    for _ in 0..1_000_000 {
        let (from, to) = (format(random, signs.0), format(random, signs.1));
        let raw = operand(random, signs.0);
        compare(t, raw, from, to, random.pick(&ANY_MANNER));
    }
}

fn main() {
    let mut t = Tally::default();
    let mut random = Random::new(1);
    for signs in SIGNS {
        narrow(&mut t, signs);
        wide(&mut t, signs);
        refused(&mut t, signs);
        at_random(&mut t, signs, &mut random);
    }
    t.close()
}
