//! Holds the archive's conversions from and to f32 and f64 patterns against the machine's own floats (machine.rs) and against an exact model over
//! integers (exact.rs), which must agree with each other too. Built and run by `oracle/program float`.
//!
//!     float [SWEEPS]
//!
//! A sweep takes every f32 with one exponent into a format; there are 13 of them, and the first three are done if no number is given.

#[path = "../common/mod.rs"]
mod common;
mod exact;
mod machine;

use common::capi::*;
use common::format::{Answer, Format, MANNERS, OVERFLOWING};
use common::random::Random;
use common::tally::Tally;
use common::telling::{ANY_MANNER, edges, format, no_formats, operand};
use exact::{F32, F64, Kind};

fn found_from(pattern: u64, kind: Kind, Format { signed, width, frac }: Format, manner: u32) -> Answer {
    match kind == F32 {
        true => answer!(signed, tq_from_f32_signed | tq_from_f32_unsigned, [], pattern as u32, width, frac, manner),
        false => answer!(signed, tq_from_f64_signed | tq_from_f64_unsigned, [], pattern, width, frac, manner),
    }
}

fn found_to(raw: i128, kind: Kind, Format { signed, width, frac }: Format) -> Answer {
    match kind == F32 {
        true => answer!(signed, tq_to_f32_signed | tq_to_f32_unsigned, [raw], width, frac),
        false => answer!(signed, tq_to_f64_signed | tq_to_f64_unsigned, [raw], width, frac),
    }
}

fn as_f64(pattern: u64, kind: Kind) -> f64 {
    if kind == F32 { f64::from(f32::from_bits(pattern as u32)) } else { f64::from_bits(pattern) }
}

fn name(kind: Kind) -> &'static str {
    if kind == F32 { "f32" } else { "f64" }
}

/// A pattern into a format: the archive, the machine and the exact model.
fn from(t: &mut Tally, pattern: u64, kind: Kind, f: Format, manner: u32) {
    let x = as_f64(pattern, kind);
    let wanted = machine::from(x, f, manner);
    let told = || format!("{} {pattern:#x} ({x:e}) to {f:?}, manner {manner}", name(kind));
    t.same(found_from(pattern, kind, f, manner), wanted, told);
    if exact::from(pattern, kind, f, manner) != wanted {
        t.see(false, || format!("the judges differ: {}", told()));
    }
}

fn to(t: &mut Tally, raw: i128, kind: Kind, f: Format) {
    let wanted = if kind == F32 { machine::to_f32(raw, f) } else { machine::to_f64(raw, f) };
    let told = || format!("{raw} of {f:?} to {}", name(kind));
    t.same(found_to(raw, kind, f), wanted, told);
    if exact::to(raw, kind, f) != wanted {
        t.see(false, || format!("the judges differ: {}", told()));
    }
}

/// Zeros, subnormals, the ends of the normal numbers, infinities and NaNs of every kind, with either sign.
fn special(kind: Kind) -> Vec<u64> {
    let (one, infinity, quiet) = (1u64 << kind.stored, kind.top() << kind.stored, 1u64 << (kind.stored - 1));
    let numbers =
        [0, 1, 2, one / 2, one - 1, one, one + 1, infinity - 1, infinity - one, infinity / 2, infinity / 2 + one];
    let others =
        [infinity, infinity + 1, infinity + quiet - 1, infinity + quiet, infinity + quiet + 1, infinity + one - 1];
    let sign = 1u64 << (kind.stored + kind.exponent);
    numbers.into_iter().chain(others).flat_map(|p| [p, p | sign]).collect()
}

/// Patterns about x: the nearest one and two on either side.
fn about(x: f64, kind: Kind) -> impl Iterator<Item = u64> {
    let at = if kind == F32 { u64::from((x as f32).to_bits()) } else { x.to_bits() };
    let mask = (1u64 << (kind.stored + kind.exponent) << 1).wrapping_sub(1);
    (0..5).map(move |k: u64| at.wrapping_add(k).wrapping_sub(2) & mask)
}

/// Numbers at and about the ends, zero and the middle of a format, and the ties there.
fn telling(f: Format, kind: Kind) -> Vec<u64> {
    let mut all = special(kind);
    let ends = [f.lowest() - 1, f.lowest(), f.lowest() + 1, f.highest() - 1, f.highest(), f.highest() + 1];
    for raw in edges(true, f.width).into_iter().chain(ends) {
        for quarter in [0.0, 0.25, 0.5, 0.75] {
            all.extend(about((raw as f64 + quarter) / (1u128 << f.frac) as f64, kind));
        }
    }
    all
}

fn directed(t: &mut Tally, signed: bool) {
    for kind in [F32, F64] {
        for f in Format::all(signed) {
            for pattern in telling(f, kind) {
                for manner in MANNERS {
                    from(t, pattern, kind, f, manner);
                }
            }
        }
        for f in no_formats(signed).chain([Format { signed, width: 16, frac: 15 }]) {
            for pattern in special(kind) {
                for manner in ANY_MANNER {
                    from(t, pattern, kind, f, manner);
                }
            }
            for raw in [0, 1, 77, 1 << 40] {
                to(t, raw, kind, f);
            }
        }
    }
}

/// Every f32 with its size in [2^e, 2^(e + 1)), of either sign, into a format: overflowing, and every 16th in the other manners.
fn sweep(t: &mut Tally, f: Format, e: i64) {
    let field = ((e + 127) as u64) << F32.stored;
    for low in 0..1u64 << F32.stored {
        for sign in [0, 1 << 31] {
            from(t, sign | field | low, F32, f, OVERFLOWING);
            if low % 16 == 0 {
                (0..3).for_each(|manner| from(t, sign | field | low, F32, f, manner));
            }
        }
    }
}

/// Formats and exponents to sweep, the most telling first.
fn sweeps() -> Vec<(Format, i64)> {
    let format = |signed, width, frac| Format { signed, width, frac };
    let mut all = vec![(format(true, 8, 4), 3), (format(true, 16, 15), -1), (format(false, 16, 16), -17)];
    all.extend([-5, 2].map(|e| (format(true, 8, 4), e)));
    all.extend([-1, 7].map(|e| (format(false, 8, 0), e)));
    all.extend([-16, 0].map(|e| (format(true, 16, 15), e)));
    all.extend([14, 15].map(|e| (format(true, 16, 0), e)));
    all.extend([(format(false, 8, 8), -1), (format(false, 16, 16), -1)]);
    all
}

/// Any pattern; a pattern with its size about the format's range; one with few bits, which makes ties.
fn pattern(random: &mut Random, kind: Kind, f: Format) -> u64 {
    let mask = (1u64 << (kind.stored + kind.exponent) << 1).wrapping_sub(1);
    let any = random.next() & mask;
    if random.one_in(4) {
        return any;
    }
    let e = random.below(f.width as usize + 4) as i64 - i64::from(f.frac) - 2;
    let field = ((e + (kind.top() as i64 >> 1)) as u64) << kind.stored;
    let zeros = if random.one_in(2) { 0 } else { random.below(kind.stored as usize + 1) };
    any & !(kind.top() << kind.stored) & !((1 << zeros) - 1) | field
}

fn at_random(t: &mut Tally, signed: bool, random: &mut Random) {
    for _ in 0..2_000_000 {
        let f = format(random, signed);
        let kind = random.pick(&[F32, F64]);
        let some = pattern(random, kind, f);
        from(t, some, kind, f, random.pick(&ANY_MANNER));
        to(t, operand(random, signed), kind, f);
    }
}

/// Raws whose significand is too long by some bits: ties, and one step to either side of them.
fn ties(signed: bool, kind: Kind) -> Vec<i128> {
    let mut all = Vec::new();
    for length in kind.stored + 2..=63 + u32::from(!signed) {
        let half = 1i128 << (length - kind.stored - 2);
        let top = 1i128 << (length - 1);
        for place in [0, 1, 2, (1 << kind.stored) - 2, (1 << kind.stored) - 1] {
            let middle = top + 2 * half * place + half;
            all.extend([middle - 1, middle, middle + 1]);
            all.extend([1 - middle, -middle, -1 - middle].iter().filter(|_| signed));
        }
    }
    all
}

fn raws(t: &mut Tally, signed: bool) {
    for f in Format::all(signed) {
        for kind in [F32, F64] {
            if f.width <= 16 {
                (f.lowest()..=f.highest()).for_each(|raw| to(t, raw, kind, f));
            }
            for raw in ties(signed, kind).into_iter().chain(edges(signed, 64)).chain(edges(signed, f.width)) {
                to(t, raw, kind, f);
            }
        }
    }
}

fn main() {
    let count = std::env::args().nth(1).map_or(3, |a| a.parse().expect("SWEEPS is a number"));
    let mut t = Tally::default();
    let mut random = Random::new(1);
    for signed in [true, false] {
        directed(&mut t, signed);
        raws(&mut t, signed);
        at_random(&mut t, signed, &mut random);
    }
    sweeps().into_iter().take(count).for_each(|(f, e)| sweep(&mut t, f, e));
    t.close()
}
