//! Compares the archive's whole numbers and further arithmetic with an exact model over 128-bit integers, written from
//! the documentation's words. Built and run by `oracle/program further`.

mod common;

use common::capi::*;
use common::exact::Exact;
use common::format::{Answer, Format, MANNERS, WRAPPING};
use common::random::Random;
use common::tally::Tally;
use common::telling::{every_case, format, raw};
use std::cmp::Ordering;

const ONE: [(&str, OneSigned, OneUnsigned); 8] = [
    ("floor", tq_floor_signed, tq_floor_unsigned),
    ("ceil", tq_ceil_signed, tq_ceil_unsigned),
    ("round", tq_round_signed, tq_round_unsigned),
    ("round_ties_even", tq_round_ties_even_signed, tq_round_ties_even_unsigned),
    ("int", tq_int_signed, tq_int_unsigned),
    ("frac", tq_frac_signed, tq_frac_unsigned),
    ("abs", tq_abs_signed, tq_abs_unsigned),
    ("signum", tq_signum_signed, tq_signum_unsigned),
];

const TWO: [(&str, TwoSigned, TwoUnsigned); 4] = [
    ("rem_euclid", tq_rem_euclid_signed, tq_rem_euclid_unsigned),
    ("div_euclid", tq_div_euclid_signed, tq_div_euclid_unsigned),
    ("dist", tq_dist_signed, tq_dist_unsigned),
    ("mean", tq_mean_signed, tq_mean_unsigned),
];

// ---- the model

/// The nearest multiple of unit: of the two around a, the nearer; `tie` chooses between them where both are as near.
fn nearest(a: i128, unit: i128, tie: impl Fn(i128, i128) -> i128) -> i128 {
    let low = a.div_euclid(unit) * unit;
    let high = low + unit;
    match (a - low).cmp(&(high - a)) {
        Ordering::Less => low,
        Ordering::Greater => high,
        Ordering::Equal => tie(low, high),
    }
}

fn on_one(name: &str, a: i128, width: u32, frac: u32) -> i128 {
    let unit = 1i128 << frac;
    let low = a.div_euclid(unit) * unit;
    match name {
        "floor" => low,
        "ceil" if low == a => a,
        "ceil" => low + unit,
        "round" => nearest(a, unit, |low, high| if low.abs() > high.abs() { low } else { high }),
        "round_ties_even" => nearest(a, unit, |low, high| if low / unit % 2 == 0 { low } else { high }),
        "int" if frac == width => 0,
        "int" => low,
        "frac" if frac == width => a,
        "frac" => a - low,
        "abs" => a.abs(),
        _ => a.signum() * unit,
    }
}

/// The Euclidean quotient in units may pass 127 bits, so it is a size.
fn on_two(name: &str, a: i128, b: i128, frac: u32) -> Exact {
    match name {
        "rem_euclid" => Exact::of(a.rem_euclid(b)),
        "div_euclid" => {
            let q = a.div_euclid(b);
            Exact { neg: q < 0, size: q.unsigned_abs() << frac }
        }
        "dist" => Exact::of((a - b).abs()),
        _ => Exact::of((a + b).div_euclid(2)),
    }
}

/// The floor of the product plus c. The size of the product is below 2^128, and with c too.
fn mul_add(a: i128, b: i128, c: i128, frac: u32) -> Exact {
    let Exact { neg, size } = Exact::product(a, b, frac);
    let other = c.unsigned_abs();
    match neg == (c < 0) {
        true => Exact { neg, size: size + other },
        false if size < other => Exact { neg: !neg, size: other - size },
        false => Exact { neg: neg && size != other, size: size - other },
    }
}

// ---- comparing

fn told(name: &str, numbers: &[i128], format: Format, manner: u32) -> String {
    format!("{name} of {numbers:?}, {format:?}, manner {manner}")
}

fn single(t: &mut Tally, a: i128, format: Format, manner: u32) {
    let Format { signed, width, frac } = format;
    for (name, of_signed, of_unsigned) in ONE {
        let found = answer!(signed, of_signed | of_unsigned, [a], width, frac, manner);
        let wanted = match format.refusal() {
            Some(number) => Answer::refused(number),
            None => Exact::of(on_one(name, a, width, frac)).settled(format, manner),
        };
        t.same(found, wanted, || told(name, &[a], format, manner));
    }
}

fn pair(t: &mut Tally, a: i128, b: i128, format: Format, manner: u32) {
    let Format { signed, width, frac } = format;
    for (name, of_signed, of_unsigned) in TWO {
        let found = answer!(signed, of_signed | of_unsigned, [a, b], width, frac, manner);
        let wanted = match format.refusal() {
            Some(number) => Answer::refused(number),
            None if b == 0 && name.ends_with("euclid") => Answer::refused(31),
            None => on_two(name, a, b, frac).settled(format, manner),
        };
        t.same(found, wanted, || told(name, &[a, b], format, manner));
    }
}

fn triple(t: &mut Tally, [a, b, c]: [i128; 3], format: Format, manner: u32) {
    let Format { signed, width, frac } = format;
    let found = answer!(signed, tq_mul_add_signed | tq_mul_add_unsigned, [a, b, c], width, frac, manner);
    let wanted = match format.refusal() {
        Some(number) => Answer::refused(number),
        None => mul_add(a, b, c, frac).settled(format, manner),
    };
    t.same(found, wanted, || told("mul_add", &[a, b, c], format, manner));
}

// ---- what is asked

const MOST: i64 = i32::MAX as i64;
const LEAST: i64 = i32::MIN as i64;

// The worked examples of src/wrapping.rs's documentation, as it has them, in raws: wrapping, signed, W = 32. One differs, and is said in
// docs/promises/further.md: the maximum by 0.25 in div_euclid, where the documentation has 0, the wrapped quotient rounded toward zero.

/// Name, raw, F, what is wanted.
const EXAMPLES_OF_ONE: [(&str, i64, u32, i64); 22] = [
    ("int", 802816, 16, 786432),
    ("int", -802816, 16, -851968),
    ("frac", 802816, 16, 16384),
    ("frac", -802816, 16, 49152),
    ("ceil", 163840, 16, 196608),
    ("ceil", MOST, 16, LEAST),
    ("floor", 163840, 16, 131072),
    ("floor", LEAST, 32, 0),
    ("round", 163840, 16, 196608),
    ("round", -163840, 16, -196608),
    ("round", MOST, 16, LEAST),
    ("round_ties_even", 163840, 16, 131072),
    ("round_ties_even", 229376, 16, 262144),
    ("round_ties_even", MOST, 16, LEAST),
    ("abs", -327680, 16, 327680),
    ("abs", LEAST, 16, LEAST),
    ("signum", -255590, 16, -65536),
    ("signum", 0, 16, 0),
    ("signum", 255590, 16, 65536),
    ("signum", 1 << 30, 31, LEAST),
    ("signum", 1 << 30, 32, 0),
    ("signum", LEAST, 32, 0),
];

/// Name, two raws, what is wanted; F = 16.
const EXAMPLES_OF_TWO: [(&str, i64, i64, i64); 9] = [
    ("dist", -65536, 262144, 327680),
    ("dist", LEAST, MOST, -1),
    ("mean", 196608, 262144, 229376),
    ("mean", 196608, -262144, -32768),
    ("div_euclid", 491520, 131072, 196608),
    ("div_euclid", LEAST, -65536, LEAST),
    ("div_euclid", MOST, 16384, -65536),
    ("rem_euclid", 491520, 131072, 98304),
    ("rem_euclid", -491520, 131072, 32768),
];

/// Three raws, what is wanted; F = 16.
const EXAMPLES_OF_MUL_ADD: [(i64, i64, i64, i64); 3] =
    [(196608, 32768, 262144, 360448), (MOST, 196608, MOST, -4), (262144, 32768, 196608, 327680)];

fn examples(t: &mut Tally) {
    let mut see = |found: Signed, wanted: i64, what: &str| {
        t.same(Answer::from(found), Answer::done(wanted.into(), false), || format!("the documentation's {what}"));
    };
    for (name, a, frac, wanted) in EXAMPLES_OF_ONE {
        let on = ONE.iter().find(|row| row.0 == name).unwrap().1;
        see(unsafe { on(a, 32, frac, WRAPPING) }, wanted, &format!("{name} of {a}, F = {frac}"));
    }
    for (name, a, b, wanted) in EXAMPLES_OF_TWO {
        let on = TWO.iter().find(|row| row.0 == name).unwrap().1;
        see(unsafe { on(a, b, 32, 16, WRAPPING) }, wanted, &format!("{name} of {a} and {b}"));
    }
    for (a, b, c, wanted) in EXAMPLES_OF_MUL_ADD {
        let found = unsafe { tq_mul_add_signed(a, b, c, 32, 16, WRAPPING) };
        see(found, wanted, &format!("mul_add of {a}, {b} and {c}"));
    }
}

/// Every number, every pair, and every pair with every third number.
fn combined(t: &mut Tally, signed: bool) {
    every_case(signed, |format, manner, numbers, thirds| {
        for &a in numbers {
            single(t, a, format, manner);
            for &b in numbers {
                pair(t, a, b, format, manner);
                thirds.iter().for_each(|c| triple(t, [a, b, *c], format, manner));
            }
        }
    });
}

fn at_random(t: &mut Tally, random: &mut Random, signed: bool) {
    for _ in 0..500_000 {
        let (format, manner) = (format(random, signed), random.pick(&MANNERS));
        let [a, b, c] = [(); 3].map(|_| raw(random, format));
        single(t, a, format, manner);
        pair(t, a, b, format, manner);
        triple(t, [a, b, c], format, manner);
    }
}

fn main() {
    let mut t = Tally::default();
    let mut random = Random::new(1);
    examples(&mut t);
    for signed in [true, false] {
        combined(&mut t, signed);
        at_random(&mut t, &mut random, signed);
    }
    t.close()
}
