//! Compares the archive's logarithm with S's own src/log10.rs, compiled here unchanged, and with an exact model, and times both.
//! Built and run by `oracle/program log10 --s FOLDER`.

mod common;

use common::capi::*;
use common::format::{Answer, Format};
use common::random::Random;
use common::tally::Tally;
use common::timing::{each, in_turns};
use std::num::NonZero;

/// S's file, as it is. Functions of it that no width here needs (u128) stay unused.
#[allow(dead_code)]
mod s_log10 {
    include!(concat!(env!("S_FOLDER"), "/log10.rs"));
}

fn ours(raw: i128, Format { signed, width, frac }: Format) -> Answer {
    answer!(signed, tq_log10_signed | tq_log10_unsigned, [raw], width, frac)
}

// ---- what must come out

/// 10^k <= raw / 2^frac, exactly: a product past 128 bits is above whatever it is compared with.
fn reaches(raw: u64, frac: u32, k: i32) -> bool {
    let ten = |n: i32| 10u128.checked_pow(n as u32);
    if k >= 0 {
        let need = ten(k).and_then(|p| p.checked_mul(1u128 << frac));
        need.is_some_and(|n| n <= raw as u128)
    } else {
        let have = ten(-k).and_then(|p| p.checked_mul(raw as u128));
        have.map_or(true, |h| 1u128 << frac <= h)
    }
}

/// The greatest k with 10^k <= raw / 2^frac, by looking at every k.
fn exact(raw: u64, frac: u32) -> i32 {
    (-30..=30).rev().find(|&k| reaches(raw, frac, k)).unwrap()
}

/// The whole answer, refusals in 01's order.
fn model(raw: i128, format: Format) -> Answer {
    match format.refusal() {
        Some(number) => Answer::refused(number),
        None if raw <= 0 => Answer::refused(32),
        None => Answer::done(exact(raw as u64, format.frac).into(), false),
    }
}

/// S: the whole part by the language's own ilog10, as the crate has it, and below one S's frac_part on the bits at the top of
/// the word. The crate's own file that joins the two is not at hand.
macro_rules! s_width {
    ($name:ident, $int:ident) => {
        fn $name(bits: $int, frac: u32) -> i32 {
            let width = $int::BITS;
            let whole = if frac == width { 0 } else { bits >> frac };
            if let Some(whole) = NonZero::new(whole) {
                return whole.ilog10() as i32;
            }
            let part = if frac == 0 { 0 } else { bits << (width - frac) };
            s_log10::frac_part::$int(NonZero::new(part).expect("S panics for zero"))
        }
    };
}

s_width!(s_u8, u8);
s_width!(s_u16, u16);
s_width!(s_u32, u32);
s_width!(s_u64, u64);

fn s_side(raw: u64, width: u32, frac: u32) -> i32 {
    match width {
        8 => s_u8(raw as u8, frac),
        16 => s_u16(raw as u16, frac),
        32 => s_u32(raw as u32, frac),
        _ => s_u64(raw, frac),
    }
}

// ---- comparing

fn same(t: &mut Tally, what: &str, raw: i128, format: Format, wanted: Answer) {
    t.same(ours(raw, format), wanted, || format!("{what}, raw {raw}, {format:?}"));
}

/// An unsigned raw, and the same number as a signed one where it is one: against the model, and against S where S has
/// the number.
fn number(t: &mut Tally, raw: u64, width: u32, frac: u32) {
    let format = Format { signed: false, width, frac };
    let wanted = model(raw.into(), format);
    same(t, "the model", raw.into(), format, wanted);
    if i64::try_from(raw).is_ok() {
        same(t, "the model", raw.into(), Format { signed: true, ..format }, wanted);
    }
    if wanted.number == 0 && format.holds(raw.into()) {
        same(t, "S", raw.into(), format, Answer::done(s_side(raw, width, frac).into(), false));
    }
}

fn negative(t: &mut Tally, raw: i64, width: u32, frac: u32) {
    let format = Format { signed: true, width, frac };
    same(t, "the model", raw.into(), format, model(raw.into(), format));
}

/// Every raw of W = 8 and 16, at every F.
fn narrow(t: &mut Tally) {
    for width in [8u32, 16] {
        for frac in 0..=width {
            for raw in 0..1u64 << width {
                number(t, raw, width, frac);
            }
            for raw in 1..=1i64 << (width - 1) {
                negative(t, -raw, width, frac);
            }
        }
    }
}

/// The neighbours of every power of ten, at every F, also where the format could not hold them; and the ends of a word.
fn near_powers(t: &mut Tally) {
    for Format { width, frac, .. } in Format::all(false) {
        (-20..=19).for_each(|k| near_power(t, k, width, frac));
        for raw in [1, u64::MAX, u64::MAX - 1, i64::MAX as u64, 1 << 63] {
            number(t, raw, width, frac);
        }
        for raw in [-1, i64::MIN, i64::MIN + 1] {
            negative(t, raw, width, frac);
        }
    }
}

fn near_power(t: &mut Tally, k: i32, width: u32, frac: u32) {
    let at = if k >= 0 {
        (10u128.pow(k as u32)).checked_mul(1u128 << frac)
    } else {
        Some((1u128 << frac).div_ceil(10u128.pow(-k as u32)))
    };
    for d in -2..=2i128 {
        let near = at.map(|a| a as i128 + d).filter(|&n| n >= 0);
        if let Some(raw) = near.and_then(|n| u64::try_from(n).ok()) {
            number(t, raw, width, frac);
        }
    }
}

/// Random wide ones, at every F.
fn at_random(t: &mut Tally) {
    let mut random = Random::new(1);
    for width in [32u32, 64] {
        for frac in 0..=width {
            for _ in 0..20_000 {
                number(t, random.sized(width), width, frac);
                negative(t, -1 - (random.next() >> 1) as i64, width, frac);
            }
        }
    }
}

/// Formats that are none.
fn no_formats(t: &mut Tally) {
    for width in (0..200).chain([u32::MAX, u32::MAX - 1, 1 << 31, 264, 272, 288, 320]) {
        for frac in (0..80).chain([u32::MAX, 1 << 31, 256, 264]) {
            for raw in [0, 1, 255, u64::MAX] {
                number(t, raw, width, frac);
            }
            negative(t, -1, width, frac);
        }
    }
}

// ---- timing: both sides in one run, each call not inlined, on the same raws

#[inline(never)]
fn s_16<const F: u32>(raw: u64) -> i32 {
    s_u16(raw as u16, F)
}

#[inline(never)]
fn s_32<const F: u32>(raw: u64) -> i32 {
    s_u32(raw as u32, F)
}

/// Width, fraction bits, and a pass of S, which has these as constants.
const TIMED: [(u32, u32, fn(&[u64]) -> f64); 6] = [
    (16, 16, |raws| each(raws, s_16::<16>)),
    (16, 15, |raws| each(raws, s_16::<15>)),
    (16, 8, |raws| each(raws, s_16::<8>)),
    (32, 32, |raws| each(raws, s_32::<32>)),
    (32, 16, |raws| each(raws, s_32::<16>)),
    (32, 0, |raws| each(raws, s_32::<0>)),
];

const RAWS: usize = 1_000_000;

/// A line for each format: the medians of the rounds. `raw` makes a raw of a width and a number of fraction bits.
fn time(rounds: usize, kind: &str, mut raw: impl FnMut(u32, u32) -> u64) {
    for (width, frac, of_s) in TIMED {
        let raws: Vec<u64> = (0..RAWS).map(|_| raw(width, frac).max(1)).collect();
        let (ours, theirs) = in_turns(
            rounds,
            || each(&raws, |raw| unsafe { tq_log10_unsigned(raw, width, frac).value }),
            || of_s(&raws),
        );
        let (ours, theirs) = (ours.median(), theirs.median());
        println!("time W {width} F {frac}, {kind}: ours {ours:.2} ns, S {theirs:.2} ns, ratio {:.2}", ours / theirs);
    }
}

/// What the call and its checks take alone: zero is refused behind them.
fn time_refused(rounds: usize) {
    let raws = vec![0; RAWS];
    let refused = || each(&raws, |raw| unsafe { tq_log10_unsigned(raw, 16, 15).value });
    println!("time W 16 F 15, refused with 32: ours {:.2} ns", in_turns(rounds, refused, refused).0.median());
}

/// `log10 [ROUNDS]`: with 0 nothing is timed.
fn main() {
    let rounds = std::env::args().nth(1).map_or(15, |n| n.parse().expect("ROUNDS is a number"));
    let mut t = Tally::default();
    narrow(&mut t);
    near_powers(&mut t);
    at_random(&mut t);
    no_formats(&mut t);
    if rounds > 0 {
        time_refused(rounds);
        let mut random = Random::new(99);
        time(rounds, "uniform raws", |width, _| random.next() >> (64 - width));
        time(rounds, "log-uniform raws", |width, _| random.sized(width));
        time(rounds, "log-uniform raws below one", |_, frac| random.sized(frac.max(1)));
    }
    t.close()
}
