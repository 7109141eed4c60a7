//! Compares the archive's writer with an exact model, written here from document 01's words. Built and run by
//! `oracle/program decimal`.

mod common;

use common::capi::*;
use common::format::{Answer, Format, WIDTHS};
use common::random::Random;
use common::tally::Tally;

// ---- the model: r / 2^F is r x 5^F / 10^F, in decimal digits throughout

/// The decimal digits of n x 5^F, last digit first.
fn times_five(n: u64, frac: u32) -> Vec<u8> {
    let mut digits: Vec<u8> = n.to_string().bytes().rev().map(|b| b - b'0').collect();
    for _ in 0..frac {
        let mut carry = 0;
        for d in digits.iter_mut() {
            let x = *d * 5 + carry;
            *d = x % 10;
            carry = x / 10;
        }
        while carry > 0 {
            digits.push(carry % 10);
            carry /= 10;
        }
    }
    digits
}

fn model(neg: bool, magnitude: u64, frac: u32) -> Vec<u8> {
    let mut digits = times_five(magnitude, frac);
    let after = frac as usize;
    while digits.len() <= after {
        digits.push(0);
    }
    let mut whole: Vec<u8> = digits.split_off(after);
    while whole.len() > 1 && whole[whole.len() - 1] == 0 {
        whole.pop();
    }
    let mut text = Vec::new();
    if neg {
        text.push(b'-');
    }
    text.extend(whole.iter().rev().map(|d| d + b'0'));
    let zeros = digits.iter().take_while(|d| **d == 0).count();
    if zeros < digits.len() {
        text.push(b'.');
        text.extend(digits[zeros..].iter().rev().map(|d| d + b'0'));
    }
    text
}

// ---- one call: the answer and the buffer, for a buffer of some length

/// The longest text.
const LONGEST: usize = 67;
const ROOM: usize = 80;

fn put(raw: i128, Format { signed, width, frac }: Format, out: &mut [u8]) -> Answer {
    answer!(signed, tq_write_signed | tq_write_unsigned, [raw], width, frac, out.as_mut_ptr(), out.len())
}

fn text_of(raw: i128, format: Format) -> Vec<u8> {
    model(raw < 0, raw.unsigned_abs() as u64, format.frac)
}

fn check(t: &mut Tally, raw: i128, format: Format, room: usize) {
    let text = text_of(raw, format);
    let (mut out, mut left) = ([b'*'; ROOM], [b'*'; ROOM]);
    let found = put(raw, format, &mut out[..room]);
    let wanted = if text.len() <= room {
        left[..text.len()].copy_from_slice(&text);
        Answer::done(text.len() as i128, false)
    } else {
        Answer::refused(5)
    };
    t.see(found == wanted && out == left && text.len() <= LONGEST, || {
        format!("raw {raw}, {format:?}, room {room}: found {found:?} {out:?}, wanted {wanted:?} {left:?}")
    });
}

/// A buffer with room to spare, of exactly the length, one less, and none.
fn every_room(t: &mut Tally, raw: i128, format: Format) {
    let n = text_of(raw, format).len();
    [ROOM, n, n - 1, 0].iter().for_each(|room| check(t, raw, format, *room));
}

fn whole_format(t: &mut Tally, format: Format) {
    (format.lowest()..=format.highest()).for_each(|raw| check(t, raw, format, LONGEST));
}

fn refused(t: &mut Tally, width: u32, frac: u32, number: u32) {
    for signed in [true, false] {
        for room in [0, LONGEST] {
            let mut out = [b'*'; LONGEST];
            let found = put(1, Format { signed, width, frac }, &mut out[..room]);
            t.see(found == Answer::refused(number) && out == [b'*'; LONGEST], || {
                format!("W = {width}, F = {frac}: found {found:?} {out:?}, wanted {number}")
            });
        }
    }
}

/// Every raw of W = 8 with every F, and of W = 16 with several.
fn narrow(t: &mut Tally, signed: bool) {
    (0..=8).for_each(|frac| whole_format(t, Format { signed, width: 8, frac }));
    [0, 1, 7, 8, 15, 16].iter().for_each(|frac| whole_format(t, Format { signed, width: 16, frac: *frac }));
}

/// The ends of every format, 0, 1 and -1, in every buffer.
fn ends(t: &mut Tally, signed: bool) {
    for format in Format::all(signed) {
        let raws: &[i128] = match signed {
            true => &[format.lowest(), -1, 0, 1, format.highest()],
            false => &[0, 1, format.highest()],
        };
        raws.iter().for_each(|raw| every_room(t, *raw, format));
    }
}

/// The powers of ten and of two, in every buffer.
fn powers(t: &mut Tally) {
    let tens = (0..20).map(|k| 10i128.pow(k));
    let twos = (0..64).map(|k| 1i128 << k);
    let raws: Vec<i128> = tens.chain(twos).flat_map(|power| [power - 1, power]).collect();
    for frac in 0..=64 {
        raws.iter().for_each(|raw| every_room(t, *raw, Format { signed: false, width: 64, frac }));
    }
}

/// Wide raws at random, also where the format could not hold them.
fn at_random(t: &mut Tally) {
    let mut random = Random::new(1);
    for _ in 0..400_000 {
        let width = random.pick(&WIDTHS);
        let frac = random.below(width as usize + 1) as u32;
        let raw = random.sized(64);
        check(t, i128::from(raw), Format { signed: false, width, frac }, LONGEST);
        check(t, i128::from(raw as i64), Format { signed: true, width, frac }, LONGEST);
    }
}

/// The refusals in their order.
fn refusals(t: &mut Tally) {
    for frac in [0, 8, 65] {
        [0, 7, 9, 63, 65, u32::MAX].iter().for_each(|width| refused(t, *width, frac, 1));
    }
    for width in WIDTHS {
        refused(t, width, width + 1, 2);
        refused(t, width, u32::MAX, 2);
    }
}

fn main() {
    let mut t = Tally::default();
    for signed in [true, false] {
        narrow(&mut t, signed);
        ends(&mut t, signed);
    }
    powers(&mut t);
    at_random(&mut t);
    refusals(&mut t);
    t.close()
}
