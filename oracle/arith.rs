//! Compares the archive's arithmetic and byte order with an exact model over 128-bit integers, written from document
//! 01's words. Built and run by `oracle/program arith`.

mod common;

use common::capi::*;
use common::exact::Exact;
use common::format::{Answer, Format, MANNERS, OVERFLOWING, WIDTHS, WRAPPING};
use common::random::Random;
use common::tally::Tally;
use common::telling::{edges, every_case, format, no_formats, raw};

// ---- the model

fn quotient(a: i128, b: i128, frac: u32) -> Exact {
    let size = (a.unsigned_abs() << frac) / b.unsigned_abs();
    Exact { neg: (a < 0) != (b < 0) && size != 0, size }
}

fn operation(name: &str, a: i128, b: i128, frac: u32) -> Exact {
    match name {
        "add" => Exact::of(a + b),
        "sub" => Exact::of(a - b),
        "mul" => Exact::product(a, b, frac),
        "div" => quotient(a, b, frac),
        _ => Exact::of(a % b),
    }
}

fn model(name: &str, a: i128, b: i128, format: Format, manner: u32) -> Answer {
    match format.refusal() {
        Some(number) => Answer::refused(number),
        None if b == 0 && (name == "div" || name == "rem") => Answer::refused(31),
        None => operation(name, a, b, format.frac).settled(format, manner),
    }
}

fn shifted(left: bool, a: i128, count: u32, format: Format, manner: u32) -> Answer {
    if let Some(number) = format.refusal() {
        return Answer::refused(number);
    }
    let past = count >= format.width;
    if past && manner != WRAPPING && manner != OVERFLOWING {
        return Answer::refused(10);
    }
    let by = count % format.width;
    // the size of a x 2^by is below 2^128; to the right, the shift of a negative number is its floor
    let x = if left { Exact { neg: a < 0, size: a.unsigned_abs() << by } } else { Exact::of(a >> by) };
    Answer::done(x.wrapped(format), manner == OVERFLOWING && past)
}

// ---- comparing

const PAIRS: [(&str, TwoSigned, TwoUnsigned); 5] = [
    ("add", tq_add_signed, tq_add_unsigned),
    ("sub", tq_sub_signed, tq_sub_unsigned),
    ("mul", tq_mul_signed, tq_mul_unsigned),
    ("div", tq_div_signed, tq_div_unsigned),
    ("rem", tq_rem_signed, tq_rem_unsigned),
];

fn pair(t: &mut Tally, a: i128, b: i128, format: Format, manner: u32) {
    let Format { signed, width, frac } = format;
    for (name, of_signed, of_unsigned) in PAIRS {
        let found = answer!(signed, of_signed | of_unsigned, [a, b], width, frac, manner);
        t.same(found, model(name, a, b, format, manner), || {
            format!("{name} of {a} and {b}, {format:?}, manner {manner}")
        });
    }
}

/// The negation, and shifts by counts of every kind.
fn single(t: &mut Tally, a: i128, format: Format, manner: u32) {
    let Format { signed, width, frac } = format;
    let found = answer!(signed, tq_neg_signed | tq_neg_unsigned, [a], width, frac, manner);
    t.same(found, model("sub", 0, a, format, manner), || format!("neg of {a}, {format:?}, manner {manner}"));
    for count in [0, 1, 7, 8, 15, 31, 33, 63, 64, 65, width.wrapping_sub(1), width, u32::MAX] {
        for left in [true, false] {
            let found = match left {
                true => answer!(signed, tq_shl_signed | tq_shl_unsigned, [a], count, width, frac, manner),
                false => answer!(signed, tq_shr_signed | tq_shr_unsigned, [a], count, width, frac, manner),
            };
            let wanted = shifted(left, a, count, format, manner);
            t.same(found, wanted, || format!("shift of {a} by {count}, left {left}, {format:?}, manner {manner}"));
        }
    }
}

/// A buffer as it was lent, with some room; what is behind the room must stay.
const LENT: [u8; 9] = [0xa5; 9];

/// The bytes of a raw, in a buffer of each length up to nine; what is read back of them; and the swap.
fn bytes(t: &mut Tally, a: i128, format: Format) {
    for big in [true, false] {
        for room in 0..=LENT.len() {
            let left = to_bytes(t, a, format, big, room);
            from_bytes(t, a, format, big, &left[..room]);
        }
    }
    swap(t, a, format);
}

/// Answers the buffer that must be left.
fn to_bytes(t: &mut Tally, a: i128, format: Format, big: bool, room: usize) -> [u8; 9] {
    let Format { signed, width, frac } = format;
    let size = width as usize / 8;
    let mut out = LENT;
    let to = out.as_mut_ptr();
    let found = match big {
        true => answer!(signed, tq_to_be_bytes_signed | tq_to_be_bytes_unsigned, [a], width, frac, to, room),
        false => answer!(signed, tq_to_le_bytes_signed | tq_to_le_bytes_unsigned, [a], width, frac, to, room),
    };
    let mut left = LENT;
    let wanted = match format.refusal() {
        Some(number) => Answer::refused(number),
        None if room < size => Answer::refused(5),
        None => {
            left[..size].copy_from_slice(&(a as u64).to_le_bytes()[..size]);
            if big {
                left[..size].reverse();
            }
            Answer::done(size as i128, false)
        }
    };
    let told = || format!("bytes of {a}, big {big}, {format:?}, room {room}");
    t.same(found, wanted, told);
    t.same(out, left, || format!("the buffer after {}", told()));
    left
}

fn from_bytes(t: &mut Tally, a: i128, format: Format, big: bool, bytes: &[u8]) {
    let Format { signed, width, frac } = format;
    let (from, len) = (bytes.as_ptr(), bytes.len());
    let found = match big {
        true => answer!(signed, tq_from_be_bytes_signed | tq_from_be_bytes_unsigned, [], from, len, width, frac),
        false => answer!(signed, tq_from_le_bytes_signed | tq_from_le_bytes_unsigned, [], from, len, width, frac),
    };
    let wanted = match format.refusal() {
        Some(number) => Answer::refused(number),
        None if len != width as usize / 8 => Answer::refused(5),
        None => Answer::done(Exact::of(a).wrapped(format), false),
    };
    t.same(found, wanted, || format!("reading the {len} bytes of {a}, big {big}, {format:?}"));
}

fn swap(t: &mut Tally, a: i128, format: Format) {
    let Format { signed, width, frac } = format;
    let found = answer!(signed, tq_swap_bytes_signed | tq_swap_bytes_unsigned, [a], width, frac);
    let wanted = match format.refusal() {
        Some(number) => Answer::refused(number),
        None => Exact::of(i128::from((a as u64).swap_bytes() >> (64 - width))).settled(format, WRAPPING),
    };
    t.same(found, wanted, || format!("swap of {a}, {format:?}"));
}

// ---- what is asked

fn every_number(t: &mut Tally, signed: bool) {
    every_case(signed, |format, manner, numbers, _| {
        for &a in numbers {
            single(t, a, format, manner);
            numbers.iter().for_each(|b| pair(t, a, *b, format, manner));
        }
    });
}

/// All raws of W = 8, the edges of every width in every width, and what is no format.
fn every_byte(t: &mut Tally, signed: bool) {
    let narrow = Format { signed, width: 8, frac: 4 };
    (narrow.lowest()..=narrow.highest()).for_each(|a| bytes(t, a, narrow));
    for width in WIDTHS {
        let format = Format { signed, width, frac: width / 2 };
        WIDTHS.iter().flat_map(|of| edges(signed, *of)).for_each(|a| bytes(t, a, format));
    }
    no_formats(signed).for_each(|format| bytes(t, 1, format));
}

fn at_random(t: &mut Tally, random: &mut Random, signed: bool) {
    for _ in 0..300_000 {
        let (format, manner) = (format(random, signed), random.pick(&MANNERS));
        let (a, b) = (raw(random, format), raw(random, format));
        pair(t, a, b, format, manner);
        single(t, a, format, manner);
    }
}

fn main() {
    let mut t = Tally::default();
    let mut random = Random::new(1);
    for signed in [true, false] {
        every_number(&mut t, signed);
        every_byte(&mut t, signed);
        at_random(&mut t, &mut random, signed);
    }
    t.close()
}
