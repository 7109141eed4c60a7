//! The literal reader of signed I1F15 from docs/GRAMMAR.md, over lists of digits: no number wider than 64 bits occurs. |t| x 2^15 is had by
//! multiplying the digits after the point by 2^15 from the right, as on paper; what passes the point is the raw, what stays decides the rounding.

const LONGEST: usize = 4096;
const STEPS: u64 = 1 << 15;

#[derive(Clone, Copy, PartialEq)]
enum State {
    Signed,
    Whole,
    Point,
    Fraction,
    Mark,
    ExponentSigned,
    Exponent,
}

enum Class {
    Sign,
    Point,
    Underscore,
    Mark,
    Digit(u8),
    Other,
}

use State::*;

fn after_mark(state: State) -> bool {
    matches!(state, Mark | ExponentSigned | Exponent)
}

fn class(byte: u8, radix: u8, state: State) -> Class {
    let marked = match byte {
        b'@' => true,
        b'e' | b'E' => radix != 16,
        b'p' | b'P' => radix != 10,
        _ => false,
    };
    let digit = match byte {
        b'0'..=b'9' => byte - b'0',
        b'a'..=b'f' => byte - b'a' + 10,
        b'A'..=b'F' => byte - b'A' + 10,
        _ => 255,
    };
    match byte {
        b'+' | b'-' => Class::Sign,
        b'.' => Class::Point,
        b'_' => Class::Underscore,
        _ if marked => Class::Mark,
        _ if digit < if after_mark(state) { 10 } else { radix } => Class::Digit(digit),
        _ => Class::Other,
    }
}

/// The table of docs/GRAMMAR.md, the columns of a literal: the next state or the refusal.
fn step(state: State, class: &Class) -> Result<State, u32> {
    match (class, state) {
        (Class::Sign, Mark) => Ok(ExponentSigned),
        (Class::Sign, _) => Err(12),
        (Class::Point, Signed | Whole) => Ok(Point),
        (Class::Point, Point | Fraction) => Err(15),
        (Class::Point, _) => Err(16),
        (Class::Underscore, Whole | Fraction | Exponent) => Ok(state),
        (Class::Underscore, _) => Err(14),
        (Class::Mark, Signed | Whole | Point | Fraction) => Ok(Mark),
        (Class::Mark, _) => Err(18),
        (Class::Digit(_), Signed | Whole) => Ok(Whole),
        (Class::Digit(_), Point | Fraction) => Ok(Fraction),
        (Class::Digit(_), _) => Ok(Exponent),
        (Class::Other, Signed | Whole | Point | Fraction) => Err(13),
        (Class::Other, _) => Err(16),
    }
}

/// What a body holds: its digits, how many stand before the point, the mark (0 if there is none) and the exponent.
struct Body {
    digits: Vec<u8>,
    whole: i64,
    mark: u8,
    exponent: i64,
}

fn scan(text: &[u8], radix: u8) -> Result<Body, u32> {
    let mut state = Signed;
    let mut down = false;
    let mut body = Body { digits: Vec::with_capacity(text.len()), whole: 0, mark: 0, exponent: 0 };
    for &byte in text {
        let class = class(byte, radix, state);
        let next = step(state, &class)?;
        match class {
            Class::Sign => down = byte == b'-',
            Class::Mark => body.mark = byte,
            Class::Digit(d) if next == Exponent => {
                let d = i64::from(d);
                body.exponent = 10 * body.exponent + if down { -d } else { d };
                if i32::try_from(body.exponent).is_err() {
                    return Err(19);
                }
            }
            Class::Digit(d) => {
                body.digits.push(d);
                body.whole += i64::from(next == Whole);
            }
            _ => {}
        }
        state = next;
    }
    match (body.digits.is_empty(), state) {
        (true, _) => Err(11),
        (_, Mark | ExponentSigned) => Err(17),
        _ => Ok(body),
    }
}

/// The same number with bits for digits; radix 2, 8 and 16 only.
fn in_bits(body: Body, bits: i64) -> Body {
    let scale = if matches!(body.mark, b'p' | b'P') { 1 } else { bits };
    let digits = body.digits.iter().flat_map(|d| (0..bits).rev().map(move |k| d >> k & 1)).collect();
    Body { digits, whole: body.whole * bits, mark: body.mark, exponent: body.exponent * scale }
}

/// The digits' number x 2^15, rounded to nearest, ties to even. None: it is 2^16 or more.
fn rounded(body: &Body, radix: u64) -> Option<u64> {
    let zeros = body.digits.iter().take_while(|&&d| d == 0).count();
    let digits = &body.digits[zeros..];
    let before_point = body.whole - zeros as i64 + body.exponent;
    if digits.is_empty() || before_point < -20 {
        return Some(0); // below 2^-20, so below half a step
    }
    if before_point > 1 {
        return None; // the radix or more
    }
    let first = if before_point == 1 { u64::from(digits[0]) } else { 0 };
    let mut fraction = vec![0u8; (-before_point).max(0) as usize];
    fraction.extend_from_slice(&digits[before_point.max(0) as usize..]);
    let mut carry = 0;
    for digit in fraction.iter_mut().rev() {
        let product = u64::from(*digit) * STEPS + carry;
        *digit = (product % radix) as u8;
        carry = product / radix;
    }
    let whole = first * STEPS + carry;
    Some(whole + u64::from(up(&fraction, radix, whole % 2 == 1)))
}

/// Whether a fraction is above one half, or one half beside an odd number.
fn up(fraction: &[u8], radix: u64, odd: bool) -> bool {
    let Some((&first, rest)) = fraction.split_first() else { return false };
    match u64::from(first).cmp(&(radix / 2)) {
        std::cmp::Ordering::Less => false,
        std::cmp::Ordering::Greater => true,
        std::cmp::Ordering::Equal => odd || rest.iter().any(|&d| d != 0),
    }
}

/// The raw, or the refusal.
pub fn read(text: &[u8]) -> Result<i16, u32> {
    if text.len() > LONGEST {
        return Err(4);
    }
    let (negative, text) = match text.strip_prefix(b"-") {
        Some(rest) => (true, rest),
        None => (false, text),
    };
    let (bits, text) = match text {
        [b'0', b'b', rest @ ..] => (1, rest),
        [b'0', b'o', rest @ ..] => (3, rest),
        [b'0', b'x', rest @ ..] => (4, rest),
        _ => (0, text),
    };
    let magnitude = match bits {
        0 => rounded(&scan(text, 10)?, 10),
        _ => {
            let skipped = text.iter().take_while(|&&b| b == b'_').count();
            rounded(&in_bits(scan(&text[skipped..], 1 << bits)?, bits), 2)
        }
    };
    match (magnitude, negative) {
        (Some(m @ 0..=32767), false) => Ok(m as i16),
        (Some(m @ 0..=32768), true) => Ok((-(m as i64)) as i16),
        _ => Err(10),
    }
}
