//! The grammar: the automaton of docs/GRAMMAR.md, state by state. Nothing here knows of formats or values.

use crate::format::Reader;

/// What a text that is a number says: `digits` (their values) with the point before the last `places` of them,
/// times `base` to the power `exponent`.
#[derive(Clone, Debug, PartialEq, Eq)]
pub struct Written {
    pub negative: bool,
    pub radix: u32,
    pub digits: Vec<u8>,
    pub places: usize,
    pub base: u32,
    pub exponent: i32,
}

#[derive(Clone, Copy, Debug, PartialEq, Eq)]
enum State {
    Start,
    Signed,
    Whole,
    Point,
    Fraction,
    Mark,
    ExponentSigned,
    Exponent,
}

#[derive(Clone, Copy, Debug, PartialEq, Eq)]
enum Class {
    Sign,
    Point,
    Underscore,
    /// An exponent mark, with the base that it scales by.
    Mark(u32),
    Digit(u8),
    Other,
}

pub const NO_DIGITS: u32 = 11;
pub const MISPLACED_SIGN: u32 = 12;
pub const INVALID_DIGIT: u32 = 13;
pub const MISPLACED_UNDERSCORE: u32 = 14;
pub const TOO_MANY_POINTS: u32 = 15;
pub const INVALID_EXPONENT_DIGIT: u32 = 16;
pub const EXPONENT_WITHOUT_DIGITS: u32 = 17;
pub const TOO_MANY_EXPONENTS: u32 = 18;
pub const EXPONENT_OVERFLOW: u32 = 19;

/// The text as the given reader takes it, or the number of the refusal.
pub fn scan(text: &[u8], reader: Reader, signed: bool) -> Result<Written, u32> {
    match reader {
        Reader::Plain { radix, .. } => Scanner::new(radix, false, State::Start).run(text),
        Reader::Literal => scan_literal(text, signed),
    }
}

/// The sign and the prefix of a literal go first; its body can have no sign, so it starts as if one had been read.
fn scan_literal(text: &[u8], signed: bool) -> Result<Written, u32> {
    let (negative, unsigned_text) = match text.strip_prefix(b"-") {
        Some(rest) if signed => (true, rest),
        _ => (false, text),
    };
    let (radix, body) = prefix(unsigned_text);
    let mut written = Scanner::new(radix, true, State::Signed).run(body)?;
    written.negative = negative;
    Ok(written)
}

/// The radix, and what comes after the prefix and the underscores that may follow a prefix.
fn prefix(text: &[u8]) -> (u32, &[u8]) {
    for (mark, radix) in [(b"0b", 2), (b"0o", 8), (b"0x", 16)] {
        if let Some(rest) = text.strip_prefix(mark) {
            let underscores = rest.iter().take_while(|byte| **byte == b'_').count();
            return (radix, &rest[underscores..]);
        }
    }
    (10, text)
}

struct Scanner {
    state: State,
    underscores: bool,
    exponent_negative: bool,
    written: Written,
}

impl Scanner {
    fn new(radix: u32, underscores: bool, state: State) -> Scanner {
        let written = Written { negative: false, radix, digits: Vec::new(), places: 0, base: radix, exponent: 0 };
        Scanner { state, underscores, exponent_negative: false, written }
    }

    fn run(mut self, text: &[u8]) -> Result<Written, u32> {
        for byte in text {
            self.state = if self.in_exponent() { self.exponent_step(*byte)? } else { self.mantissa_step(*byte)? };
        }
        self.end()
    }

    fn in_exponent(&self) -> bool {
        matches!(self.state, State::Mark | State::ExponentSigned | State::Exponent)
    }

    fn mantissa_step(&mut self, byte: u8) -> Result<State, u32> {
        use State::*;
        match (class(byte, self.written.radix, self.written.radix), self.state) {
            (Class::Sign, Start) => {
                self.written.negative = byte == b'-';
                Ok(Signed)
            }
            (Class::Sign, _) => Err(MISPLACED_SIGN),
            (Class::Point, Start | Signed | Whole) => Ok(Point),
            (Class::Point, _) => Err(TOO_MANY_POINTS),
            (Class::Underscore, _) if !self.underscores => Err(INVALID_DIGIT),
            (Class::Underscore, Whole | Fraction) => Ok(self.state),
            (Class::Underscore, _) => Err(MISPLACED_UNDERSCORE),
            (Class::Mark(base), _) => {
                self.written.base = base;
                Ok(Mark)
            }
            (Class::Digit(digit), Start | Signed | Whole) => {
                self.written.digits.push(digit);
                Ok(Whole)
            }
            (Class::Digit(digit), _) => {
                self.written.digits.push(digit);
                self.written.places += 1;
                Ok(Fraction)
            }
            (Class::Other, _) => Err(INVALID_DIGIT),
        }
    }

    fn exponent_step(&mut self, byte: u8) -> Result<State, u32> {
        use State::*;
        match (class(byte, self.written.radix, 10), self.state) {
            (Class::Sign, Mark) => {
                self.exponent_negative = byte == b'-';
                Ok(ExponentSigned)
            }
            (Class::Sign, _) => Err(MISPLACED_SIGN),
            (Class::Underscore, _) if !self.underscores => Err(INVALID_EXPONENT_DIGIT),
            (Class::Underscore, Exponent) => Ok(Exponent),
            (Class::Underscore, _) => Err(MISPLACED_UNDERSCORE),
            (Class::Mark(_), _) => Err(TOO_MANY_EXPONENTS),
            (Class::Digit(digit), _) => {
                let step = i64::from(digit) * if self.exponent_negative { -1 } else { 1 };
                let exponent = i64::from(self.written.exponent) * 10 + step;
                self.written.exponent = i32::try_from(exponent).map_err(|_| EXPONENT_OVERFLOW)?;
                Ok(Exponent)
            }
            (Class::Point | Class::Other, _) => Err(INVALID_EXPONENT_DIGIT),
        }
    }

    fn end(self) -> Result<Written, u32> {
        if self.written.digits.is_empty() {
            return Err(NO_DIGITS);
        }
        if matches!(self.state, State::Mark | State::ExponentSigned) {
            return Err(EXPONENT_WITHOUT_DIGITS);
        }
        Ok(self.written)
    }
}

/// `radix` is that of the number and decides the marks; `digit_radix` is that of the digits here, 10 in the exponent.
fn class(byte: u8, radix: u32, digit_radix: u32) -> Class {
    match (byte, radix) {
        (b'+' | b'-', _) => Class::Sign,
        (b'.', _) => Class::Point,
        (b'_', _) => Class::Underscore,
        (b'@', _) | (b'e' | b'E', 2 | 8 | 10) => Class::Mark(radix),
        (b'p' | b'P', 2 | 8 | 16) => Class::Mark(2),
        _ => match char::from(byte).to_digit(digit_radix) {
            Some(digit) => Class::Digit(digit as u8),
            None => Class::Other,
        },
    }
}
