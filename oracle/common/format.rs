//! Formats, manners and answers, in the words of document 01.

use super::capi::{Signed, Unsigned};

pub const WIDTHS: [u32; 4] = [8, 16, 32, 64];
pub const MANNERS: [u32; 4] = [STRICT, SATURATING, WRAPPING, OVERFLOWING];
pub const STRICT: u32 = 0;
pub const SATURATING: u32 = 1;
pub const WRAPPING: u32 = 2;
pub const OVERFLOWING: u32 = 3;

#[derive(Clone, Copy, Debug, PartialEq, Eq)]
pub struct Format {
    pub signed: bool,
    pub width: u32,
    pub frac: u32,
}

impl Format {
    /// Refusals 1 and 2: a width that is not one of the four, F above W.
    pub fn refusal(self) -> Option<u32> {
        if !WIDTHS.contains(&self.width) {
            Some(1)
        } else if self.frac > self.width {
            Some(2)
        } else {
            None
        }
    }

    /// Of two formats a wrong width on either side goes before wrong fraction bits on either side.
    pub fn refusal_of_both(one: Format, other: Format) -> Option<u32> {
        one.refusal().into_iter().chain(other.refusal()).min()
    }

    pub fn lowest(self) -> i128 {
        if self.signed { -(1 << (self.width - 1)) } else { 0 }
    }

    pub fn highest(self) -> i128 {
        if self.signed { (1 << (self.width - 1)) - 1 } else { (1 << self.width) - 1 }
    }

    pub fn holds(self, raw: i128) -> bool {
        (self.lowest()..=self.highest()).contains(&raw)
    }

    /// Every width with every number of fraction bits.
    pub fn all(signed: bool) -> impl Iterator<Item = Format> {
        WIDTHS.into_iter().flat_map(move |width| (0..=width).map(move |frac| Format { signed, width, frac }))
    }
}

/// What a public function gives back: document 01, "Answers". A refusal has value 0 and no flag.
#[derive(Clone, Copy, Debug, PartialEq, Eq)]
pub struct Answer {
    pub number: u32,
    pub flag: bool,
    pub value: i128,
}

impl Answer {
    pub fn done(value: i128, flag: bool) -> Answer {
        Answer { number: 0, flag, value }
    }

    pub fn refused(number: u32) -> Answer {
        Answer { number, flag: false, value: 0 }
    }

    /// A flag that is neither 0 nor 1 is shown as a number that no answer has.
    fn given(number: u32, flag: u32, value: i128) -> Answer {
        Answer { number: if flag <= 1 { number } else { u32::MAX }, flag: flag != 0, value }
    }
}

impl From<Signed> for Answer {
    fn from(a: Signed) -> Answer {
        Answer::given(a.number, a.flag, i128::from(a.value))
    }
}

impl From<Unsigned> for Answer {
    fn from(a: Unsigned) -> Answer {
        Answer::given(a.number, a.flag, i128::from(a.value))
    }
}
