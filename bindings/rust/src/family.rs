//! What the signed and the unsigned formats share: said once, for both modules.

/// The same method in the four manners, as the crate `fixed` names them; the strict one has the plain name.
macro_rules! manners {
    ($raw:ty: $strict:ident $saturating:ident $wrapping:ident $overflowing:ident ($($arg:ident: $type:ty),*), $says:literal, $call:expr) => {
        #[doc = $says]
        #[doc = "\n\nA result that does not fit is refused: [`Error::Overflow`]."]
        pub fn $strict(self, $($arg: $type),*) -> Result<$raw, Error> {
            ($call)(self, $($arg,)* 0).value()
        }

        #[doc = $says]
        #[doc = "\n\nA result that does not fit is held to the nearer end of the range."]
        pub fn $saturating(self, $($arg: $type),*) -> Result<$raw, Error> {
            ($call)(self, $($arg,)* 1).value()
        }

        manners! { $raw: $wrapping $overflowing ($($arg: $type),*), $says, $call }
    };
    ($raw:ty: $wrapping:ident $overflowing:ident ($($arg:ident: $type:ty),*), $says:literal, $call:expr) => {
        #[doc = $says]
        #[doc = "\n\nThe raw congruent to the result modulo 2^width."]
        pub fn $wrapping(self, $($arg: $type),*) -> Result<$raw, Error> {
            ($call)(self, $($arg,)* 2).value()
        }

        #[doc = $says]
        #[doc = "\n\nThe wrapped raw, and whether it had to be wrapped."]
        pub fn $overflowing(self, $($arg: $type),*) -> Result<($raw, bool), Error> {
            ($call)(self, $($arg,)* 3).flagged()
        }
    };
}

/// The functions of the archive for a family. Those that take numbers alone are safe: the archive answers whatever they are.
macro_rules! declarations {
    ($family:literal, $raw:ty) => {
        mod c {
            use crate::answer::Answer;
            type Raw = Answer<$raw>;

            unsafe extern "C" {
                #[link_name = concat!("tq_read_", $family)]
                pub unsafe fn read(text: *const u8, len: usize, width: u32, frac: u32, radix: u32, manner: u32) -> Raw;
                #[link_name = concat!("tq_literal_", $family)]
                pub unsafe fn literal(text: *const u8, len: usize, width: u32, frac: u32) -> Raw;
                #[link_name = concat!("tq_write_", $family)]
                pub unsafe fn write(raw: $raw, width: u32, frac: u32, out: *mut u8, len: usize) -> Answer<u64>;
                #[link_name = concat!("tq_log10_", $family)]
                pub safe fn log10(raw: $raw, width: u32, frac: u32) -> Answer<i64>;
                #[link_name = concat!("tq_add_", $family)]
                pub safe fn add(a: $raw, b: $raw, width: u32, frac: u32, manner: u32) -> Raw;
                #[link_name = concat!("tq_sub_", $family)]
                pub safe fn sub(a: $raw, b: $raw, width: u32, frac: u32, manner: u32) -> Raw;
                #[link_name = concat!("tq_mul_", $family)]
                pub safe fn mul(a: $raw, b: $raw, width: u32, frac: u32, manner: u32) -> Raw;
                #[link_name = concat!("tq_div_", $family)]
                pub safe fn div(a: $raw, b: $raw, width: u32, frac: u32, manner: u32) -> Raw;
                #[link_name = concat!("tq_rem_", $family)]
                pub safe fn rem(a: $raw, b: $raw, width: u32, frac: u32, manner: u32) -> Raw;
                #[link_name = concat!("tq_neg_", $family)]
                pub safe fn neg(a: $raw, width: u32, frac: u32, manner: u32) -> Raw;
                #[link_name = concat!("tq_shl_", $family)]
                pub safe fn shl(a: $raw, count: u32, width: u32, frac: u32, manner: u32) -> Raw;
                #[link_name = concat!("tq_shr_", $family)]
                pub safe fn shr(a: $raw, count: u32, width: u32, frac: u32, manner: u32) -> Raw;
                #[link_name = concat!("tq_abs_", $family)]
                pub safe fn abs(a: $raw, width: u32, frac: u32, manner: u32) -> Raw;
                #[link_name = concat!("tq_signum_", $family)]
                pub safe fn signum(a: $raw, width: u32, frac: u32, manner: u32) -> Raw;
                #[link_name = concat!("tq_floor_", $family)]
                pub safe fn floor(a: $raw, width: u32, frac: u32, manner: u32) -> Raw;
                #[link_name = concat!("tq_ceil_", $family)]
                pub safe fn ceil(a: $raw, width: u32, frac: u32, manner: u32) -> Raw;
                #[link_name = concat!("tq_round_", $family)]
                pub safe fn round(a: $raw, width: u32, frac: u32, manner: u32) -> Raw;
                #[link_name = concat!("tq_round_ties_even_", $family)]
                pub safe fn round_ties_even(a: $raw, width: u32, frac: u32, manner: u32) -> Raw;
                #[link_name = concat!("tq_int_", $family)]
                pub safe fn int(a: $raw, width: u32, frac: u32, manner: u32) -> Raw;
                #[link_name = concat!("tq_frac_", $family)]
                pub safe fn frac(a: $raw, width: u32, frac: u32, manner: u32) -> Raw;
                #[link_name = concat!("tq_rem_euclid_", $family)]
                pub safe fn rem_euclid(a: $raw, b: $raw, width: u32, frac: u32, manner: u32) -> Raw;
                #[link_name = concat!("tq_div_euclid_", $family)]
                pub safe fn div_euclid(a: $raw, b: $raw, width: u32, frac: u32, manner: u32) -> Raw;
                #[link_name = concat!("tq_dist_", $family)]
                pub safe fn dist(a: $raw, b: $raw, width: u32, frac: u32, manner: u32) -> Raw;
                #[link_name = concat!("tq_mean_", $family)]
                pub safe fn mean(a: $raw, b: $raw, width: u32, frac: u32, manner: u32) -> Raw;
                #[link_name = concat!("tq_mul_add_", $family)]
                pub safe fn mul_add(a: $raw, b: $raw, c: $raw, width: u32, frac: u32, manner: u32) -> Raw;
                #[link_name = concat!("tq_swap_bytes_", $family)]
                pub safe fn swap_bytes(a: $raw, width: u32, frac: u32) -> Raw;
                #[link_name = concat!("tq_to_be_bytes_", $family)]
                pub unsafe fn to_be_bytes(a: $raw, width: u32, frac: u32, out: *mut u8, len: usize) -> Answer<u64>;
                #[link_name = concat!("tq_to_le_bytes_", $family)]
                pub unsafe fn to_le_bytes(a: $raw, width: u32, frac: u32, out: *mut u8, len: usize) -> Answer<u64>;
                #[link_name = concat!("tq_from_be_bytes_", $family)]
                pub unsafe fn from_be_bytes(bytes: *const u8, len: usize, width: u32, frac: u32) -> Raw;
                #[link_name = concat!("tq_from_le_bytes_", $family)]
                pub unsafe fn from_le_bytes(bytes: *const u8, len: usize, width: u32, frac: u32) -> Raw;
                #[link_name = concat!("tq_from_f32_", $family)]
                pub safe fn from_f32(pattern: u32, width: u32, frac: u32, manner: u32) -> Raw;
                #[link_name = concat!("tq_from_f64_", $family)]
                pub safe fn from_f64(pattern: u64, width: u32, frac: u32, manner: u32) -> Raw;
                #[link_name = concat!("tq_to_f32_", $family)]
                pub safe fn to_f32(raw: $raw, width: u32, frac: u32) -> Answer<u64>;
                #[link_name = concat!("tq_to_f64_", $family)]
                pub safe fn to_f64(raw: $raw, width: u32, frac: u32) -> Answer<u64>;
                #[link_name = concat!("tq_convert_", $family, "_to_signed")]
                pub safe fn to_signed(r: $raw, w: u32, f: u32, width: u32, frac: u32, manner: u32) -> Answer<i64>;
                #[link_name = concat!("tq_convert_", $family, "_to_unsigned")]
                pub safe fn to_unsigned(r: $raw, w: u32, f: u32, width: u32, frac: u32, manner: u32) -> Answer<u64>;
            }
        }
    };
}

/// Reading and writing.
macro_rules! texts {
    ($raw:ty) => {
        impl Format {
            manners! { $raw: read saturating_read wrapping_read overflowing_read (text: impl AsRef<[u8]>, radix: u32),
                "The nearest raw to the number written in radix 2, 8, 10 or 16, ties to even. Sign, digits, at most one point, exponent; no `_`.",
                |f: Format, text: _, radix, manner| {
                    let text = AsRef::<[u8]>::as_ref(&text);
                    unsafe { c::read(text.as_ptr(), text.len(), f.width, f.frac, radix, manner) }
                }
            }

            /// A literal: as [`Format::read`], but the radix is the text's own (`0b`, `0o`, `0x`, else 10), `_` may stand between digits, and
            /// the number has no `+`. Refused where it does not fit.
            pub fn read_literal(self, text: impl AsRef<[u8]>) -> Result<$raw, Error> {
                let text = text.as_ref();
                unsafe { c::literal(text.as_ptr(), text.len(), self.width, self.frac) }.value()
            }

            /// The exact decimal text, into a buffer; how many bytes it has. A buffer that is too short is [`Error::WrongLength`] and stays as
            /// it was, and so do the bytes after the text.
            pub fn write(self, raw: $raw, out: &mut [u8]) -> Result<usize, Error> {
                let written = unsafe { c::write(raw, self.width, self.frac, out.as_mut_ptr(), out.len()) };
                written.value().map(|n| n as usize)
            }

            /// The exact decimal text. Reading it in radix 10 gives the raw again.
            pub fn text(self, raw: $raw) -> Result<Text, Error> {
                let mut text = Text { bytes: [0; LONGEST], len: 0 };
                text.len = self.write(raw, &mut text.bytes)?;
                Ok(text)
            }
        }
    };
}

macro_rules! arithmetic {
    ($raw:ty) => {
        impl Format {
            manners! { $raw: add saturating_add wrapping_add overflowing_add (a: $raw, b: $raw), "The sum.",
                |f: Format, a, b, manner| c::add(a, b, f.width, f.frac, manner) }
            manners! { $raw: sub saturating_sub wrapping_sub overflowing_sub (a: $raw, b: $raw), "The difference.",
                |f: Format, a, b, manner| c::sub(a, b, f.width, f.frac, manner) }
            manners! { $raw: mul saturating_mul wrapping_mul overflowing_mul (a: $raw, b: $raw), "The product, rounded toward minus infinity.",
                |f: Format, a, b, manner| c::mul(a, b, f.width, f.frac, manner) }
            manners! { $raw: div saturating_div wrapping_div overflowing_div (a: $raw, b: $raw),
                "The quotient, rounded toward zero. Dividing by 0 is [`Error::ZeroDivisor`].",
                |f: Format, a, b, manner| c::div(a, b, f.width, f.frac, manner) }
            manners! { $raw: rem saturating_rem wrapping_rem overflowing_rem (a: $raw, b: $raw),
                "The remainder, with the sign of `a`. Dividing by 0 is [`Error::ZeroDivisor`].",
                |f: Format, a, b, manner| c::rem(a, b, f.width, f.frac, manner) }
            manners! { $raw: neg saturating_neg wrapping_neg overflowing_neg (a: $raw), "The negative.",
                |f: Format, a, manner| c::neg(a, f.width, f.frac, manner) }
            manners! { $raw: wrapping_shl overflowing_shl (a: $raw, count: u32),
                "The raw shifted to the left; the count is taken modulo the width, and the flag speaks of it alone.",
                |f: Format, a, count, manner| c::shl(a, count, f.width, f.frac, manner) }
            manners! { $raw: wrapping_shr overflowing_shr (a: $raw, count: u32),
                "The raw shifted to the right, its sign kept; the count is taken modulo the width, and the flag speaks of it alone.",
                |f: Format, a, count, manner| c::shr(a, count, f.width, f.frac, manner) }

            /// The raw shifted to the left. A count not below the width is [`Error::Overflow`].
            pub fn shl(self, a: $raw, count: u32) -> Result<$raw, Error> {
                c::shl(a, count, self.width, self.frac, 0).value()
            }

            /// The raw shifted to the right, its sign kept. A count not below the width is [`Error::Overflow`].
            pub fn shr(self, a: $raw, count: u32) -> Result<$raw, Error> {
                c::shr(a, count, self.width, self.frac, 0).value()
            }

            /// The greatest k with 10^k not above the number. Zero and negative numbers are [`Error::NotPositive`].
            pub fn log10(self, raw: $raw) -> Result<i64, Error> {
                c::log10(raw, self.width, self.frac).value()
            }
        }
    };
}

macro_rules! further {
    ($raw:ty) => {
        impl Format {
            manners! { $raw: abs saturating_abs wrapping_abs overflowing_abs (a: $raw),
                "The absolute value.",
                |f: Format, a, manner| c::abs(a, f.width, f.frac, manner) }
            manners! { $raw: signum saturating_signum wrapping_signum overflowing_signum (a: $raw),
                "-1, 0 or 1, as the number is negative, zero or positive.",
                |f: Format, a, manner| c::signum(a, f.width, f.frac, manner) }
            manners! { $raw: floor saturating_floor wrapping_floor overflowing_floor (a: $raw),
                "The next whole number toward minus infinity.",
                |f: Format, a, manner| c::floor(a, f.width, f.frac, manner) }
            manners! { $raw: ceil saturating_ceil wrapping_ceil overflowing_ceil (a: $raw),
                "The next whole number toward plus infinity.",
                |f: Format, a, manner| c::ceil(a, f.width, f.frac, manner) }
            manners! { $raw: round saturating_round wrapping_round overflowing_round (a: $raw),
                "The nearest whole number, ties away from zero.",
                |f: Format, a, manner| c::round(a, f.width, f.frac, manner) }
            manners! { $raw: round_ties_even saturating_round_ties_even wrapping_round_ties_even overflowing_round_ties_even (a: $raw),
                "The nearest whole number, ties to even.",
                |f: Format, a, manner| c::round_ties_even(a, f.width, f.frac, manner) }
            manners! { $raw: int saturating_int wrapping_int overflowing_int (a: $raw),
                "The whole part, toward minus infinity; 0 in a format without integer bits.",
                |f: Format, a, manner| c::int(a, f.width, f.frac, manner) }
            manners! { $raw: frac saturating_frac wrapping_frac overflowing_frac (a: $raw),
                "What is left of the number without its whole part; the number itself in a format without integer bits.",
                |f: Format, a, manner| c::frac(a, f.width, f.frac, manner) }
            manners! { $raw: rem_euclid saturating_rem_euclid wrapping_rem_euclid overflowing_rem_euclid (a: $raw, b: $raw),
                "The remainder of the Euclidean division, never negative. Dividing by 0 is [`Error::ZeroDivisor`].",
                |f: Format, a, b, manner| c::rem_euclid(a, b, f.width, f.frac, manner) }
            manners! { $raw: div_euclid saturating_div_euclid wrapping_div_euclid overflowing_div_euclid (a: $raw, b: $raw),
                "The quotient of the Euclidean division, a whole number. Dividing by 0 is [`Error::ZeroDivisor`].",
                |f: Format, a, b, manner| c::div_euclid(a, b, f.width, f.frac, manner) }
            manners! { $raw: dist saturating_dist wrapping_dist overflowing_dist (a: $raw, b: $raw),
                "The distance between the two.",
                |f: Format, a, b, manner| c::dist(a, b, f.width, f.frac, manner) }
            manners! { $raw: mean saturating_mean wrapping_mean overflowing_mean (a: $raw, b: $raw),
                "The mean of the two, rounded toward minus infinity.",
                |f: Format, a, b, manner| c::mean(a, b, f.width, f.frac, manner) }
            manners! { $raw: mul_add saturating_mul_add wrapping_mul_add overflowing_mul_add (a: $raw, b: $raw, c: $raw),
                "The product of `a` and `b`, rounded toward minus infinity, and `c` added; only the whole result has to fit.",
                |f: Format, a, b, c, manner| c::mul_add(a, b, c, f.width, f.frac, manner) }
        }
    };
}

macro_rules! bytes {
    ($raw:ty) => {
        impl Format {
            /// The raw with its bytes in the other order.
            pub fn swap_bytes(self, raw: $raw) -> Result<$raw, Error> {
                c::swap_bytes(raw, self.width, self.frac).value()
            }

            /// The raw's width / 8 bytes, most significant first; how many they are. Bytes after them stay.
            pub fn to_be_bytes(self, raw: $raw, out: &mut [u8]) -> Result<usize, Error> {
                let written = unsafe { c::to_be_bytes(raw, self.width, self.frac, out.as_mut_ptr(), out.len()) };
                written.value().map(|n| n as usize)
            }

            /// The raw's width / 8 bytes, least significant first; how many they are. Bytes after them stay.
            pub fn to_le_bytes(self, raw: $raw, out: &mut [u8]) -> Result<usize, Error> {
                let written = unsafe { c::to_le_bytes(raw, self.width, self.frac, out.as_mut_ptr(), out.len()) };
                written.value().map(|n| n as usize)
            }

            /// The raw with these bytes, most significant first: width / 8 of them, else [`Error::WrongLength`].
            pub fn from_be_bytes(self, bytes: &[u8]) -> Result<$raw, Error> {
                unsafe { c::from_be_bytes(bytes.as_ptr(), bytes.len(), self.width, self.frac) }.value()
            }

            /// The raw with these bytes, least significant first: width / 8 of them, else [`Error::WrongLength`].
            pub fn from_le_bytes(self, bytes: &[u8]) -> Result<$raw, Error> {
                unsafe { c::from_le_bytes(bytes.as_ptr(), bytes.len(), self.width, self.frac) }.value()
            }
        }
    };
}

macro_rules! conversions {
    ($raw:ty) => {
        impl Format {
            manners! { i64: to_signed saturating_to_signed wrapping_to_signed overflowing_to_signed (raw: $raw, to: signed::Format),
                "The raw in a signed format: fraction bits that it has not are dropped, toward minus infinity.",
                |f: Format, raw, to: signed::Format, manner| c::to_signed(raw, f.width, f.frac, to.width, to.frac, manner) }
            manners! { u64: to_unsigned saturating_to_unsigned wrapping_to_unsigned overflowing_to_unsigned (raw: $raw, to: unsigned::Format),
                "The raw in an unsigned format: fraction bits that it has not are dropped, toward minus infinity.",
                |f: Format, raw, to: unsigned::Format, manner| c::to_unsigned(raw, f.width, f.frac, to.width, to.frac, manner) }
            manners! { $raw: from_f32 saturating_from_f32 wrapping_from_f32 overflowing_from_f32 (x: f32),
                "The nearest raw, ties to even. NaN is [`Error::NotFinite`], and so is an infinity outside the saturating manner.",
                |f: Format, x: f32, manner| c::from_f32(x.to_bits(), f.width, f.frac, manner) }
            manners! { $raw: from_f64 saturating_from_f64 wrapping_from_f64 overflowing_from_f64 (x: f64),
                "The nearest raw, ties to even. NaN is [`Error::NotFinite`], and so is an infinity outside the saturating manner.",
                |f: Format, x: f64, manner| c::from_f64(x.to_bits(), f.width, f.frac, manner) }

            /// The nearest f32, ties to even.
            pub fn to_f32(self, raw: $raw) -> Result<f32, Error> {
                c::to_f32(raw, self.width, self.frac).value().map(|pattern| f32::from_bits(pattern as u32))
            }

            /// The nearest f64, ties to even.
            pub fn to_f64(self, raw: $raw) -> Result<f64, Error> {
                c::to_f64(raw, self.width, self.frac).value().map(f64::from_bits)
            }
        }
    };
}

/// Every format of a family, by the name that the crate `fixed` gives its type.
macro_rules! constants {
    ($($width:literal: $($name:ident = $frac:literal)*;)*) => {
        $($(
            #[doc = concat!("width ", $width, ", ", $frac, " fraction bits")]
            pub const $name: Format = Format::new($width, $frac);
        )*)*
    };
}

/// A whole family: the format's type, and all that it does.
macro_rules! family {
    ($family:literal, $raw:ty) => {
        use crate::text::{LONGEST, Text};
        use crate::{Error, signed, unsigned};

        declarations!($family, $raw);

        #[doc = concat!("A ", $family, " format: the raw `r` stands for `r / 2^frac`.")]
        ///
        /// A width that is none is refused by every method, first ([`Error::WrongWidth`]), then too many fraction bits ([`Error::WrongFrac`]).
        /// An operand is the number that it is, also where the format could not hold it.
        #[derive(Clone, Copy, Debug, PartialEq, Eq, Hash)]
        pub struct Format {
            /// 8, 16, 32 or 64
            pub width: u32,
            /// 0 to the width
            pub frac: u32,
        }

        impl Format {
            /// Any two numbers; whether they are a format is answered by the methods.
            pub const fn new(width: u32, frac: u32) -> Format {
                Format { width, frac }
            }
        }

        texts!($raw);
        arithmetic!($raw);
        further!($raw);
        bytes!($raw);
        conversions!($raw);
    };
}

pub(crate) use {arithmetic, bytes, constants, conversions, declarations, family, further, manners, texts};
