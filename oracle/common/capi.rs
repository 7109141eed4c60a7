//! The functions of the archive as include/tamqoret.h declares them, their answers, and how a comparison asks them.

#[repr(C)]
#[derive(Clone, Copy, Debug, PartialEq)]
pub struct Signed {
    pub number: u32,
    pub flag: u32,
    pub value: i64,
}

#[repr(C)]
#[derive(Clone, Copy, Debug, PartialEq)]
pub struct Unsigned {
    pub number: u32,
    pub flag: u32,
    pub value: u64,
}

/// The answer to a fitting file.
#[repr(C)]
#[derive(Clone, Copy, Debug, PartialEq)]
pub struct File {
    pub number: u32,
    pub line: u32,
    pub inner: u32,
    pub values: u32,
}

/// The filter's state.
pub type State = [i16; 64];

/// One raw and a manner.
pub type OneSigned = unsafe extern "C" fn(a: i64, width: u32, frac: u32, manner: u32) -> Signed;
pub type OneUnsigned = unsafe extern "C" fn(a: u64, width: u32, frac: u32, manner: u32) -> Unsigned;

/// Two raws of one format, and a manner.
pub type TwoSigned = unsafe extern "C" fn(a: i64, b: i64, width: u32, frac: u32, manner: u32) -> Signed;
pub type TwoUnsigned = unsafe extern "C" fn(a: u64, b: u64, width: u32, frac: u32, manner: u32) -> Unsigned;

/// `answer!(signed, of_signed | of_unsigned, [raw, ..], other, ..)`: what the function of a format's family answers to
/// raws and other arguments. The raws are `i128`. SAFETY: pointers among the others are of buffers that are there, and as
/// long as is said.
macro_rules! answer {
    ($signed:expr, $of_signed:ident | $of_unsigned:ident, [$($raw:expr),*], $($other:expr),*) => {
        match $signed {
            true => $crate::common::format::Answer::from(unsafe { $of_signed($($raw as i64,)* $($other),*) }),
            false => $crate::common::format::Answer::from(unsafe { $of_unsigned($($raw as u64,)* $($other),*) }),
        }
    };
}
pub(crate) use answer;

/// `raws! { (raw, ..; number, ..) signed unsigned, .. }`: functions of one shape, which take raws of a family and numbers,
/// and answer a raw.
macro_rules! raws {
    ($shape:tt $($signed:ident $unsigned:ident),*) => { $(raws!(@ $shape $signed $unsigned);)* };
    (@ ($($raw:ident),*; $($number:ident),*) $signed:ident $unsigned:ident) => {
        unsafe extern "C" {
            pub fn $signed($($raw: i64,)* $($number: u32),*) -> Signed;
            pub fn $unsigned($($raw: u64,)* $($number: u32),*) -> Unsigned;
        }
    };
}

// arithmetic, whole numbers, byte order
raws! { (a; width, frac)
    tq_swap_bytes_signed tq_swap_bytes_unsigned
}
raws! { (a; width, frac, manner)
    tq_neg_signed tq_neg_unsigned,
    tq_floor_signed tq_floor_unsigned,
    tq_ceil_signed tq_ceil_unsigned,
    tq_round_signed tq_round_unsigned,
    tq_round_ties_even_signed tq_round_ties_even_unsigned,
    tq_int_signed tq_int_unsigned,
    tq_frac_signed tq_frac_unsigned,
    tq_abs_signed tq_abs_unsigned,
    tq_signum_signed tq_signum_unsigned
}
raws! { (a; count, width, frac, manner)
    tq_shl_signed tq_shl_unsigned,
    tq_shr_signed tq_shr_unsigned
}
raws! { (a, b; width, frac, manner)
    tq_add_signed tq_add_unsigned,
    tq_sub_signed tq_sub_unsigned,
    tq_mul_signed tq_mul_unsigned,
    tq_div_signed tq_div_unsigned,
    tq_rem_signed tq_rem_unsigned,
    tq_rem_euclid_signed tq_rem_euclid_unsigned,
    tq_div_euclid_signed tq_div_euclid_unsigned,
    tq_dist_signed tq_dist_unsigned,
    tq_mean_signed tq_mean_unsigned
}
raws! { (a, b, c; width, frac, manner)
    tq_mul_add_signed tq_mul_add_unsigned
}

// an exact number of steps, reading, writing, logarithm
unsafe extern "C" {
    pub fn tq_settle_signed(neg: u32, high: u64, low: u64, width: u32, frac: u32, manner: u32) -> Signed;
    pub fn tq_settle_unsigned(neg: u32, high: u64, low: u64, width: u32, frac: u32, manner: u32) -> Unsigned;
    pub fn tq_read_signed(text: *const u8, len: usize, width: u32, frac: u32, radix: u32, manner: u32) -> Signed;
    pub fn tq_read_unsigned(text: *const u8, len: usize, width: u32, frac: u32, radix: u32, manner: u32) -> Unsigned;
    pub fn tq_literal_signed(text: *const u8, len: usize, width: u32, frac: u32) -> Signed;
    pub fn tq_literal_unsigned(text: *const u8, len: usize, width: u32, frac: u32) -> Unsigned;
    pub fn tq_write_signed(raw: i64, width: u32, frac: u32, out: *mut u8, len: usize) -> Unsigned;
    pub fn tq_write_unsigned(raw: u64, width: u32, frac: u32, out: *mut u8, len: usize) -> Unsigned;
    pub fn tq_log10_signed(raw: i64, width: u32, frac: u32) -> Signed;
    pub fn tq_log10_unsigned(raw: u64, width: u32, frac: u32) -> Signed;
}

// from and to bytes
unsafe extern "C" {
    pub fn tq_to_be_bytes_signed(a: i64, width: u32, frac: u32, out: *mut u8, len: usize) -> Unsigned;
    pub fn tq_to_be_bytes_unsigned(a: u64, width: u32, frac: u32, out: *mut u8, len: usize) -> Unsigned;
    pub fn tq_to_le_bytes_signed(a: i64, width: u32, frac: u32, out: *mut u8, len: usize) -> Unsigned;
    pub fn tq_to_le_bytes_unsigned(a: u64, width: u32, frac: u32, out: *mut u8, len: usize) -> Unsigned;
    pub fn tq_from_be_bytes_signed(bytes: *const u8, len: usize, width: u32, frac: u32) -> Signed;
    pub fn tq_from_be_bytes_unsigned(bytes: *const u8, len: usize, width: u32, frac: u32) -> Unsigned;
    pub fn tq_from_le_bytes_signed(bytes: *const u8, len: usize, width: u32, frac: u32) -> Signed;
    pub fn tq_from_le_bytes_unsigned(bytes: *const u8, len: usize, width: u32, frac: u32) -> Unsigned;
}

// conversions: fw and ff are the width and the fraction bits of the raw
unsafe extern "C" {
    pub fn tq_convert_signed_to_signed(raw: i64, fw: u32, ff: u32, width: u32, frac: u32, manner: u32) -> Signed;
    pub fn tq_convert_signed_to_unsigned(raw: i64, fw: u32, ff: u32, width: u32, frac: u32, manner: u32) -> Unsigned;
    pub fn tq_convert_unsigned_to_signed(raw: u64, fw: u32, ff: u32, width: u32, frac: u32, manner: u32) -> Signed;
    pub fn tq_convert_unsigned_to_unsigned(raw: u64, fw: u32, ff: u32, width: u32, frac: u32, manner: u32) -> Unsigned;
    pub fn tq_from_f32_signed(pattern: u32, width: u32, frac: u32, manner: u32) -> Signed;
    pub fn tq_from_f32_unsigned(pattern: u32, width: u32, frac: u32, manner: u32) -> Unsigned;
    pub fn tq_from_f64_signed(pattern: u64, width: u32, frac: u32, manner: u32) -> Signed;
    pub fn tq_from_f64_unsigned(pattern: u64, width: u32, frac: u32, manner: u32) -> Unsigned;
    pub fn tq_to_f32_signed(raw: i64, width: u32, frac: u32) -> Unsigned;
    pub fn tq_to_f32_unsigned(raw: u64, width: u32, frac: u32) -> Unsigned;
    pub fn tq_to_f64_signed(raw: i64, width: u32, frac: u32) -> Unsigned;
    pub fn tq_to_f64_unsigned(raw: u64, width: u32, frac: u32) -> Unsigned;
}

// filter, fitting file
unsafe extern "C" {
    pub fn tq_filter(
        taps: *const i16,
        n: usize,
        state: *mut State,
        samples: *const i16,
        len: usize,
        outputs: *mut i16,
        out_len: usize,
        clips: *mut u8,
        clips_len: usize,
    ) -> Unsigned;
    pub fn tq_headroom(taps: *const i16, n: usize, witness: *mut i16, m: usize) -> Unsigned;
    pub fn tq_fitting(
        file: *const u8,
        len: usize,
        lines: *mut u32,
        lines_len: usize,
        raws: *mut i16,
        raws_len: usize,
        answers: *mut u32,
        answers_len: usize,
        taps: *mut i16,
        taps_len: usize,
    ) -> File;
}
