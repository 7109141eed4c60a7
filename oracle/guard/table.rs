//! Every function of include/tamqoret.h and of the C interface's page, with its arguments and the answers it may give. Groups that an archive has
//! not yet are left out with their `--cfg`: fitting, convert, float, further.

use crate::common::capi::{self, File, Signed, Unsigned};
use std::ptr;

/// What a function takes and what its value is.
#[derive(Clone, Copy, Debug, PartialEq)]
pub enum Shape {
    /// numbers to a raw of the format
    Raw,
    /// numbers to another number
    Number,
    /// numbers to a raw of a second format
    Convert,
    /// a text to a raw
    Text,
    /// the bytes of a raw to the raw
    BytesIn,
    /// numbers to bytes, whose count is the value
    BytesOut,
    Filter,
    Headroom,
    Fitting,
}

/// One argument of each kind; a function takes those that its declaration names.
#[derive(Clone, Copy, Debug)]
pub struct Args {
    pub a: u64,
    pub b: u64,
    pub c: u64,
    pub neg: u32,
    pub width: u32,
    pub frac: u32,
    pub to_width: u32,
    pub to_frac: u32,
    pub radix: u32,
    pub manner: u32,
    pub count: u32,
    pub in0: *const u8,
    pub in0_len: usize,
    pub in1: *const u8,
    pub in1_len: usize,
    pub out0: *mut u8,
    pub out0_len: usize,
    pub out1: *mut u8,
    pub out1_len: usize,
    pub out2: *mut u8,
    pub out2_len: usize,
    pub out3: *mut u8,
    pub out3_len: usize,
}

impl Args {
    pub const NONE: Args = Args {
        a: 0,
        b: 0,
        c: 0,
        neg: 0,
        width: 0,
        frac: 0,
        to_width: 0,
        to_frac: 0,
        radix: 0,
        manner: 0,
        count: 0,
        in0: ptr::null(),
        in0_len: 0,
        in1: ptr::null(),
        in1_len: 0,
        out0: ptr::null_mut(),
        out0_len: 0,
        out1: ptr::null_mut(),
        out1_len: 0,
        out2: ptr::null_mut(),
        out2_len: 0,
        out3: ptr::null_mut(),
        out3_len: 0,
    };
}

/// Any answer; line and inner are those of 42.
#[derive(Clone, Copy, Debug, PartialEq)]
pub struct Outcome {
    pub number: u32,
    pub flag: u32,
    pub value: i128,
    pub line: u32,
    pub inner: u32,
}

impl From<Signed> for Outcome {
    fn from(r: Signed) -> Outcome {
        Outcome { number: r.number, flag: r.flag, value: r.value.into(), line: 0, inner: 0 }
    }
}

impl From<Unsigned> for Outcome {
    fn from(r: Unsigned) -> Outcome {
        Outcome { number: r.number, flag: r.flag, value: r.value.into(), line: 0, inner: 0 }
    }
}

impl From<File> for Outcome {
    fn from(r: File) -> Outcome {
        Outcome { number: r.number, flag: 0, value: r.values.into(), line: r.line, inner: r.inner }
    }
}

pub struct Function {
    pub name: &'static str,
    pub shape: Shape,
    /// the refusals it has beside 1 and 2
    pub refusals: &'static [u32],
    pub call: fn(&Args) -> Outcome,
}

/// `group! { name: Shape [refusals] function(argument, ..); .. }`: the functions of a group, and which of `Args` each takes.
macro_rules! group {
    ($group:ident: $($shape:ident $refusals:tt $name:ident($($arg:ident),*);)*) => {
        pub mod $group {
            use super::*;
            pub fn functions() -> Vec<Function> {
                vec![$(Function {
                    name: stringify!($name),
                    shape: Shape::$shape,
                    refusals: &$refusals,
                    call: |x| unsafe { capi::$name($(x.$arg as _),*).into() },
                }),*]
            }
        }
    };
}

group! { base:
    Raw [10] tq_settle_signed(neg, a, b, width, frac, manner);
    Raw [10] tq_settle_unsigned(neg, a, b, width, frac, manner);
    Text [3, 4, 10, 11, 12, 13, 15, 16, 17, 18, 19] tq_read_signed(in0, in0_len, width, frac, radix, manner);
    Text [3, 4, 10, 11, 12, 13, 15, 16, 17, 18, 19] tq_read_unsigned(in0, in0_len, width, frac, radix, manner);
    Text [4, 10, 11, 12, 13, 14, 15, 16, 17, 18, 19] tq_literal_signed(in0, in0_len, width, frac);
    Text [4, 10, 11, 12, 13, 14, 15, 16, 17, 18, 19] tq_literal_unsigned(in0, in0_len, width, frac);
    BytesOut [5] tq_write_signed(a, width, frac, out0, out0_len);
    BytesOut [5] tq_write_unsigned(a, width, frac, out0, out0_len);
    Number [32] tq_log10_signed(a, width, frac);
    Number [32] tq_log10_unsigned(a, width, frac);
    Raw [10] tq_add_signed(a, b, width, frac, manner);
    Raw [10] tq_add_unsigned(a, b, width, frac, manner);
    Raw [10] tq_sub_signed(a, b, width, frac, manner);
    Raw [10] tq_sub_unsigned(a, b, width, frac, manner);
    Raw [10] tq_mul_signed(a, b, width, frac, manner);
    Raw [10] tq_mul_unsigned(a, b, width, frac, manner);
    Raw [10, 31] tq_div_signed(a, b, width, frac, manner);
    Raw [10, 31] tq_div_unsigned(a, b, width, frac, manner);
    Raw [10, 31] tq_rem_signed(a, b, width, frac, manner);
    Raw [10, 31] tq_rem_unsigned(a, b, width, frac, manner);
    Raw [10] tq_neg_signed(a, width, frac, manner);
    Raw [10] tq_neg_unsigned(a, width, frac, manner);
    Raw [10] tq_shl_signed(a, count, width, frac, manner);
    Raw [10] tq_shl_unsigned(a, count, width, frac, manner);
    Raw [10] tq_shr_signed(a, count, width, frac, manner);
    Raw [10] tq_shr_unsigned(a, count, width, frac, manner);
    Raw [] tq_swap_bytes_signed(a, width, frac);
    Raw [] tq_swap_bytes_unsigned(a, width, frac);
    BytesOut [5] tq_to_be_bytes_signed(a, width, frac, out0, out0_len);
    BytesOut [5] tq_to_be_bytes_unsigned(a, width, frac, out0, out0_len);
    BytesOut [5] tq_to_le_bytes_signed(a, width, frac, out0, out0_len);
    BytesOut [5] tq_to_le_bytes_unsigned(a, width, frac, out0, out0_len);
    BytesIn [5] tq_from_be_bytes_signed(in0, in0_len, width, frac);
    BytesIn [5] tq_from_be_bytes_unsigned(in0, in0_len, width, frac);
    BytesIn [5] tq_from_le_bytes_signed(in0, in0_len, width, frac);
    BytesIn [5] tq_from_le_bytes_unsigned(in0, in0_len, width, frac);
    Filter [5, 40] tq_filter(in0, in0_len, out0, in1, in1_len, out1, out1_len, out2, out2_len);
    Headroom [5, 40] tq_headroom(in0, in0_len, out0, out0_len);
}

#[cfg(fitting)]
group! { fitting:
    Fitting [4, 5, 40, 41, 42] tq_fitting(in0, in0_len, out0, out0_len, out1, out1_len, out2, out2_len, out3, out3_len);
}

#[cfg(convert)]
group! { convert:
    Convert [10] tq_convert_signed_to_signed(a, width, frac, to_width, to_frac, manner);
    Convert [10] tq_convert_signed_to_unsigned(a, width, frac, to_width, to_frac, manner);
    Convert [10] tq_convert_unsigned_to_signed(a, width, frac, to_width, to_frac, manner);
    Convert [10] tq_convert_unsigned_to_unsigned(a, width, frac, to_width, to_frac, manner);
}

#[cfg(float)]
group! { float:
    Raw [10, 30] tq_from_f32_signed(a, width, frac, manner);
    Raw [10, 30] tq_from_f32_unsigned(a, width, frac, manner);
    Raw [10, 30] tq_from_f64_signed(a, width, frac, manner);
    Raw [10, 30] tq_from_f64_unsigned(a, width, frac, manner);
    Number [] tq_to_f32_signed(a, width, frac);
    Number [] tq_to_f32_unsigned(a, width, frac);
    Number [] tq_to_f64_signed(a, width, frac);
    Number [] tq_to_f64_unsigned(a, width, frac);
}

#[cfg(further)]
group! { further:
    Raw [10] tq_abs_signed(a, width, frac, manner);
    Raw [10] tq_abs_unsigned(a, width, frac, manner);
    Raw [10] tq_signum_signed(a, width, frac, manner);
    Raw [10] tq_signum_unsigned(a, width, frac, manner);
    Raw [10] tq_round_signed(a, width, frac, manner);
    Raw [10] tq_round_unsigned(a, width, frac, manner);
    Raw [10] tq_ceil_signed(a, width, frac, manner);
    Raw [10] tq_ceil_unsigned(a, width, frac, manner);
    Raw [10] tq_floor_signed(a, width, frac, manner);
    Raw [10] tq_floor_unsigned(a, width, frac, manner);
    Raw [10] tq_int_signed(a, width, frac, manner);
    Raw [10] tq_int_unsigned(a, width, frac, manner);
    Raw [10] tq_frac_signed(a, width, frac, manner);
    Raw [10] tq_frac_unsigned(a, width, frac, manner);
    Raw [10] tq_round_ties_even_signed(a, width, frac, manner);
    Raw [10] tq_round_ties_even_unsigned(a, width, frac, manner);
    Raw [10, 31] tq_rem_euclid_signed(a, b, width, frac, manner);
    Raw [10, 31] tq_rem_euclid_unsigned(a, b, width, frac, manner);
    Raw [10, 31] tq_div_euclid_signed(a, b, width, frac, manner);
    Raw [10, 31] tq_div_euclid_unsigned(a, b, width, frac, manner);
    Raw [10] tq_dist_signed(a, b, width, frac, manner);
    Raw [10] tq_dist_unsigned(a, b, width, frac, manner);
    Raw [10] tq_mean_signed(a, b, width, frac, manner);
    Raw [10] tq_mean_unsigned(a, b, width, frac, manner);
    Raw [10] tq_mul_add_signed(a, b, c, width, frac, manner);
    Raw [10] tq_mul_add_unsigned(a, b, c, width, frac, manner);
}

/// The functions of every group that is switched on.
#[allow(unused_mut)]
pub fn functions() -> Vec<Function> {
    let mut all = base::functions();
    #[cfg(fitting)]
    all.extend(fitting::functions());
    #[cfg(convert)]
    all.extend(convert::functions());
    #[cfg(float)]
    all.extend(float::functions());
    #[cfg(further)]
    all.extend(further::functions());
    all
}
