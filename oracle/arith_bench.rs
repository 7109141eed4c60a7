//! The arithmetic's speed against the same in Rust, in one process: sum, product and quotient, strict and wrapping, of each width and
//! sign, F = W / 2. Built and run by `oracle/program arith_bench`.
//!
//! The Rust side is what the crate `fixed` does: the double width, a shift, and for strict a test of whether the number fits. F is a
//! constant there, as it is in a type; here it is an argument. Neither side is inlined into the loop.

mod common;

use common::capi::*;
use common::format::{STRICT, WRAPPING};
use common::random::Random;
use common::timing::{each, in_turns};
use std::hint::black_box;

const PAIRS: usize = 4096;
const ROUNDS: usize = 101;

/// One width and sign: the lines of its three operations.
macro_rules! width {
    ($name:ident, $int:ident, $wide:ident, $word:ident, $add:ident, $mul:ident, $div:ident) => {
        mod $name {
            use super::*;

            const FRAC: u32 = $int::BITS / 2;

            #[inline(never)]
            fn checked_add(a: $int, b: $int) -> Option<$int> {
                a.checked_add(b)
            }

            #[inline(never)]
            fn wrapping_add(a: $int, b: $int) -> $int {
                a.wrapping_add(b)
            }

            #[inline(never)]
            fn checked_mul(a: $int, b: $int) -> Option<$int> {
                $int::try_from((a as $wide * b as $wide) >> FRAC).ok()
            }

            #[inline(never)]
            fn wrapping_mul(a: $int, b: $int) -> $int {
                ((a as $wide * b as $wide) >> FRAC) as $int
            }

            #[inline(never)]
            fn checked_div(a: $int, b: $int) -> Option<$int> {
                if b == 0 {
                    return None;
                }
                $int::try_from(((a as $wide) << FRAC) / b as $wide).ok()
            }

            #[inline(never)]
            fn wrapping_div(a: $int, b: $int) -> $int {
                (((a as $wide) << FRAC) / b as $wide) as $int
            }

            /// Three quarters of the bits, so that most results fit; no divisor is 0.
            fn operands() -> Vec<($int, $int)> {
                let mut random = Random::new(7);
                let mut one = || ((random.next() >> (64 - $int::BITS)) as $int) >> ($int::BITS / 4);
                (0..PAIRS).map(|_| (one(), one() | 1)).collect()
            }

            pub fn lines() {
                let pairs = operands();
                let (width, frac) = (black_box($int::BITS), black_box(FRAC));
                let add = |manner| move |a: $int, b: $int| unsafe { $add(a as $word, b as $word, width, frac, manner) };
                let mul = |manner| move |a: $int, b: $int| unsafe { $mul(a as $word, b as $word, width, frac, manner) };
                let div = |manner| move |a: $int, b: $int| unsafe { $div(a as $word, b as $word, width, frac, manner) };
                line(stringify!($int), "add strict", &pairs, add(STRICT), checked_add);
                line(stringify!($int), "add wrapping", &pairs, add(WRAPPING), wrapping_add);
                line(stringify!($int), "mul strict", &pairs, mul(STRICT), checked_mul);
                line(stringify!($int), "mul wrapping", &pairs, mul(WRAPPING), wrapping_mul);
                line(stringify!($int), "div strict", &pairs, div(STRICT), checked_div);
                line(stringify!($int), "div wrapping", &pairs, div(WRAPPING), wrapping_div);
            }
        }
    };
}

width!(signed8, i8, i16, i64, tq_add_signed, tq_mul_signed, tq_div_signed);
width!(signed16, i16, i32, i64, tq_add_signed, tq_mul_signed, tq_div_signed);
width!(signed32, i32, i64, i64, tq_add_signed, tq_mul_signed, tq_div_signed);
width!(signed64, i64, i128, i64, tq_add_signed, tq_mul_signed, tq_div_signed);
width!(unsigned8, u8, u16, u64, tq_add_unsigned, tq_mul_unsigned, tq_div_unsigned);
width!(unsigned16, u16, u32, u64, tq_add_unsigned, tq_mul_unsigned, tq_div_unsigned);
width!(unsigned32, u32, u64, u64, tq_add_unsigned, tq_mul_unsigned, tq_div_unsigned);
width!(unsigned64, u64, u128, u64, tq_add_unsigned, tq_mul_unsigned, tq_div_unsigned);

fn line<T: Copy, P, R>(of: &str, name: &str, pairs: &[(T, T)], port: impl Fn(T, T) -> P, rust: impl Fn(T, T) -> R) {
    let (of_port, of_rust) = in_turns(ROUNDS, || each(pairs, |(a, b)| port(a, b)), || each(pairs, |(a, b)| rust(a, b)));
    let (of_port, of_rust) = (of_port.median(), of_rust.median());
    println!("{of} {name}: Rust {of_rust:.1} ns, the port {of_port:.1} ns, ratio {:.2}", of_port / of_rust);
}

fn main() {
    signed8::lines();
    signed16::lines();
    signed32::lines();
    signed64::lines();
    unsigned8::lines();
    unsigned16::lines();
    unsigned32::lines();
    unsigned64::lines();
}
