//! The writer's speed against Rust's own formatting of an integer with as many digits, in one process. Built and run by
//! `oracle/program decimal_bench`.

mod common;

use common::capi::*;
use common::random::Random;
use common::timing::{each, in_turns};
use std::hint::black_box;
use std::io::Write;

const RAWS: usize = 4096;
const ROUNDS: usize = 200;

fn port(raw: i64, width: u32, frac: u32, out: &mut [u8; 67]) -> Unsigned {
    unsafe { tq_write_signed(raw, width, frac, out.as_mut_ptr(), out.len()) }
}

fn formatted(n: u128, out: &mut [u8; 67]) {
    let mut rest = &mut out[..];
    // a word is formatted as a word: the wider type is for what no word holds
    match u64::try_from(n) {
        Ok(word) => write!(rest, "{word}"),
        Err(_) => write!(rest, "{n}"),
    }
    .unwrap();
}

/// The integer whose digits are those of the text: what Rust would have to format.
fn digits(text: &[u8]) -> u128 {
    text.iter().filter(|b| b.is_ascii_digit()).fold(0, |n, b| n * 10 + u128::from(b - b'0'))
}

/// Raws of a format, and the integers whose digits are those of their texts.
struct Sample {
    raws: Vec<i64>,
    integers: Vec<u128>,
    /// bytes of a text, on the mean
    length: f64,
}

fn sample(random: &mut Random, width: u32, frac: u32) -> Sample {
    let (mut raws, mut integers, mut length) = (Vec::new(), Vec::new(), 0);
    while raws.len() < RAWS {
        // odd, so that no digit of the fraction is missing; positive, since the integers have no sign
        let raw = (random.next() >> (65 - width) | 1) as i64;
        let mut out = [0u8; 67];
        let answer = port(raw, width, frac, &mut out);
        assert_eq!((answer.number, answer.flag), (0, 0), "raw {raw}, W = {width}, F = {frac}");
        let n = answer.value as usize;
        // a leading 1 in place of a leading zero keeps the integer's length
        let lead = if out[0] == b'0' { 10u128.pow(frac) } else { 0 };
        integers.push(digits(&out[..n]) + lead);
        raws.push(raw);
        length += n;
    }
    Sample { raws, integers, length: length as f64 / RAWS as f64 }
}

fn main() {
    let mut random = Random::new(1);
    for (width, frac) in [(8, 7), (16, 15), (32, 0), (32, 16), (64, 0), (64, 20)] {
        let Sample { raws, integers, length } = sample(&mut random, width, frac);
        let (mut ours, mut theirs) = ([0u8; 67], [0u8; 67]);
        let (of_port, of_rust) = in_turns(
            ROUNDS,
            || each(&raws, |raw| port(raw, width, frac, black_box(&mut ours))),
            || each(&integers, |n| formatted(n, black_box(&mut theirs))),
        );
        println!("W = {width}, F = {frac}, {length:.1} bytes: ratio {:.2}", of_port.fastest() / of_rust.fastest());
    }
}
