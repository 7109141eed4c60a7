//! Arguments at random: mostly ones that a function accepts, then lengths at every limit, formats and manners that are none, damaged texts.

use crate::common::format::WIDTHS;
use crate::common::random::Random;
use crate::table::{Args, Shape};

/// The lengths at which some function changes its answer, and their neighbours.
const LIMITS: [usize; 15] = [0, 1, 8, 9, 63, 64, 65, 66, 67, 4095, 4096, 4097, 16383, 16384, 16385];

const POOL: usize = 1 << 17;

/// Bytes to take lent contents from: numbers at random, and lines of a fitting file.
pub struct Pools {
    numbers: Vec<u8>,
    lines: Vec<u8>,
}

impl Pools {
    pub fn new(random: &mut Random) -> Pools {
        let mut lines = Vec::with_capacity(POOL + 64);
        while lines.len() < POOL {
            match random.below(200) {
                0 => lines.extend(b"# 0.25, measured\n"),
                1 => lines.extend(b"\n\n"),
                2 => lines.extend(random.pick(&["1\n", "+0.5\n", "0.5\r\n", "1e\n", "0x\n", "\0\n", " 0\n"]).bytes()),
                3 => lines.extend(format!("0x0.{:x}\n", random.below(1 << 16)).bytes()),
                4 => lines.extend(format!("-{}e-9\n", random.below(1 << 30)).bytes()),
                _ => lines.extend(format!("0.{}\n", random.next() >> random.below(60)).bytes()),
            }
        }
        Pools { numbers: (0..POOL).map(|_| random.next() as u8).collect(), lines }
    }

    /// Some lines, mostly from the start of one.
    fn file(&self, random: &mut Random, len: usize) -> &[u8] {
        let at = random.below(POOL - len - 64);
        let next = self.lines[at..].iter().position(|&b| b == b'\n').map_or(at, |k| at + k + 1);
        let start = if random.one_in(4) { at } else { next.min(POOL - len) };
        &self.lines[start..start + len]
    }

    fn slice<'a>(pool: &'a [u8], random: &mut Random, len: usize) -> &'a [u8] {
        let at = random.below(POOL - len + 1) & !1;
        &pool[at..at + len]
    }
}

fn width(random: &mut Random) -> u32 {
    match random.below(16) {
        0 => random.pick(&[0, 1, 7, 9, 24, 63, 65, 128, 256, 0x108, 0x1_0010, 0x8000_0040, 1 << 31, u32::MAX]),
        _ => random.pick(&WIDTHS),
    }
}

fn frac(random: &mut Random, width: u32) -> u32 {
    match random.below(16) {
        0 => random.pick(&[width.wrapping_add(1), 65, 128, 0x100, 0x104, 0x1_0008, 0x8000_0004, u32::MAX]),
        1 => random.pick(&[0, width]),
        _ => random.below(width.min(64) as usize + 1) as u32,
    }
}

fn operand(random: &mut Random) -> u64 {
    let ends = [0, 1, 2, 1 << 63, (1 << 63) - 1, u64::MAX, u64::MAX - 1, 0x7f80_0000, 0x7ff0 << 48, 0xfff8 << 48];
    match random.below(6) {
        0 => random.pick(&ends),
        1 => random.next(),
        2 => (random.below(1 << 20) as f64 / 1024.0).to_bits(),
        3 => u64::from((random.below(1 << 20) as f32 / 1024.0).to_bits()),
        _ => (random.next() as i64 >> random.below(64)) as u64,
    }
}

pub fn numbers(random: &mut Random) -> Args {
    let (width, to_width) = (width(random), width(random));
    Args {
        a: operand(random),
        b: operand(random),
        c: operand(random),
        neg: random.pick(&[0, 1, 2, u32::MAX]),
        width,
        frac: frac(random, width),
        to_width,
        to_frac: frac(random, to_width),
        radix: if random.one_in(16) {
            random.pick(&[0, 1, 3, 9, 36, 0x10a, 0x1_0010, u32::MAX])
        } else {
            random.pick(&[2, 8, 10, 10, 16])
        },
        manner: random.pick(&[0, 0, 1, 2, 3, 3, 4, 0x103, u32::MAX]),
        count: random.pick(&[0, 1, 7, 8, 31, 63, 64, 65, 0x101, u32::MAX]),
        ..Args::NONE
    }
}

/// A length below `usual`, or at a limit.
fn length(random: &mut Random, usual: usize) -> usize {
    if random.one_in(48) { random.pick(&LIMITS) } else { random.below(usual) }
}

/// As long as the other, or not.
fn beside(random: &mut Random, len: usize) -> usize {
    match random.below(24) {
        0 => len + 1,
        1 => len.saturating_sub(1),
        2 => length(random, 70),
        _ => len,
    }
}

/// The sizes of a function's elements, in and out.
pub fn sizes(shape: Shape) -> (&'static [usize], &'static [usize]) {
    match shape {
        Shape::Raw | Shape::Number | Shape::Convert => (&[], &[]),
        Shape::Text | Shape::BytesIn => (&[1], &[]),
        Shape::BytesOut => (&[], &[1]),
        Shape::Filter => (&[2, 2], &[2, 2, 1]),
        Shape::Headroom => (&[2], &[2]),
        Shape::Fitting => (&[1], &[4, 2, 4, 2]),
    }
}

/// How many elements are lent, in and out.
pub fn lengths(random: &mut Random, shape: Shape, args: &Args) -> ([usize; 2], [usize; 4]) {
    match shape {
        Shape::Raw | Shape::Number | Shape::Convert => ([0; 2], [0; 4]),
        Shape::Text => ([length(random, 40), 0], [0; 4]),
        Shape::BytesIn => ([beside(random, (args.width / 8).min(16) as usize), 0], [0; 4]),
        Shape::BytesOut => ([0; 2], [length(random, 70), 0, 0, 0]),
        Shape::Filter => {
            let (taps, block) = (length(random, 66), length(random, 20));
            ([taps, block], [64, beside(random, block), beside(random, block), 0])
        }
        Shape::Headroom => {
            let taps = length(random, 66);
            ([taps, 0], [beside(random, taps), 0, 0, 0])
        }
        Shape::Fitting => {
            let list = if random.one_in(2) { 64 } else { length(random, 70) };
            ([length(random, 400), 0], [list, beside(random, list), beside(random, list), beside(random, list)])
        }
    }
}

/// A text of a length: digits with a point early and, at times, a mark, a sign or any byte somewhere.
fn text(random: &mut Random, pools: &Pools, len: usize, into: &mut Vec<u8>) {
    let digits = random.pick(&[2u8, 2, 10, 10, 16]);
    into.extend(Pools::slice(&pools.numbers, random, len).iter().map(|b| b"0123456789abcdef"[(b % digits) as usize]));
    let mut put = |at: usize, byte: u8| {
        if let Some(place) = into.get_mut(at) {
            *place = byte;
        }
    };
    match random.below(6) {
        0 => put(0, b'-'),
        1 => [(0, b'0'), (1, random.pick(b"xbo_"))].into_iter().for_each(|(at, byte)| put(at, byte)),
        2 => put(0, b'+'),
        _ => put(0, b'0'),
    }
    put(random.pick(&[0, 1, 1, 2, 3]), b'.');
    for _ in 0..random.below(3) {
        let byte = if random.one_in(4) { random.next() as u8 } else { random.pick(b"_@eEpP-+.") };
        put(random.below(len.max(1)), byte);
    }
}

/// What a lent input holds.
pub fn content(random: &mut Random, pools: &Pools, shape: Shape, bytes: usize, into: &mut Vec<u8>) {
    into.clear();
    match shape {
        Shape::Text => text(random, pools, bytes, into),
        Shape::Fitting => into.extend(pools.file(random, bytes)),
        _ => into.extend(Pools::slice(&pools.numbers, random, bytes)),
    }
    // taps small enough not to clip, at times
    if shape == Shape::Headroom && random.one_in(4) {
        into.chunks_mut(2).for_each(|raw| raw[1] = if raw[1] % 2 == 0 { 0 } else { 0xff });
    }
}

/// What a buffer to be written holds before.
pub fn before<'a>(random: &mut Random, pools: &'a Pools, bytes: usize) -> &'a [u8] {
    Pools::slice(&pools.numbers, random, bytes)
}
