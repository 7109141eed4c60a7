//! Tests of the filter and the headroom check that do not lean on the proof, and their speed, through the C interface.
//!
//!     oracle/program filter
//!
//! It compares every answer with a plain filter written here in i128, sums at every half step among them; tries every set of up to two taps from
//! the interesting values with every pair of extreme samples, and random longer sets with random samples, none of which may pass the witness; and
//! holds the verdict against its closed form. The last lines are ratios per sample against the same filter in Rust, both in this process.

#[path = "../common/mod.rs"]
mod common;

use common::capi::*;
use common::format::Answer;
use common::random::Random;
use common::tally::Tally;
use common::timing::{in_turns, once};
use std::cmp::Ordering;

const TAPS: usize = 64;

fn filter(taps: &[i16], state: &mut State, samples: &[i16], outputs: &mut [i16], clips: &mut [u8]) -> Answer {
    let found = unsafe {
        tq_filter(
            taps.as_ptr(),
            taps.len(),
            state,
            samples.as_ptr(),
            samples.len(),
            outputs.as_mut_ptr(),
            outputs.len(),
            clips.as_mut_ptr(),
            clips.len(),
        )
    };
    found.into()
}

fn headroom(taps: &[i16], witness: &mut [i16]) -> Answer {
    unsafe { tq_headroom(taps.as_ptr(), taps.len(), witness.as_mut_ptr(), witness.len()) }.into()
}

// ---- 01's words, in i128 and with no cleverness: P, the output, its clip flag
fn exact(taps: &[i16], newest_first: &[i16]) -> i128 {
    taps.iter().zip(newest_first).map(|(&t, &s)| t as i128 * s as i128).sum()
}

/// P / 2^15 to the nearest, ties to even: by the distance to the whole number below.
fn rounded(p: i128) -> i128 {
    let below = p.div_euclid(1 << 15);
    match (p - (below << 15)).cmp(&(1 << 14)) {
        Ordering::Less => below,
        Ordering::Greater => below + 1,
        Ordering::Equal => below + below.rem_euclid(2),
    }
}

fn output(p: i128) -> (i16, bool) {
    let y = rounded(p);
    let held = y.clamp(-32768, 32767);
    (held as i16, held != y)
}

// ---- taps and samples at random

/// Small, extreme and any numbers, a third each.
fn raw(random: &mut Random) -> i16 {
    match random.below(3) {
        0 => random.below(7) as i16 - 3,
        1 => random.pick(&[-32768, -32767, -16384, 16384, 32766, 32767]),
        _ => random.next() as i16,
    }
}

fn raws(random: &mut Random, n: usize) -> Vec<i16> {
    (0..n).map(|_| raw(random)).collect()
}

fn state(random: &mut Random) -> State {
    [(); TAPS].map(|_| raw(random))
}

/// Taps of one sign whose magnitudes sum to this, or as near as n taps of at most 32767 come.
fn split(random: &mut Random, mut left: usize, n: usize, sign: i16) -> Vec<i16> {
    let mut taps = Vec::new();
    for k in 0..n {
        let part = if k + 1 == n { left } else { random.below(1 + 2 * left / (n - k)) };
        let part = part.min(32767).min(left);
        left -= part;
        taps.push(sign * part as i16);
    }
    taps
}

/// Taps whose magnitudes sum to about 2^15, so that a sum of samples comes within a few steps of an end of the range; of one sign, or about half
/// of the sum below 0, where the last half step is decided.
fn edge(random: &mut Random, n: usize) -> Vec<i16> {
    let total = 32764 + random.below(9);
    if n == 1 || random.one_in(3) {
        let sign = random.pick(&[-1, 1]);
        return split(random, total, n, sign);
    }
    let (below, places) = (16380 + random.below(9), 1 + random.below(n - 1));
    let mut taps = split(random, below, places, -1);
    taps.extend(split(random, total - below, n - places, 1));
    for k in 0..n {
        taps.swap(k, random.below(n));
    }
    taps
}

// ---- comparing

fn see(t: &mut Tally, holds: bool, what: &str, taps: &[i16]) {
    t.see(holds, || format!("{what}: taps {taps:?}"));
}

/// A block through both filters: answer, outputs, clip bytes and state.
fn compare(t: &mut Tally, taps: &[i16], state: &State, samples: &[i16]) {
    let mut line = state.to_vec();
    let mut want = Vec::new();
    let mut marks = Vec::new();
    for &x in samples {
        line.insert(0, x);
        line.truncate(TAPS);
        let (y, clip) = output(exact(taps, &line));
        want.push(y);
        marks.push(u8::from(clip));
    }
    let count = marks.iter().map(|&mark| i128::from(mark)).sum();
    let (mut s, mut o, mut c) = (*state, vec![7i16; samples.len()], vec![7u8; samples.len()]);
    let r = filter(taps, &mut s, samples, &mut o, &mut c);
    see(t, r == Answer::done(count, false), "answer", taps);
    see(t, o == want && c == marks && s[..] == line[..], "block", taps);
}

/// With A the sum of the taps above 0 and B that of the magnitudes of those below: whether they never clip.
fn never(taps: &[i16]) -> bool {
    let sum = |sign: i64| taps.iter().map(|&tap| (sign * i64::from(tap)).max(0)).sum::<i64>();
    let (a, b) = (sum(1), sum(-1));
    a + b <= 32767 || (a + b == 32768 && b < 16384)
}

/// A verdict against its meaning: the witness clips high, and no samples tried pass it. There is no verdict 2.
fn judge(t: &mut Tally, taps: &[i16], tries: &[Vec<i16>]) -> usize {
    let mut w = vec![5i16; taps.len()];
    let Answer { number, flag, value } = headroom(taps, &mut w);
    see(t, number == 0 && !flag && value <= 1, "verdict's form", taps);
    see(t, (value == 0) == never(taps), "the closed form", taps);
    match value {
        0 => see(t, w.iter().all(|&x| x == 5), "witness written with verdict 0", taps),
        _ => judge_witness(t, taps, &w),
    }
    for samples in tries {
        let p = exact(taps, samples);
        let allowed = if value == 0 { !output(p).1 } else { p <= exact(taps, &w) };
        see(t, allowed, "samples pass the witness", taps);
    }
    usize::from(value != 0)
}

/// The witness clips high, also through the filter itself, oldest first, from silence; its samples are at the ends, and 0 where the tap is.
fn judge_witness(t: &mut Tally, taps: &[i16], w: &[i16]) {
    let n = taps.len();
    see(t, output(exact(taps, w)) == (32767, true), "the witness clips", taps);
    let fed: Vec<i16> = w.iter().rev().copied().collect();
    let (mut s, mut o, mut c) = ([0i16; TAPS], vec![0i16; n], vec![0u8; n]);
    filter(taps, &mut s, &fed, &mut o, &mut c);
    see(t, o[n - 1] == 32767 && c[n - 1] == 1, "the filter clips on the witness", taps);
    let right = |tap: i16| match tap {
        0 => 0,
        1.. => 32767,
        _ => -32768,
    };
    see(t, taps.iter().zip(w).all(|(&tap, &x)| x == right(tap)), "the witness' ends", taps);
}

// ---- what is asked

/// Every list of n numbers from a set.
fn lists(set: &[i16], n: usize) -> Vec<Vec<i16>> {
    if n == 0 {
        return vec![vec![]];
    }
    lists(set, n - 1).into_iter().flat_map(|l| set.iter().map(move |&x| [&l[..], &[x]].concat())).collect()
}

fn verdicts(t: &mut Tally, random: &mut Random) {
    let interesting = [
        -32768i16, -32767, -32766, -16385, -16384, -16383, -3, -2, -1, 0, 1, 2, 3, 16383, 16384, 16385, 32765, 32766,
        32767,
    ];
    let ends = [-32768i16, -32767, -1, 0, 1, 32766, 32767];
    let mut verdicts = [0u64; 2];
    for n in 1..=2 {
        let tries = lists(&ends, n);
        for taps in lists(&interesting, n) {
            verdicts[judge(t, &taps, &tries)] += 1;
        }
    }
    // longer sets: random samples, and every choice of ends for up to 10 taps
    for round in 0..4000 {
        let n = 1 + random.below(TAPS);
        let taps = if round % 2 == 0 { raws(random, n) } else { edge(random, n) };
        let tries: Vec<Vec<i16>> = match n <= 10 && round % 8 == 0 {
            true => lists(&[-32768, 32767], n),
            false => (0..40).map(|_| raws(random, n)).collect(),
        };
        verdicts[judge(t, &taps, &tries)] += 1;
    }
    println!("verdicts 0, 1: {verdicts:?}");
}

/// The closed form at its border: every B, with A + B from 32766 to 32770. A and B are two taps each.
fn borders(t: &mut Tally) {
    for total in 32766..=32770 {
        for below in 0..=total {
            let (high, low) = ((total - below).min(32767), below.min(32767));
            let taps = [high, -low, total - below - high, low - below].map(|tap| tap as i16);
            judge(t, &taps, &[]);
        }
    }
}

/// Sums about every half step, either side of 0 and past both ends: P = q x 2^15 + d, with d about 0 and about a tie.
fn half_steps(t: &mut Tally) {
    let taps = [-32768, 1, 16384];
    for q in -32771..=32771 {
        for d in [-1, 0, 1, 16383, 16384, 16385] {
            let p = (q << 15) + d;
            let newest = (-p >> 15).clamp(-32768, 32767); // the nearest that -32768 comes to P, then what 16384 adds, and the rest
            let left = p + (newest << 15);
            let oldest = left >> 14;
            let samples = [oldest, left - (oldest << 14), newest].map(|x: i64| x as i16);
            let (mut s, mut o, mut c) = ([0; TAPS], [7; 3], [7; 3]);
            filter(&taps, &mut s, &samples, &mut o, &mut c);
            let newest_first = [samples[2], samples[1], samples[0]];
            let (y, clip) = output(p.into());
            let holds = exact(&taps, &newest_first) == p.into() && (o[2], c[2]) == (y, u8::from(clip));
            t.see(holds, || format!("P = {p}: output {}, clip {}, expected {y}, {clip}", o[2], c[2]));
        }
    }
}

/// Blocks of every length up to four lines, with as many taps as there may be; and random ones.
fn blocks(t: &mut Tally, random: &mut Random) {
    for len in 0..=4 * TAPS {
        let (taps, samples) = (raws(random, TAPS), raws(random, len));
        compare(t, &taps, &state(random), &samples);
    }
    for _ in 0..4000 {
        let (n, len) = (1 + random.below(TAPS), random.below(200));
        let (taps, samples) = (raws(random, n), raws(random, len));
        compare(t, &taps, &state(random), &samples);
    }
}

/// What is refused leaves everything as it was.
fn refusals(t: &mut Tally, random: &mut Random) {
    for (n, len, outs, marks, number) in
        [(0, 3, 3, 3, 40), (65, 3, 3, 3, 40), (1, 3, 2, 3, 5), (1, 3, 3, 4, 5), (0, 2, 3, 3, 5), (65, 0, 0, 0, 40)]
    {
        let (taps, samples, before) = (raws(random, n), raws(random, len), state(random));
        let (mut s, mut o, mut c) = (before, vec![9i16; outs], vec![9u8; marks]);
        let r = filter(&taps, &mut s, &samples, &mut o, &mut c);
        let kept = s == before && o.iter().all(|&y| y == 9) && c.iter().all(|&b| b == 9);
        see(t, r == Answer::refused(number) && kept, "refusal of a block", &taps);
    }
    for (n, m, number) in [(0, 0, 40), (65, 65, 40), (2, 1, 5), (0, 1, 5)] {
        let (taps, mut w) = (raws(random, n), vec![9i16; m]);
        let r = headroom(&taps, &mut w);
        see(t, r == Answer::refused(number) && w.iter().all(|&x| x == 9), "refusal of headroom", &taps);
    }
}

// ---- the same filter in Rust, for the speed

#[inline(never)]
fn plain(taps: &[i16], state: &mut State, samples: &[i16], outputs: &mut [i16], clips: &mut [u8]) -> u64 {
    let mut count = 0;
    for ((&x, out), clip) in samples.iter().zip(outputs.iter_mut()).zip(clips.iter_mut()) {
        state.copy_within(..TAPS - 1, 1);
        state[0] = x;
        let p: i64 = taps.iter().zip(state.iter()).map(|(&t, &s)| (t as i32 * s as i32) as i64).sum();
        let y = (p + 16383 + ((p >> 15) & 1)) >> 15;
        let held = y.clamp(-32768, 32767);
        *out = held as i16;
        *clip = (held != y) as u8;
        count += (held != y) as u64;
    }
    count
}

const BLOCK: usize = 4096;
const ROUNDS: usize = 200;

/// Outputs and clip bytes of a block.
fn places() -> (Vec<i16>, Vec<u8>) {
    (vec![0; BLOCK], vec![0; BLOCK])
}

fn speed(random: &mut Random) {
    let samples = raws(random, BLOCK);
    for n in [1, 16, 64] {
        let taps = raws(random, n);
        let ((mut o, mut c), (mut p, mut d)) = (places(), places());
        let (ours, theirs) = in_turns(
            ROUNDS,
            || once(|| filter(&taps, &mut [0; TAPS], &samples, &mut o, &mut c)),
            || once(|| plain(&taps, &mut [0; TAPS], &samples, &mut p, &mut d)),
        );
        let (ours, theirs) = (ours.median() / BLOCK as f64, theirs.median() / BLOCK as f64);
        println!("speed: {n} taps: {ours:.1} ns per sample, Rust {theirs:.1} ns, ratio {:.2}", ours / theirs);
    }
}

fn main() {
    let mut t = Tally::default();
    let mut random = Random::new(1);
    verdicts(&mut t, &mut random);
    borders(&mut t);
    half_steps(&mut t);
    blocks(&mut t, &mut random);
    refusals(&mut t, &mut random);
    speed(&mut random);
    t.close()
}
