//! Holds the fitting file of the archive against document 01's words (model.rs, literal.rs), on files made at random (files.rs). Built and run by
//! `oracle/program fitting`. Every lent buffer lies between sentinels; what is not to be written must stay, also where the file is refused.
//!
//!     fitting [FILES] [SEED]

#[path = "../common/mod.rs"]
mod common;
mod files;
mod literal;
mod model;

use common::capi::{File, tq_fitting};
use common::random::Random;
use common::tally::Tally;
use model::{Buffers, Places};
use std::collections::BTreeMap;

/// Sentinels on either side of a lent buffer.
const MARGIN: usize = 2;

fn fill(random: &mut Random, places: Places) -> Buffers {
    let mut some = |n: usize| (0..n + 2 * MARGIN).map(|_| random.next() as u32).collect::<Vec<u32>>();
    let (lines, raws, answers, taps) = (some(places.lines), some(places.raws), some(places.answers), some(places.taps));
    let narrow = |list: Vec<u32>| list.into_iter().map(|x| x as i16).collect();
    Buffers { lines, raws: narrow(raws), answers, taps: narrow(taps) }
}

fn inner<T: Clone>(list: &[T]) -> Vec<T> {
    list[MARGIN..list.len() - MARGIN].to_vec()
}

/// What the archive answers; the buffers are with their sentinels. The taps lie closely after the raws, whose values they are.
fn found(file: &[u8], places: Places, b: &mut Buffers) -> File {
    let mut near = [&b.raws[..], &b.taps[..]].concat();
    let (raws, taps) = near.split_at_mut(b.raws.len());
    let answer = unsafe {
        tq_fitting(
            file.as_ptr(),
            file.len(),
            b.lines.as_mut_ptr().add(MARGIN),
            places.lines,
            raws.as_mut_ptr().add(MARGIN),
            places.raws,
            b.answers.as_mut_ptr().add(MARGIN),
            places.answers,
            taps.as_mut_ptr().add(MARGIN),
            places.taps,
        )
    };
    b.raws.copy_from_slice(raws);
    b.taps.copy_from_slice(taps);
    answer
}

/// What the document says; the buffers are with their sentinels.
fn wanted(file: &[u8], places: Places, b: &mut Buffers) -> File {
    let mut lent =
        Buffers { lines: inner(&b.lines), raws: inner(&b.raws), answers: inner(&b.answers), taps: inner(&b.taps) };
    let answer = model::fitting(file, places, &mut lent);
    b.lines[MARGIN..MARGIN + places.lines].copy_from_slice(&lent.lines);
    b.raws[MARGIN..MARGIN + places.raws].copy_from_slice(&lent.raws);
    b.answers[MARGIN..MARGIN + places.answers].copy_from_slice(&lent.answers);
    b.taps[MARGIN..MARGIN + places.taps].copy_from_slice(&lent.taps);
    answer
}

/// How often each answer occurred: of files, and of lines.
#[derive(Default)]
struct Seen {
    files: BTreeMap<u32, u64>,
    lines: BTreeMap<u32, u64>,
}

impl Seen {
    fn note(&mut self, answer: File, b: &Buffers, places: Places) {
        *self.files.entry(answer.number).or_default() += 1;
        if answer.number == 0 || answer.number == 42 {
            let last = if answer.number == 0 { answer.values as usize } else { places.lines.min(model::MOST) };
            for k in MARGIN..MARGIN + last {
                if b.answers[k] <= 19 {
                    *self.lines.entry(b.answers[k]).or_default() += 1;
                }
            }
        }
    }

    /// A run that never met an answer has not compared it.
    fn close(&self, t: &mut Tally) {
        println!("answers of files: {:?}", self.files);
        println!("answers of lines: {:?}", self.lines);
        for number in [0, 4, 5, 40, 41, 42] {
            t.see(self.files.contains_key(&number), || format!("no file was answered {number}"));
        }
        for number in [0, 4, 10, 11, 12, 13, 14, 15, 16, 17, 18, 19] {
            t.see(self.lines.contains_key(&number), || format!("no line was answered {number}"));
        }
    }
}

fn compare(t: &mut Tally, seen: &mut Seen, random: &mut Random, file: &[u8], places: Places) {
    let before = fill(random, places);
    let (mut ours, mut theirs) = (before.clone(), before.clone());
    let answer = wanted(file, places, &mut ours);
    let given = found(file, places, &mut theirs);
    let told = || format!("{:?}, {} bytes, {places:?}", String::from_utf8_lossy(file), file.len());
    t.same(given, answer, told);
    t.see(theirs == ours, || format!("buffers after {}: found {theirs:?}, wanted {ours:?}, before {before:?}", told()));
    seen.note(answer, &ours, places);
}

fn count(file: &[u8]) -> usize {
    file.split(|&b| b == b'\n').filter(|line| !line.is_empty() && line[0] != b'#').count()
}

/// Every length about a limit, on files that are nothing but that.
fn limits(t: &mut Tally, seen: &mut Seen, random: &mut Random) {
    let lines = |n: usize, line: &[u8]| line.repeat(n);
    let mut all: Vec<Vec<u8>> = (0..=66).map(|n| lines(n, b"0.5\n")).collect();
    all.extend([8192, 8193].map(|n| lines(n, b"1\n")));
    all.extend([4095, 4096, 4097].map(|n| [b"0.".to_vec(), vec![b'1'; n - 2]].concat()));
    all.extend([4095, 4096, 4097, 16383].map(|n| vec![b'#'; n]));
    all.extend([16383, 16384, 16385].map(|n| [b"0.5\n".to_vec(), vec![b'\n'; n - 4]].concat()));
    all.extend([16383, 16384, 16385].map(|n| vec![b'\n'; n]));
    for text in
        ["", "\n", "\r\n", "#", "#\n", "0.5", "0.5\r", "\0", " ", "0.5\0\n", "0.5\n\0", "\n\n0.5", "#\r\n0.5", " #"]
    {
        all.push(text.as_bytes().to_vec());
    }
    for file in &all {
        let n = count(file);
        for base in [0, n.saturating_sub(1), n, n + 1, 64] {
            for taps in [0, n.saturating_sub(1), n, n + 1] {
                let places = Places { lines: base, raws: base, answers: base, taps };
                compare(t, seen, random, file, places);
                compare(t, seen, random, file, Places { lines: base + 1, ..places });
                compare(t, seen, random, file, Places { raws: base + 1, ..places });
                compare(t, seen, random, file, Places { answers: base + 1, ..places });
            }
        }
    }
}

fn main() {
    let mut arguments = std::env::args().skip(1).map(|a| a.parse::<u64>().expect("FILES and SEED are numbers"));
    let files = arguments.next().unwrap_or(300_000);
    let mut random = Random::new(arguments.next().unwrap_or(1));
    let (mut t, mut seen) = (Tally::default(), Seen::default());
    limits(&mut t, &mut seen, &mut random);
    for _ in 0..files {
        let file = files::file(&mut random);
        let places = files::places(&mut random, count(&file));
        compare(&mut t, &mut seen, &mut random, &file, places);
    }
    seen.close(&mut t);
    t.close()
}
