//! Writes the stored samples that the gate replays where there is no Rust at hand. The answers are S's or, in the classes
//! of docs/DIFFERENCES.md and for refusals that S does not know, the model's.

use crate::classes::{Class, Occasion};
use crate::format::{Answer, Format, LONGEST_TEXT, MANNERS, Outcome, RADIXES, Reader, STRICT, WIDTHS};
use crate::model;
use crate::original;
use crate::pages;
use crate::picks::{all_pairs, around_powers_of_ten, both_signs, raw_of};
use crate::random::Random;
use crate::scan::scan;
use crate::texts;

/// Texts for each format, radix and manner; for each format's literals; for each class; damaged ones; tie by tie.
const TEXTS_PER_MANNER: usize = 2;
const LITERALS_PER_FORMAT: usize = 12;
const TEXTS_PER_CLASS: usize = 150;
const DAMAGED_TEXTS: usize = 5000;
const TIES_PER_FORMAT: usize = 20;
const RAWS_PER_FORMAT: usize = 12;

/// The random texts are at most this long, or the file would be too.
const LONGEST: usize = 12;

pub fn text_sample(seed: u64) {
    println!("# Answers of the reader, made by: oracle/run FOLDER sample text --seed {seed}");
    println!(
        "# kind (p plain, l literal), signed, width, frac, radix, manner, number, flag, value, text in hexadecimal (- if empty)"
    );
    println!("# of a text a digit above 9 counts in lower case alone, else as 0: the next line asks for 2031");
    in_upper_case();
    let mut random = Random::new(seed);
    for stated in pages::telling_texts().iter().chain(pages::witnesses().iter().map(|witness| &witness.right)) {
        line(stated.text, stated.reader, stated.format);
    }
    refusals();
    for (width, frac) in all_pairs() {
        for format in both_signs(width, frac) {
            every_manner(&mut random, format);
            ties(&mut random, format);
            for _ in 0..LITERALS_PER_FORMAT {
                line(&texts::literal(&mut random, LONGEST), Reader::Literal, format);
            }
        }
    }
    classes(&mut random);
    damaged(&mut random);
}

pub fn log10_sample(seed: u64) {
    println!("# Logarithms, made by: oracle/run FOLDER sample log10 --seed {seed}");
    println!("# kind (g), signed, width, frac, number, value, raw");
    let mut random = Random::new(seed);
    for (width, frac) in all_pairs() {
        let mut raws: Vec<u64> = (0..RAWS_PER_FORMAT).map(|_| random.next() >> random.below(64)).collect();
        raws.extend((0..RAWS_PER_FORMAT).map(|_| random.pick(&around_powers_of_ten(frac))));
        for format in both_signs(width, frac) {
            raws.iter().for_each(|bits| log10_line(raw_of(*bits, format), format));
        }
    }
    for (width, frac) in [(0, 0), (7, 8), (9, 9), (24, 25), (128, 0), (8, 9), (16, 17), (32, 33), (64, 65)] {
        both_signs(width, frac).iter().for_each(|format| log10_line(0, *format));
    }
}

fn log10_line(raw: i128, format: Format) {
    let right = model::log10(raw, format);
    if right.number == 0 {
        let of_s = original::log10(raw, format);
        assert_eq!(of_s, Outcome::Answered(right), "the sample wants S, and S as the model");
    }
    let signed = u8::from(format.signed);
    println!("g {signed} {} {} {} {} {raw}", format.width, format.frac, right.number, right.value);
}

fn every_manner(random: &mut Random, format: Format) {
    for radix in RADIXES {
        for manner in MANNERS {
            for _ in 0..TEXTS_PER_MANNER {
                line(&texts::plain(random, radix, LONGEST), Reader::Plain { radix, manner }, format);
            }
        }
    }
}

/// Ties of the format, whole or cut short; long ones only now and then.
fn ties(random: &mut Random, format: Format) {
    for _ in 0..TIES_PER_FORMAT {
        let radix = random.pick(&[2, 8, 10, 10, 10, 16]);
        let raw = random.next() >> (64 - format.width) >> random.below(format.width as usize);
        let (whole, fraction) = texts::tie_above(raw, format.frac, radix);
        let cut = if random.one_in(4) { fraction.len() } else { random.below(fraction.len() + 1).min(20) };
        let sign: &[u8] = random.pick(&[b"".as_slice(), b"-"]);
        let reader = Reader::Plain { radix, manner: random.pick(&MANNERS) };
        line(&texts::joined(sign, &whole, &fraction[..cut]), reader, format);
    }
}

/// Texts of each class, found by trying.
fn classes(random: &mut Random) {
    let pairs = all_pairs();
    for class in Class::ALL {
        let mut found = 0;
        while found < TEXTS_PER_CLASS {
            let radix = random.pick(&[8, 10, 16]);
            let (width, frac) = if random.one_in(2) { random.pick(&pairs) } else { (8, random.pick(&[0, 1, 4, 8])) };
            let reader = Reader::Plain { radix, manner: random.pick(&MANNERS) };
            let format = random.pick(&both_signs(width, frac));
            let text = likely(random, radix, format);
            let scanned = scan(&text, reader, format.signed);
            let occasion = Occasion { text: &text, reader, format, written: scanned.as_ref().ok() };
            if Class::of(&occasion) == Some(class) {
                line(&text, reader, format);
                found += 1;
            }
        }
    }
}

/// A text of the kind that falls into a class: a cut tie, some digits under a `p`.
fn likely(random: &mut Random, radix: u32, format: Format) -> Vec<u8> {
    if radix == 10 {
        let raw = random.next() >> (64 - format.width);
        let (whole, fraction) = texts::tie_above(raw, format.frac, 10);
        let cut = random.below(fraction.len() + 1).min(30);
        let fraction: &[u8] = if random.one_in(3) { b"251" } else { &fraction[..cut] };
        return texts::joined(b"", &whole, fraction);
    }
    let whole = if random.one_in(2) { Vec::new() } else { texts::digits(random, radix, 2) };
    let mut text = texts::joined(b"", &whole, &texts::digits(random, radix, 2));
    text.push(b'p');
    text.extend((random.below(24) as i64 - 12).to_string().bytes());
    text
}

fn damaged(random: &mut Random) {
    let pairs = all_pairs();
    for at in 0..DAMAGED_TEXTS {
        let (width, frac) = random.pick(&pairs);
        let format = random.pick(&both_signs(width, frac));
        let (mut text, reader) = if at % 2 == 0 {
            (texts::literal(random, LONGEST), Reader::Literal)
        } else {
            let radix = random.pick(&RADIXES);
            (texts::plain(random, radix, LONGEST), Reader::Plain { radix, manner: random.pick(&MANNERS) })
        };
        texts::damage(random, &mut text);
        line(&text, reader, format);
    }
}

/// Refusals 1 to 4, each before those after it, and the longest text that is read.
fn refusals() {
    let plain = |radix| Reader::Plain { radix, manner: STRICT };
    let mut widths = vec![0, 1, 7, 9, 15, 24, 33, 63, 65, 128];
    widths.extend(WIDTHS);
    for width in widths {
        for frac in [0, 8, 9, 16, 17, 32, 33, 64, 65] {
            for signed in [true, false] {
                let format = Format { signed, width, frac };
                line(b"x", plain(10), format);
                line(b"1", plain(7), format);
                line(b"", Reader::Literal, format);
            }
        }
    }
    for radix in [0, 1, 3, 7, 9, 11, 15, 17, 36] {
        line(b"1", plain(radix), Format { signed: true, width: 16, frac: 8 });
    }
    let mut long = vec![b'0'; LONGEST_TEXT];
    line(&long, plain(10), Format { signed: true, width: 16, frac: 8 });
    long.push(b'x');
    line(&long, plain(10), Format { signed: true, width: 16, frac: 8 });
    line(&long, Reader::Literal, Format { signed: true, width: 16, frac: 8 });
}

/// The text ` 1` with an upper-case digit where it has a 0: with `D` as a digit it would be `-1`, which has another answer.
fn in_upper_case() {
    let reader = Reader::Plain { radix: 10, manner: STRICT };
    line_as("2D31", b" 1", reader, Format { signed: true, width: 8, frac: 0 });
}

fn line(text: &[u8], reader: Reader, format: Format) {
    let hexadecimal: String = text.iter().map(|byte| format!("{byte:02x}")).collect();
    line_as(if hexadecimal.is_empty() { "-" } else { &hexadecimal }, text, reader, format);
}

/// One question with its answer. The literal reader has no radix and no manner of its own: both are written as 0.
fn line_as(shown: &str, text: &[u8], reader: Reader, format: Format) {
    let (kind, radix, manner) = match reader {
        Reader::Plain { radix, manner } => ('p', radix, manner),
        Reader::Literal => ('l', 0, 0),
    };
    let Answer { number, flag, value } = stored(text, reader, format);
    let (signed, flag) = (u8::from(format.signed), u8::from(flag));
    println!("{kind} {signed} {} {} {radix} {manner} {number} {flag} {value} {shown}", format.width, format.frac);
}

/// S's answer, if S knows the question and the text is in no class.
fn stored(text: &[u8], reader: Reader, format: Format) -> Answer {
    let right = model::answer(text, reader, format);
    if model::refusal(text, reader, format).is_some() {
        return right;
    }
    let scanned = scan(text, reader, format.signed);
    let occasion = Occasion { text, reader, format, written: scanned.as_ref().ok() };
    if Class::of(&occasion).is_none() {
        let of_s = original::answer(text, reader, format);
        assert_eq!(of_s, Outcome::Answered(right), "the sample wants S, and S as the model outside the classes");
    }
    right
}
