//! Fitting files at random: good ones, damaged ones, hostile ones.

use crate::common::random::Random;
use crate::model::{LONGEST_FILE, MOST, Places};

/// 5^16: the half steps of I1F15 are its odd multiples, as sixteen decimal digits.
const HALF_STEP: u64 = 152_587_890_625;

/// Lines that each try one thing, with blanks between them.
const TELLING: &str = "-1 1 0.99998 0.99999 0 -0 - +1 0x-1 0X1 --1 1_ _1 0._5 . 5e-1_ 0x_.8 0b.1 0o.4p1 0x8@-1 0x8p-4 0x 1e 1e+ .5.5 \
    1e1e1 1e1. 1e2147483648 0e2147483647 1e-2147483648 1e-2147483649 1@0 -1.0000152587890625 -1.00001525878906250000000001 \
    0.9999847412109375 0.99998474121093749999999999";

fn digits(random: &mut Random, count: usize, radix: usize) -> Vec<u8> {
    (0..count).map(|_| b"0123456789abcdef"[random.below(radix)]).collect()
}

/// A number half way between two raws, or a little to either side of it.
fn tie(random: &mut Random) -> Vec<u8> {
    let odd = 2 * random.below(1 << 15) as u64 + 1;
    let near = random.below(4);
    let middle = odd * HALF_STEP - u64::from(near == 1);
    let mut text = format!("0.{middle:016}").into_bytes();
    let tail = random.pick(&[0, 1, 10, 11, 12, 27, 60]);
    match near {
        0 => text.extend(vec![b'0'; tail]),
        1 => text.extend(vec![b'9'; tail]),
        2 => text.extend([vec![b'0'; tail], vec![b'1']].concat()),
        _ => {}
    }
    text
}

/// A number with its point moved and an exponent that moves it back, more or less.
fn scaled(random: &mut Random) -> Vec<u8> {
    let by = random.below(40) as i64 - 20;
    let off = random.pick(&[0, 0, 0, -1, 1, -5]);
    let (count, more) = (1 + random.below(5), random.below(8));
    let zeros = by.unsigned_abs() as usize;
    let mut text = if by < 0 { [b".".to_vec(), vec![b'0'; zeros]].concat() } else { Vec::new() };
    text.extend(digits(random, count + more, 10));
    let places = if by < 0 { zeros as i64 } else { -((count + more) as i64) };
    let sign = if random.one_in(2) && places + off >= 0 { "+" } else { "" };
    let mark = random.pick(&["e", "E", "@"]);
    text.extend(format!("{mark}{sign}{}", places + off).bytes());
    text
}

/// A number in radix 2, 8 or 16, below 1 or about 1, some with an exponent of either kind.
fn prefixed(random: &mut Random) -> Vec<u8> {
    let (prefix, radix) = random.pick(&[("0b", 2), ("0o", 8), ("0x", 16)]);
    let count = random.below(20);
    let mut text = [prefix.as_bytes(), random.pick(&[b"".as_slice(), b"_", b"0", b"0", b"1", b"__0"]), b"."].concat();
    text.extend(digits(random, count, radix));
    if random.one_in(3) {
        let mark = random.pick(if radix == 16 { &["@", "p", "P"] } else { &["@", "p", "e"] });
        text.extend(format!("{mark}{}", random.below(12) as i64 - 8).bytes());
    }
    text
}

fn spread_underscores(random: &mut Random, text: &mut Vec<u8>) {
    for _ in 0..1 + random.below(3) {
        let at = random.below(text.len() + 1);
        text.insert(at, b'_');
    }
}

/// A byte put in, taken out or changed.
fn damage(random: &mut Random, text: &mut Vec<u8>) {
    let byte = match random.below(4) {
        0 => random.next() as u8,
        1 => random.pick(b"\0\r \t#\x7f\xff"),
        _ => random.pick(b"+-._@eEpPxXbo019aF"),
    };
    let at = random.below(text.len() + 1);
    match random.below(3) {
        0 => text.insert(at, byte),
        1 if at < text.len() => drop(text.remove(at)),
        _ if at < text.len() => text[at] = byte,
        _ => text.push(byte),
    }
}

fn telling(random: &mut Random) -> Vec<u8> {
    let at = random.below(TELLING.split(' ').count());
    TELLING.split(' ').nth(at).unwrap_or("").as_bytes().to_vec()
}

fn noise(random: &mut Random) -> Vec<u8> {
    let count = 1 + random.below(30);
    (0..count).map(|_| random.next() as u8).collect()
}

/// A line about as long as a text may be.
fn long(random: &mut Random) -> Vec<u8> {
    let length = random.pick(&[500, 4094, 4095, 4096, 4097, 5000]);
    let mut text = match random.below(4) {
        0 => tie(random),
        1 => b"0.".to_vec(),
        2 => b"-0x0.".to_vec(),
        _ => b"#".to_vec(),
    };
    let fill = random.pick(b"0009");
    text.resize(length, fill);
    if random.one_in(2) {
        text[length - 1] = b'1';
    }
    text
}

/// A line that is a number of the format, if `sound`; any line otherwise.
fn line(random: &mut Random, sound: bool) -> Vec<u8> {
    let kinds = if sound { 5 } else { 12 };
    let mut text = match random.below(kinds) {
        0 => format!("0.{}", random.below(1_000_000)).into_bytes(),
        1 => tie(random),
        2 => {
            let count = random.below(40);
            [b".5".to_vec(), digits(random, count, 10)].concat()
        }
        3 => format!("0x0.{:04x}", random.below(65536)).into_bytes(),
        4 => format!("{}e-{}", random.below(100), 2 + random.below(4)).into_bytes(),
        5 | 6 => scaled(random),
        7 | 8 => prefixed(random),
        9 => telling(random),
        10 => noise(random),
        _ => tie(random),
    };
    if random.one_in(8) && text.first() != Some(&b'-') {
        text.insert(0, b'-');
    }
    if !sound && random.one_in(4) {
        spread_underscores(random, &mut text);
    }
    if !sound && random.one_in(4) {
        damage(random, &mut text);
    }
    text
}

fn comment(random: &mut Random) -> Vec<u8> {
    match random.below(3) {
        0 => b"#".to_vec(),
        1 => b"# 0.5".to_vec(),
        _ => [b"#".to_vec(), noise(random)].concat(),
    }
}

/// How many lines with a value the file is to have, about.
fn planned(random: &mut Random) -> usize {
    match random.below(24) {
        0 => 0,
        1 => random.pick(&[MOST - 1, MOST, MOST, MOST + 1]),
        2 if random.one_in(20) => 200 + random.below(4000),
        _ => 1 + random.below(6),
    }
}

/// Comments or empty lines up to a length near the limit.
fn pad(random: &mut Random, file: &mut Vec<u8>) {
    let length =
        random.pick(&[LONGEST_FILE - 1, LONGEST_FILE, LONGEST_FILE, LONGEST_FILE + 1, LONGEST_FILE + 1, 40000]);
    let fill = random.pick(b"\n\n#x");
    if fill != b'\n' {
        file.extend(b"\n#");
    }
    while file.len() < length {
        file.push(fill);
    }
}

pub fn file(random: &mut Random) -> Vec<u8> {
    let sound = random.below(5) < 2;
    let crlf = !sound && random.one_in(12);
    let mut file = Vec::new();
    for _ in 0..planned(random) {
        while random.one_in(4) {
            let between = if random.one_in(2) { comment(random) } else { Vec::new() };
            file.extend([between, b"\n".to_vec()].concat());
        }
        let bad = !sound && random.one_in(2);
        let text = if bad && random.one_in(60) { long(random) } else { line(random, !bad) };
        file.extend(text);
        file.extend(if crlf { b"\r\n".as_slice() } else { b"\n" });
    }
    if random.one_in(2) {
        file.pop();
    }
    if random.one_in(4) {
        file.extend(comment(random));
    }
    if random.one_in(60) {
        pad(random, &mut file);
    }
    file
}

/// Places for about `count` values: enough in most files, else too few, none, or lists of unequal length.
pub fn places(random: &mut Random, count: usize) -> Places {
    let base = match random.below(8) {
        0 => count.saturating_sub(1),
        1 if random.one_in(3) => 0,
        1 | 2 => count + random.below(4),
        3 => MOST,
        _ => count,
    };
    let mut places = Places { lines: base, raws: base, answers: base, taps: base };
    match random.below(40) {
        0 => places.lines += 1,
        1 => places.raws += 1,
        2 => places.answers += 1,
        3 => places.taps = places.taps.saturating_sub(1),
        4 => places.taps = 0,
        5 | 6 => places.taps += 1 + random.below(5),
        7 if random.one_in(4) => places.lines = 0,
        8 if random.one_in(4) => places.answers = places.answers.saturating_sub(1),
        _ => {}
    }
    places
}
