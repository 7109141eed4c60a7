//! Makes texts: all short ones, exact expansions, and seeded random ones, good and damaged.

use crate::random::Random;

/// The bytes that matter in each radix: digits and none, marks and none, signs, the point, the underscore.
pub const TELLING_BYTES: [(u32, &[u8]); 4] =
    [(2, b"012.+-_eEpP@x"), (8, b"013478.+-_epP@x"), (10, b"01259.+-_eE@px"), (16, b"0148fA.+-_pP@eg")];

/// Texts that bring the automaton into each of its states.
pub const INTO_EACH_STATE: [&[u8]; 9] = [b"", b"+", b"-", b"1", b".", b"1.0", b"1@", b"1@-", b"1@0"];

/// Every text of up to `longest` bytes over the alphabet, after a fixed beginning, in order of length.
pub fn exhaustive(beginning: &[u8], alphabet: &[u8], longest: usize, mut visit: impl FnMut(&[u8])) {
    for length in 0..=longest {
        let mut places = vec![0; length];
        let mut text = beginning.to_vec();
        text.extend(std::iter::repeat_n(alphabet[0], length));
        loop {
            visit(&text);
            let Some(turned) = places.iter().rposition(|place| place + 1 < alphabet.len()) else {
                break;
            };
            places[turned] += 1;
            places[turned + 1..].fill(0);
            for (at, place) in places.iter().enumerate().skip(turned) {
                text[beginning.len() + at] = alphabet[*place];
            }
        }
    }
}

pub fn digits_of(radix: u32) -> &'static [u8] {
    match radix {
        2 => b"01",
        8 => b"01234567",
        10 => b"0123456789",
        _ => b"0123456789abcdefABCDEF",
    }
}

/// The marks of a radix, with the base that each scales by.
pub fn marks_of(radix: u32) -> &'static [(u8, u32)] {
    match radix {
        2 => &[(b'e', 2), (b'E', 2), (b'@', 2), (b'p', 2), (b'P', 2)],
        8 => &[(b'e', 8), (b'E', 8), (b'@', 8), (b'p', 2), (b'P', 2)],
        10 => &[(b'e', 10), (b'E', 10), (b'@', 10)],
        _ => &[(b'@', 16), (b'p', 2), (b'P', 2)],
    }
}

/// numerator / 2^bits written out in the radix: the digits before the point, and all those after it.
pub fn expansion(numerator: u128, bits: u32, radix: u32) -> (Vec<u8>, Vec<u8>) {
    let digits = digits_of(radix);
    let one = 1u128 << bits;
    let mut whole = Vec::new();
    let mut left = numerator / one;
    while left > 0 {
        whole.insert(0, digits[(left % u128::from(radix)) as usize]);
        left /= u128::from(radix);
    }
    let mut fraction = Vec::new();
    let mut rest = numerator % one;
    while rest > 0 {
        rest *= u128::from(radix);
        fraction.push(digits[(rest / one) as usize]);
        rest %= one;
    }
    (whole, fraction)
}

/// The tie between a raw and the next: (raw + 1/2) / 2^frac.
pub fn tie_above(raw: u64, frac: u32, radix: u32) -> (Vec<u8>, Vec<u8>) {
    expansion(2 * u128::from(raw) + 1, frac + 1, radix)
}

pub fn joined(sign: &[u8], whole: &[u8], fraction: &[u8]) -> Vec<u8> {
    let mut text = [sign, whole].concat();
    if !fraction.is_empty() || whole.is_empty() {
        text.push(b'.');
        text.extend(fraction);
    }
    if whole.is_empty() && fraction.is_empty() {
        text.push(b'0');
    }
    text
}

/// Digits of a random length, of one of several tempers: any, nearly all zero, nearly all the highest, halves.
pub fn digits(random: &mut Random, radix: u32, longest: usize) -> Vec<u8> {
    let alphabet = digits_of(radix);
    let highest = alphabet[radix as usize - 1];
    let half = alphabet[radix as usize / 2];
    let usual = random.pick(&[None, None, Some(b'0'), Some(highest), Some(half)]);
    let length = random.below(longest + 1);
    (0..length)
        .map(|_| match usual {
            Some(digit) if !random.one_in(8) => digit,
            _ => random.pick(alphabet),
        })
        .collect()
}

/// A mark and an exponent; mostly small, sometimes at an end of its range or past it.
pub fn exponent(random: &mut Random, radix: u32) -> Vec<u8> {
    let (mark, _) = random.pick(marks_of(radix));
    let number: i64 = match random.below(16) {
        0 => random.pick(&[2147483647, 2147483648, -2147483648, -2147483649, 0, 99999999999]),
        1 => random.next() as i32 as i64,
        2..=5 => random.below(140) as i64 - 70,
        _ => random.below(24) as i64 - 12,
    };
    let plus = if number >= 0 && random.one_in(4) { "+" } else { "" };
    let zeros = if random.one_in(16) && number >= 0 { "00" } else { "" };
    [&[mark], format!("{plus}{zeros}{number}").as_bytes()].concat()
}

/// A text that the plain reader takes (or nearly: its parts may all be empty).
pub fn plain(random: &mut Random, radix: u32, longest: usize) -> Vec<u8> {
    let sign: &[u8] = random.pick(&[b"".as_slice(), b"", b"-", b"-", b"+"]);
    let mut text = sign.to_vec();
    text.extend(digits(random, radix, longest / 2));
    if !random.one_in(4) {
        text.push(b'.');
        text.extend(digits(random, radix, longest));
    }
    if random.one_in(3) {
        text.extend(exponent(random, radix));
    }
    text
}

/// A text for the literal reader: a plain one under a prefix, without `+`, with underscores strewn in.
pub fn literal(random: &mut Random, longest: usize) -> Vec<u8> {
    let (prefix, radix) = random.pick(&[("", 10), ("", 10), ("0b", 2), ("0o", 8), ("0x", 16), ("0x", 16)]);
    let plain = plain(random, radix, longest);
    let (sign, body): (&[u8], &[u8]) = match plain.first() {
        Some(b'-') => (b"-", &plain[1..]),
        Some(b'+') if !random.one_in(4) => (b"", &plain[1..]),
        _ => (b"", &plain),
    };
    let mut text = [sign, prefix.as_bytes()].concat();
    if !prefix.is_empty() && random.one_in(2) {
        text.push(b'_');
    }
    let strewn = random.pick(&[0, 3, 10]);
    for byte in body {
        text.push(*byte);
        while strewn > 0 && random.one_in(strewn) {
            text.push(b'_');
        }
    }
    text
}

/// The text with one to three of its bytes changed, dropped, doubled or added.
pub fn damage(random: &mut Random, text: &mut Vec<u8>) {
    for _ in 0..=random.below(3) {
        let at = random.below(text.len() + 1);
        let byte = if random.one_in(8) { random.next() as u8 } else { random.pick(b"0123456789.._-+eEpP@abfxo") };
        match random.below(4) {
            0 => text.insert(at, byte),
            1 if at < text.len() => text[at] = byte,
            2 if at < text.len() => {
                text.remove(at);
            }
            3 if at < text.len() => text.insert(at, text[at]),
            _ => text.truncate(at),
        }
    }
}
