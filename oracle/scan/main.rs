//! The port's scanner against the automaton of docs/GRAMMAR.md, before any number is made of the digits: refusal, sign, digits one by one,
//! places after the point, base and exponent. `oracle/run` has held the same automaton against S.
//!
//!     oracle/scan/run [LONGEST]        every text of up to LONGEST bytes (6), and seeded random ones, good and damaged
//!
//! Its last line is 'N passed, M failed'.

#[path = "../common/mod.rs"]
mod common;
#[allow(dead_code)]
#[path = "../src/format.rs"]
mod format;
#[allow(dead_code)]
#[path = "../src/scan.rs"]
mod scan;
#[allow(dead_code)]
#[path = "../src/texts.rs"]
mod texts;

use common::random::{self, Random};
use common::tally::Tally;
use format::{RADIXES, Reader, STRICT};
use scan::Written;

#[repr(C)]
struct Probe {
    number: u32,
    radix: u32,
    neg: u32,
    base: u32,
    down: u32,
    exp: u64,
    whole_from: usize,
    whole_to: usize,
    whole_digits: usize,
    frac_from: usize,
    frac_to: usize,
    frac_digits: usize,
}

unsafe extern "C" {
    fn probe_plain(text: *const u8, len: usize, radix: u32) -> Probe;
    fn probe_literal(text: *const u8, len: usize, signed: u32) -> Probe;
}

/// The values of the digits in a run of the text, `_` skipped.
fn values(text: &[u8], from: usize, to: usize) -> Vec<u8> {
    text[from..to]
        .iter()
        .filter(|byte| **byte != b'_')
        .map(|byte| char::from(*byte).to_digit(16).unwrap() as u8)
        .collect()
}

/// What the scanner's places say, in the automaton's terms.
fn written(text: &[u8], probe: &Probe) -> Result<Written, u32> {
    if probe.number != 0 {
        return Err(probe.number);
    }
    let whole = values(text, probe.whole_from, probe.whole_to);
    let fraction = values(text, probe.frac_from, probe.frac_to);
    // a count that is not that of the digits is shown as a number of places that no text has
    let counted = whole.len() == probe.whole_digits && fraction.len() == probe.frac_digits;
    Ok(Written {
        negative: probe.neg != 0,
        radix: probe.radix,
        places: if counted { fraction.len() } else { usize::MAX },
        digits: [whole, fraction].concat(),
        // without a mark the port keeps 1, the automaton the radix; nothing is scaled either way
        base: if probe.base == 1 { probe.radix } else { probe.base },
        exponent: (if probe.down != 0 { -(probe.exp as i64) } else { probe.exp as i64 }) as i32,
    })
}

fn same(t: &mut Tally, text: &[u8], what: &str, probe: &Probe, right: Result<Written, u32>) {
    t.same(written(text, probe), right, || format!("{what} {:?}", String::from_utf8_lossy(text)));
}

fn plain(t: &mut Tally, text: &[u8], radix: u32) {
    // SAFETY: the pointer and the length are those of a slice that outlives the call
    let probe = unsafe { probe_plain(text.as_ptr(), text.len(), radix) };
    let right = scan::scan(text, Reader::Plain { radix, manner: STRICT }, true);
    same(t, text, &format!("plain, radix {radix},"), &probe, right);
}

fn literal(t: &mut Tally, text: &[u8]) {
    for (signed, what) in [(false, "literal, unsigned,"), (true, "literal, signed,")] {
        // SAFETY: as above
        let probe = unsafe { probe_literal(text.as_ptr(), text.len(), signed.into()) };
        same(t, text, what, &probe, scan::scan(text, Reader::Literal, signed));
    }
}

fn short(t: &mut Tally, longest: usize) {
    for (radix, alphabet) in texts::TELLING_BYTES {
        texts::exhaustive(b"", alphabet, longest, |text| plain(t, text, radix));
    }
    texts::exhaustive(b"", b"018box.+-_ep@", longest, |text| literal(t, text));
    for prefix in [&b"0b"[..], b"0o", b"0x", b"-0x"] {
        texts::exhaustive(prefix, b"0148fA.+-_p@eg", longest - 1, |text| literal(t, text));
    }
}

/// Every byte in every state of the automaton, and every byte after it.
fn bytes(t: &mut Tally) {
    let every_byte: Vec<u8> = (0..=255).collect();
    for beginning in texts::INTO_EACH_STATE {
        texts::exhaustive(beginning, &every_byte, 2, |text| {
            RADIXES.iter().for_each(|radix| plain(t, text, *radix));
            literal(t, text);
        });
    }
}

fn long(t: &mut Tally, random: &mut Random) {
    for count in 0..200_000 {
        let longest = if count % 100 == 0 { 1500 } else { 40 };
        let radix = random.pick(&RADIXES);
        let mut number = texts::plain(random, radix, longest);
        let mut constant = texts::literal(random, longest);
        if count % 2 == 0 {
            texts::damage(random, &mut number);
            texts::damage(random, &mut constant);
        }
        plain(t, &number, radix);
        literal(t, &constant);
    }
}

fn main() {
    let longest = std::env::args().nth(1).map_or(6, |word| word.parse().expect("LONGEST is a number of bytes"));
    let mut t = Tally::default();
    short(&mut t, longest);
    bytes(&mut t);
    long(&mut t, &mut Random::new(1));
    t.close()
}
