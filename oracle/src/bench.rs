//! Reading speed: S and the port in one process, on the same decimal texts, strict, signed, W = 64, F = 32.

use crate::common::timing::{each, in_turns};
use crate::format::{Format, Outcome, Reader, STRICT};
use crate::original;
use crate::port;
use crate::random::Random;

const LENGTHS: [usize; 3] = [5, 20, 60];
const TEXTS: usize = 4096;
const ROUNDS: usize = 60;

pub fn bench(seed: u64) {
    let mut random = Random::new(seed);
    for length in LENGTHS {
        let texts: Vec<Vec<u8>> = (0..TEXTS).map(|_| text(&mut random, length)).collect();
        let texts: Vec<&[u8]> = texts.iter().map(Vec::as_slice).collect();
        let (of_port, of_s) = in_turns(ROUNDS, || each(&texts, read_by_port), || each(&texts, original::reads_i32f32));
        let (of_port, of_s) = (of_port.fastest(), of_s.fastest());
        match read_by_port(b"1") {
            true => println!("{length} digits: S {of_s:.1} ns, the port {of_port:.1} ns, ratio {:.2}", of_port / of_s),
            false => println!("{length} digits: S {of_s:.1} ns, no port is linked"),
        }
    }
}

/// So many digits, a third of them but at most nine before the point, so that the number fits.
fn text(random: &mut Random, length: usize) -> Vec<u8> {
    let whole = (length / 3).clamp(1, 9);
    let mut text: Vec<u8> = (0..length).map(|_| random.pick(b"0123456789")).collect();
    text[0] = random.pick(b"123456789");
    text.insert(whole, b'.');
    text
}

fn read_by_port(text: &[u8]) -> bool {
    let format = Format { signed: true, width: 64, frac: 32 };
    let outcome = port::answer(text, Reader::Plain { radix: 10, manner: STRICT }, format);
    matches!(outcome, Outcome::Answered(answer) if answer.number == 0)
}
