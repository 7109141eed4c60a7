//! S, as the harness asks it. Built without S's files (`--cfg without_s`), it answers nothing, and the model stands alone.

#[cfg(without_s)]
pub use crate::absent::*;
#[cfg(not(without_s))]
pub use present::*;

#[cfg(not(without_s))]
mod present {
    use crate::format::{Answer, Format, Outcome, Reader};
    use std::panic::{UnwindSafe, catch_unwind, set_hook};
    use std::sync::atomic::{AtomicBool, Ordering::Relaxed};

    /// Whether S is being asked at this moment.
    static ASKING: AtomicBool = AtomicBool::new(false);

    /// A panic of S is an answer like another, and not printed; one of the harness is.
    pub fn hide_panics_of_s() {
        set_hook(Box::new(|panic| {
            if !ASKING.load(Relaxed) {
                eprintln!("{panic}");
            }
        }));
    }

    /// What S gives, or nothing if it panics.
    fn asked<T>(question: impl FnOnce() -> T + UnwindSafe) -> Option<T> {
        ASKING.store(true, Relaxed);
        let given = catch_unwind(question).ok();
        ASKING.store(false, Relaxed);
        given
    }

    pub fn answer(text: &[u8], reader: Reader, format: Format) -> Outcome {
        let Format { signed, width, frac } = format;
        let reading = asked(|| match reader {
            Reader::Plain { radix, manner } => s::read(signed, width, frac, radix, manner, text),
            Reader::Literal => s::literal(signed, width, frac, text),
        });
        match reading {
            Some(Ok((value, flag))) => Outcome::Answered(Answer::done(value, flag)),
            Some(Err(number)) => Outcome::Answered(Answer::refused(number)),
            None => Outcome::Panicked,
        }
    }

    /// The logarithm of a positive raw: Rust's own `ilog10` of the whole part, or S's of the fraction as W bits.
    pub fn log10(raw: i128, Format { width, frac, .. }: Format) -> Outcome {
        let whole = raw >> frac;
        let bits = (raw << (width - frac)) as u64;
        match asked(|| if whole > 0 { whole.ilog10() as i32 } else { s::log10_of_fraction(width, bits) }) {
            Some(k) => Outcome::Answered(Answer::done(i128::from(k), false)),
            None => Outcome::Panicked,
        }
    }

    /// Strict reading into I32F32, as a program that uses the crate would call it: for the benchmark.
    pub fn reads_i32f32(text: &[u8]) -> bool {
        s::from_str::i64::from_str_radix(text, 10, 32).is_ok()
    }
}
