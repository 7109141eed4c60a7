//! The port, through its C interface (include/tamqoret.h). Built without an archive, it answers nothing.

#[cfg(not(port))]
pub use crate::absent::{answer, log10};
#[cfg(port)]
pub use linked::*;

#[cfg(port)]
mod linked {
    use crate::common::capi::*;
    use crate::format::{Format, Outcome, Reader};

    pub fn answer(text: &[u8], reader: Reader, Format { signed, width, frac }: Format) -> Outcome {
        let (start, len) = (text.as_ptr(), text.len());
        Outcome::Answered(match reader {
            Reader::Plain { radix, manner } => {
                answer!(signed, tq_read_signed | tq_read_unsigned, [], start, len, width, frac, radix, manner)
            }
            Reader::Literal => answer!(signed, tq_literal_signed | tq_literal_unsigned, [], start, len, width, frac),
        })
    }

    /// The raw is one of an `i64` or a `u64`, by the format's sign, so the casts lose nothing.
    pub fn log10(raw: i128, Format { signed, width, frac }: Format) -> Outcome {
        Outcome::Answered(answer!(signed, tq_log10_signed | tq_log10_unsigned, [raw], width, frac))
    }
}
