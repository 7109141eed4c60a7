//! The feedback filter and the headroom check. Taps and samples are raws of [`crate::signed::I1F15`], kept as `i16`.

use crate::Error;
use crate::answer::Answer;
use core::fmt;
use core::ops::Deref;

/// The most taps, and the samples that a state holds.
pub const TAPS: usize = 64;

unsafe extern "C" {
    fn tq_filter(
        taps: *const i16,
        n: usize,
        state: *mut State,
        samples: *const i16,
        len: usize,
        outputs: *mut i16,
        out_len: usize,
        clips: *mut u8,
        clips_len: usize,
    ) -> Answer<u64>;
    fn tq_headroom(taps: *const i16, n: usize, witness: *mut i16, m: usize) -> Answer<u64>;
}

/// Up to 64 raws, without an allocation; it derefs to a slice.
#[derive(Clone, Copy)]
pub struct Raws {
    pub(crate) places: [i16; TAPS],
    pub(crate) len: usize,
}

impl Deref for Raws {
    type Target = [i16];

    fn deref(&self) -> &[i16] {
        &self.places[..self.len]
    }
}

impl fmt::Debug for Raws {
    fn fmt(&self, f: &mut fmt::Formatter<'_>) -> fmt::Result {
        fmt::Debug::fmt(&**self, f)
    }
}

impl PartialEq for Raws {
    fn eq(&self, other: &Raws) -> bool {
        **self == **other
    }
}

impl Eq for Raws {}

/// The last 64 samples, newest first; at the start all 0.
#[repr(C)]
#[derive(Clone, Copy, Debug, PartialEq, Eq)]
pub struct State {
    /// newest first
    pub samples: [i16; TAPS],
}

impl Default for State {
    fn default() -> State {
        State { samples: [0; TAPS] }
    }
}

/// A block through the filter with these taps; how many outputs clipped.
///
/// An output is the exact sum of tap x sample, over 2^15, rounded to the nearest, ties to even, then held to the range.
/// `outputs` and `clips` have a place for each sample, else [`Error::WrongLength`]; a clip byte is 1 where the output was held to the range, else 0.
/// With a refusal nothing is changed.
pub fn run(
    taps: &[i16],
    state: &mut State,
    samples: &[i16],
    outputs: &mut [i16],
    clips: &mut [u8],
) -> Result<u64, Error> {
    let answer = unsafe {
        tq_filter(
            taps.as_ptr(),
            taps.len(),
            state,
            samples.as_ptr(),
            samples.len(),
            outputs.as_mut_ptr(),
            outputs.len(),
            clips.as_mut_ptr(),
            clips.len(),
        )
    };
    answer.value()
}

/// Taps with the state that belongs to them.
///
/// ```
/// use tamqoret::Filter;
/// let mut filter = Filter::new(&[16384, -16384])?; // half the difference of the last two samples
/// let (mut outputs, mut clips) = ([0; 3], [0; 3]);
/// assert_eq!(filter.run(&[1000, 3000, 3000], &mut outputs, &mut clips)?, 0);
/// assert_eq!(outputs, [500, 1000, 0]);
/// # Ok::<(), tamqoret::Error>(())
/// ```
#[derive(Clone, Debug)]
pub struct Filter {
    taps: Raws,
    state: State,
}

impl Filter {
    /// A filter at its start. Taps that are not 1 to 64 are [`Error::WrongTaps`].
    pub fn new(taps: &[i16]) -> Result<Filter, Error> {
        let mut state = State::default();
        run(taps, &mut state, &[], &mut [], &mut [])?;
        let mut places = [0; TAPS];
        places[..taps.len()].copy_from_slice(taps);
        Ok(Filter { taps: Raws { places, len: taps.len() }, state })
    }

    /// The taps, that of the newest sample first.
    pub fn taps(&self) -> &[i16] {
        &self.taps
    }

    /// The last samples.
    pub fn state(&self) -> &State {
        &self.state
    }

    /// A block of samples; see [`run`].
    pub fn run(&mut self, samples: &[i16], outputs: &mut [i16], clips: &mut [u8]) -> Result<u64, Error> {
        run(&self.taps, &mut self.state, samples, outputs, clips)
    }

    /// Back to the start: all samples 0.
    pub fn reset(&mut self) {
        self.state = State::default();
    }
}

/// Whether a set of taps can ever clip. The samples, newest first, are ones that do.
#[derive(Clone, Copy, Debug, PartialEq, Eq)]
pub enum Verdict {
    /// No samples whatever clip.
    Never,
    /// Some samples clip high.
    High(Raws),
    /// None clip high, some clip low. No taps have this verdict: ones that clip low clip high as well. It is here since 01 defines it.
    Low(Raws),
}

/// Whether these taps can ever clip, whatever the samples. Taps that are not 1 to 64 are [`Error::WrongTaps`].
///
/// By hand: with A the sum of the taps above 0 and B that of the magnitudes of those below, they never clip exactly if A + B is at most 32767,
/// or A + B is 32768 and B below 16384.
///
/// ```
/// use tamqoret::{Verdict, headroom};
/// assert_eq!(headroom(&[32767, 1])?, Verdict::Never);
/// let Verdict::High(samples) = headroom(&[16384, -16384])? else { panic!() };
/// assert_eq!(*samples, [32767, -32768]);
/// # Ok::<(), tamqoret::Error>(())
/// ```
pub fn headroom(taps: &[i16]) -> Result<Verdict, Error> {
    // more taps than the witness has places for are refused in any case; the lent length is that of the taps, as the check wants
    if taps.len() > TAPS {
        return Err(Error::WrongTaps);
    }
    let mut samples = Raws { places: [0; TAPS], len: taps.len() };
    let answer = unsafe { tq_headroom(taps.as_ptr(), taps.len(), samples.places.as_mut_ptr(), taps.len()) };
    Ok(match answer.value()? {
        0 => Verdict::Never,
        1 => Verdict::High(samples),
        _ => Verdict::Low(samples),
    })
}
