//! Fitting files: one signed I1F15 literal a line, empty lines and lines that start with `#` skipped.

use crate::answer::File;
use crate::filter::{Raws, TAPS};
use crate::{Error, FileError};

unsafe extern "C" {
    fn tq_fitting(
        file: *const u8,
        len: usize,
        lines: *mut u32,
        lines_len: usize,
        raws: *mut i16,
        raws_len: usize,
        answers: *mut u32,
        answers_len: usize,
        taps: *mut i16,
        taps_len: usize,
    ) -> File;
}

/// A value of a fitting file.
#[derive(Clone, Copy, Debug, PartialEq, Eq)]
pub struct Entry {
    /// the number of the line, from 1
    pub line: u32,
    /// the raw, or why the line is refused
    pub raw: Result<i16, Error>,
}

/// The values of a fitting file.
#[derive(Clone, Debug)]
pub struct List {
    lines: [u32; TAPS],
    raws: [i16; TAPS],
    answers: [u32; TAPS],
}

impl List {
    /// The values in the file's order.
    pub fn entries(&self) -> impl Iterator<Item = Entry> + '_ {
        // lines are numbered from 1; an entry that was not written has 0
        let count = self.lines.iter().take_while(|&&line| line != 0).count();
        (0..count).map(|k| Entry {
            line: self.lines[k],
            raw: if self.answers[k] == 0 { Ok(self.raws[k]) } else { Err(Error::of(self.answers[k])) },
        })
    }
}

/// The taps of a fitting file.
///
/// ```
/// use tamqoret::{Error, FileError, fitting};
/// let taps = fitting("# ear 2, left\n0.5\n-0.25\n")?;
/// assert_eq!(*taps, [16384, -8192]);
/// assert_eq!(fitting("0.5\n1.5\n"), Err(FileError::Line { line: 2, error: Error::Overflow }));
/// # Ok::<(), FileError>(())
/// ```
pub fn fitting(file: impl AsRef<[u8]>) -> Result<Raws, FileError> {
    fitting_list(file).1
}

/// The same with the list of the values, which names every refused line where one is refused. With every other refusal the list is empty.
pub fn fitting_list(file: impl AsRef<[u8]>) -> (List, Result<Raws, FileError>) {
    let file = file.as_ref();
    let mut list = List { lines: [0; TAPS], raws: [0; TAPS], answers: [0; TAPS] };
    let mut taps = Raws { places: [0; TAPS], len: 0 };
    let answer = unsafe {
        tq_fitting(
            file.as_ptr(),
            file.len(),
            list.lines.as_mut_ptr(),
            TAPS,
            list.raws.as_mut_ptr(),
            TAPS,
            list.answers.as_mut_ptr(),
            TAPS,
            taps.places.as_mut_ptr(),
            TAPS,
        )
    };
    taps.len = answer.values as usize;
    let read = match answer.number {
        0 => Ok(taps),
        42 => Err(FileError::Line { line: answer.line, error: Error::of(answer.inner) }),
        number => Err(FileError::File(Error::of(number))),
    };
    (list, read)
}
