//! The count of what was compared, and its closing line.

use std::fmt::{Debug, Display, Formatter, Result};

/// What differs is told this often at most; the rest is counted.
const TOLD: u64 = 20;

#[derive(Clone, Copy, Default)]
pub struct Tally {
    pub passed: u64,
    pub failed: u64,
}

impl Tally {
    pub fn see(&mut self, holds: bool, told: impl FnOnce() -> String) {
        if holds {
            self.passed += 1;
            return;
        }
        self.failed += 1;
        if self.failed <= TOLD {
            println!("failed: {}", told());
        }
    }

    pub fn same<T: PartialEq + Debug>(&mut self, found: T, wanted: T, told: impl FnOnce() -> String) {
        self.see(found == wanted, || format!("{}: found {found:?}, wanted {wanted:?}", told()));
    }

    /// The program ends, with status 1 if something failed.
    pub fn close(self) -> ! {
        println!("{self}");
        std::process::exit(i32::from(self.failed != 0))
    }
}

impl Display for Tally {
    fn fmt(&self, to: &mut Formatter) -> Result {
        write!(to, "{} passed, {} failed", self.passed, self.failed)
    }
}
