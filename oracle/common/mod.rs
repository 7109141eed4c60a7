//! What the programs of the oracle share; each takes of it what it needs.

#![allow(dead_code, unused_imports, unused_macros)]

pub mod capi;
pub mod exact;
pub mod format;
pub mod random;
pub mod tally;
pub mod telling;
pub mod timing;
