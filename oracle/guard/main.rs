//! Calls every function of the archive with lent buffers that lie against pages which must not be touched, and looks at all that a call could
//! have spoiled. Built and run by oracle/guard.sh.
//!
//!     guard [CALLS] [SEED]
//!
//! After each call: nothing outside a lent buffer has changed; a refused call has left every buffer as it was (but the list of 42), and answers
//! value 0 and flag 0; a done one has written no more than its answer says; the answer is one that the function can give; and it is the same
//! wherever the buffers lie. Inputs are in pages that can only be read. Buffers of no elements are null, dangling, or against a forbidden page.

mod check;
#[path = "../common/mod.rs"]
mod common;
mod pages;
mod pick;
mod table;

use check::{ARGS, Bench, CALLS, NAME};
use common::random::Random;
use common::tally::Tally;
use std::sync::atomic::Ordering::Relaxed;
use table::Function;

unsafe extern "C" {
    fn signal(number: i32, handler: extern "C" fn(i32)) -> usize;
    fn _exit(status: i32) -> !;
}

/// A call that touched a forbidden page, or stopped: says which, and ends the run as failed.
extern "C" fn stopped(number: i32) {
    let (name, args) = (NAME.load(Relaxed), ARGS.load(Relaxed));
    if !name.is_null() && !args.is_null() {
        println!("failed: {} did not come back (signal {number}) from {:?}", unsafe { *name }, unsafe { *args });
    }
    println!("{}", Tally { passed: CALLS.load(Relaxed), failed: 1 });
    unsafe { _exit(1) }
}

/// A function of the header that is not in the table is called by nobody here.
fn header(t: &mut Tally, functions: &[Function]) {
    let text = include_str!("../../include/tamqoret.h");
    let words = text.split(|c: char| !c.is_ascii_alphanumeric() && c != '_' && c != '(');
    for (name, _) in words.filter_map(|word| word.split_once('(')).filter(|(name, _)| name.starts_with("tq_")) {
        t.see(functions.iter().any(|f| f.name == name), || {
            format!("{name} is in the header and not in the table, or not in the archive")
        });
    }
}

fn main() {
    let mut arguments = std::env::args().skip(1).map(|a| a.parse::<u64>().expect("CALLS and SEED are numbers"));
    let calls = arguments.next().unwrap_or(1_000_000);
    let mut random = Random::new(arguments.next().unwrap_or(1));
    let mut t = Tally::default();
    let mut bench = Bench::new(&mut random);
    let functions = table::functions();
    let mut seen = vec![[0u64; 2]; functions.len()];
    // ILL, ABRT, BUS, FPE, SEGV
    for number in [4, 6, 7, 8, 11] {
        unsafe { signal(number, stopped) };
    }
    while CALLS.load(Relaxed) < calls {
        for (f, seen) in functions.iter().zip(&mut seen) {
            let r = bench.probe(&mut t, &mut random, f);
            seen[usize::from(r.number != 0)] += 2;
        }
    }
    for (f, [done, refused]) in functions.iter().zip(seen) {
        println!("{:34} {:9} calls, {done:9} done, {refused:9} refused", f.name, done + refused);
        t.see(done > 0 && refused > 0, || format!("{} was never done or never refused", f.name));
    }
    header(&mut t, &functions);
    println!("{} functions, {} calls", functions.len(), CALLS.load(Relaxed));
    t.close()
}
