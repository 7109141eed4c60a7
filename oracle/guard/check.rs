//! One call with its surroundings: lend, call, and see that nothing is written that must not be.

use crate::common::format::{Format, OVERFLOWING};
use crate::common::random::Random;
use crate::common::tally::Tally;
use crate::pages::{Region, Shelf, Side};
use crate::pick::{self, Pools};
use crate::table::{Args, Function, Outcome, Shape};
use std::ptr;
use std::sync::atomic::{AtomicPtr, AtomicU64, Ordering::Relaxed};

/// The call under way, for the case that it does not come back.
pub static NAME: AtomicPtr<&'static str> = AtomicPtr::new(ptr::null_mut());
pub static ARGS: AtomicPtr<Args> = AtomicPtr::new(ptr::null_mut());
pub static CALLS: AtomicU64 = AtomicU64::new(0);

pub struct Bench {
    pools: Pools,
    ins: [Shelf; 2],
    outs: [Shelf; 4],
    contents: [Vec<u8>; 2],
    befores: [Vec<u8>; 4],
    afters: [Vec<u8>; 4],
}

impl Bench {
    pub fn new(random: &mut Random) -> Bench {
        Bench {
            pools: Pools::new(random),
            ins: [(); 2].map(|_| Shelf::new(Region::readable)),
            outs: [(); 4].map(|_| Shelf::new(Region::writable)),
            contents: Default::default(),
            befores: Default::default(),
            afters: Default::default(),
        }
    }
}

/// The lent elements, and how many of each output the call may have written.
struct Lent {
    ins: [usize; 2],
    outs: [usize; 4],
}

/// Where a buffer of no elements is: nowhere, at an address that is only aligned, or against a page that must not be touched.
fn address(random: &mut Random, at: *mut u8, len: usize) -> *mut u8 {
    match random.below(3) {
        0 if len == 0 => ptr::null_mut(),
        1 if len == 0 => ptr::without_provenance_mut(8),
        _ => at,
    }
}

impl Bench {
    /// Chooses the call: its numbers, and what is lent.
    fn choose(&mut self, random: &mut Random, f: &Function) -> (Args, Lent) {
        let args = pick::numbers(random);
        let (ins, outs) = pick::lengths(random, f.shape, &args);
        let (in_sizes, out_sizes) = pick::sizes(f.shape);
        for (k, size) in in_sizes.iter().enumerate() {
            pick::content(random, &self.pools, f.shape, ins[k] * size, &mut self.contents[k]);
        }
        for (k, size) in out_sizes.iter().enumerate() {
            self.befores[k].clear();
            self.befores[k].extend(pick::before(random, &self.pools, outs[k] * size));
        }
        (args, Lent { ins, outs })
    }

    /// Lays the buffers against the pages on one side, and puts their addresses into the arguments.
    fn lay(&mut self, random: &mut Random, f: &Function, args: &mut Args, lent: &Lent, side: Side) {
        let (in_sizes, out_sizes) = pick::sizes(f.shape);
        let mut ins = [ptr::null_mut(); 2];
        for k in 0..in_sizes.len() {
            let at = self.ins[k].region(self.contents[k].len()).lend(&self.contents[k], side);
            ins[k] = address(random, at, lent.ins[k]);
        }
        let mut outs = [ptr::null_mut(); 4];
        for k in 0..out_sizes.len() {
            let at = self.outs[k].region(self.befores[k].len()).lend(&self.befores[k], side);
            outs[k] = address(random, at, lent.outs[k]);
        }
        (args.in0, args.in1) = (ins[0], ins[1]);
        (args.out0, args.out1, args.out2, args.out3) = (outs[0], outs[1], outs[2], outs[3]);
        (args.in0_len, args.in1_len) = (lent.ins[0], lent.ins[1]);
        [args.out0_len, args.out1_len, args.out2_len, args.out3_len] = lent.outs;
    }

    /// How many elements of each output the answer allows to be written. None: the answer itself is wrong.
    fn reach(&self, f: &Function, lent: &Lent, r: &Outcome) -> Option<[usize; 4]> {
        let value = usize::try_from(r.value).unwrap_or(0);
        let reach = match (f.shape, r.number) {
            (Shape::BytesOut, 0) => [value, 0, 0, 0],
            (Shape::Filter, 0) => [64, lent.outs[1], lent.outs[2], 0],
            (Shape::Headroom, 0) if value != 0 => [lent.ins[0], 0, 0, 0],
            (Shape::Fitting, 0) => [value; 4],
            (Shape::Fitting, 42) => {
                let lines = self.contents[0].split(|&b| b == b'\n');
                let values = lines.filter(|line| !line.is_empty() && line[0] != b'#').count();
                [values, values, values, 0]
            }
            _ => [0; 4],
        };
        reach.iter().zip(&lent.outs).all(|(r, n)| r <= n).then_some(reach)
    }

    /// The first rule that the call broke.
    fn broken(&mut self, f: &Function, args: &Args, lent: &Lent, r: &Outcome, side: Side) -> Option<&'static str> {
        let Some(reach) = self.reach(f, lent, r) else { return Some("more is said to be written than was lent") };
        for (k, size) in pick::sizes(f.shape).1.iter().enumerate() {
            let len = lent.outs[k] * size;
            if !self.outs[k].region(len).kept(len, reach[k] * size, side) {
                return Some("something was written that had to stay");
            }
        }
        wrong_answer(f, args, r)
    }

    /// Keeps what was written, or compares it with what was kept; then all is as before the call.
    fn same(&mut self, f: &Function, lent: &Lent, side: Side) -> bool {
        let mut same = true;
        for (k, size) in pick::sizes(f.shape).1.iter().enumerate() {
            let len = lent.outs[k] * size;
            let region = self.outs[k].region(len);
            if side == Side::End {
                self.afters[k].clear();
                self.afters[k].extend(region.content(len, side));
            } else {
                same &= self.afters[k] == region.content(len, side);
            }
            region.restore(len, side);
        }
        same
    }

    /// The same call with the buffers against the pages after them, then against the pages before them. Answers what it answered.
    pub fn probe(&mut self, t: &mut Tally, random: &mut Random, f: &Function) -> Outcome {
        let (mut args, lent) = self.choose(random, f);
        let mut first = None;
        for side in [Side::End, Side::Start] {
            self.lay(random, f, &mut args, &lent, side);
            NAME.store(ptr::from_ref(&f.name).cast_mut(), Relaxed);
            ARGS.store(&mut args, Relaxed);
            let r = (f.call)(&args);
            CALLS.fetch_add(1, Relaxed);
            let mut broken = self.broken(f, &args, &lent, &r, side);
            if !self.same(f, &lent, side) || *first.get_or_insert(r) != r {
                broken = broken.or(Some("the answer changed with the place of the buffers"));
            }
            t.see(broken.is_none(), || {
                let what = broken.unwrap_or("");
                format!(
                    "{}: {what}: {r:?} to {args:?}, lent {:?}, before {:?}, {side:?}",
                    f.name, self.contents, self.befores
                )
            });
        }
        first.expect("two calls")
    }
}

/// The formats of a call: that of the raws, and that of the answer, which is another one only where a raw is converted.
fn formats(f: &Function, x: &Args) -> [Format; 2] {
    let format = |width, frac| Format { signed: f.name.ends_with("_signed"), width, frac };
    let of_raws = format(x.width, x.frac);
    [of_raws, if f.shape == Shape::Convert { format(x.to_width, x.to_frac) } else { of_raws }]
}

/// The refusal of a format that is none.
fn fault(f: &Function, x: &Args) -> Option<u32> {
    let [one, other] = formats(f, x);
    let has_format = !matches!(f.shape, Shape::Filter | Shape::Headroom | Shape::Fitting);
    Format::refusal_of_both(one, other).filter(|_| has_format)
}

fn wrong_answer(f: &Function, x: &Args, r: &Outcome) -> Option<&'static str> {
    let raw = matches!(f.shape, Shape::Raw | Shape::Convert | Shape::Text | Shape::BytesIn);
    let fault = fault(f, x);
    match r.number {
        number if fault.is_some_and(|fault| fault != number) => Some("a format that is none must be refused first"),
        1 | 2 if fault.is_none() => Some("refused as no format"),
        3.. if !f.refusals.contains(&r.number) => Some("a refusal that it has not"),
        _ if r.flag > 1 => Some("a flag that is neither 0 nor 1"),
        0 if r.flag == 1 && (x.manner != OVERFLOWING || !raw) => Some("a flag outside the overflowing manner"),
        1.. if r.value != 0 || r.flag != 0 => Some("a refusal with a value or a flag"),
        42 if r.line == 0 || r.inner == 0 => Some("42 without its line or its inner answer"),
        0..=41 if r.line != 0 || r.inner != 0 => Some("a line or an inner answer without 42"),
        0 if raw && !formats(f, x)[1].holds(r.value) => Some("a raw outside the format"),
        _ => None,
    }
}
