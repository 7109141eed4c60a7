//! Document 01, module 9: what a fitting file with lent buffers of given lengths must answer, and what the buffers then hold.

use crate::common::capi::File;
use crate::literal;

pub const LONGEST_FILE: usize = 16384;
pub const MOST: usize = 64;

/// Places of the three lists and of the taps.
#[derive(Clone, Copy, Debug)]
pub struct Places {
    pub lines: usize,
    pub raws: usize,
    pub answers: usize,
    pub taps: usize,
}

/// The four buffers, from their first place.
#[derive(Clone, Debug, PartialEq)]
pub struct Buffers {
    pub lines: Vec<u32>,
    pub raws: Vec<i16>,
    pub answers: Vec<u32>,
    pub taps: Vec<i16>,
}

struct Value {
    line: u32,
    read: Result<i16, u32>,
}

/// The value lines with their numbers, from 1.
fn value_lines(file: &[u8]) -> impl Iterator<Item = (u32, &[u8])> {
    let numbered = file.split(|&byte| byte == b'\n').zip(1..);
    numbered.filter(|(line, _)| !line.is_empty() && line[0] != b'#').map(|(line, number)| (number, line))
}

fn refused(number: u32) -> File {
    File { number, line: 0, inner: 0, values: 0 }
}

/// The refusals that come before the lines are read, in their order.
fn early(file: &[u8], places: Places) -> Option<u32> {
    if file.len() > LONGEST_FILE {
        return Some(4);
    }
    let count = value_lines(file).count();
    let equal = places.lines == places.raws && places.raws == places.answers;
    match count {
        _ if count > MOST => Some(41),
        _ if !equal || places.lines < count || places.taps < count => Some(5),
        0 => Some(40),
        _ => None,
    }
}

fn list(values: &[Value], buffers: &mut Buffers) {
    for (k, value) in values.iter().enumerate() {
        buffers.lines[k] = value.line;
        buffers.raws[k] = value.read.unwrap_or(0);
        buffers.answers[k] = value.read.err().unwrap_or(0);
    }
}

/// The answer; the buffers go from what they held before to what they must hold after.
pub fn fitting(file: &[u8], places: Places, buffers: &mut Buffers) -> File {
    if let Some(number) = early(file, places) {
        return refused(number);
    }
    let values: Vec<Value> = value_lines(file).map(|(line, text)| Value { line, read: literal::read(text) }).collect();
    list(&values, buffers);
    let first = values.iter().find_map(|v| v.read.err().map(|inner| (v.line, inner)));
    if let Some((line, inner)) = first {
        return File { number: 42, line, inner, values: 0 };
    }
    for (tap, value) in buffers.taps.iter_mut().zip(&values) {
        *tap = value.read.unwrap_or(0);
    }
    File { number: 0, line: 0, inner: 0, values: values.len() as u32 }
}
