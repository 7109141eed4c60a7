//! Reads the tables of docs/GRAMMAR.md and docs/DIFFERENCES.md, so that the pages can be put to the test
//! and cannot drift from what they describe.

use crate::classes::Class;
use crate::format::{Answer, Format, MANNERS, Reader, STRICT};

const GRAMMAR: &str = include_str!("../../docs/GRAMMAR.md");
const DIFFERENCES: &str = include_str!("../../docs/DIFFERENCES.md");

/// A question and the answer that a page gives to it.
pub struct Stated {
    pub text: &'static [u8],
    pub reader: Reader,
    pub format: Format,
    pub answer: Answer,
}

/// A smallest text of a class of differences; S's answer beside the right one.
pub struct Witness {
    pub class: Class,
    pub right: Stated,
    pub of_s: Answer,
}

/// The table of telling texts.
pub fn telling_texts() -> Vec<Stated> {
    rows(GRAMMAR).filter_map(|cells| telling_text(&cells)).collect()
}

/// The table of smallest texts.
pub fn witnesses() -> Vec<Witness> {
    rows(DIFFERENCES).filter_map(|cells| witness(&cells)).collect()
}

fn rows(page: &'static str) -> impl Iterator<Item = Vec<&'static str>> {
    page.lines()
        .filter_map(|line| Some(line.strip_prefix("| ")?.strip_suffix(" |")?.split('|').map(str::trim).collect()))
}

fn telling_text(cells: &[&'static str]) -> Option<Stated> {
    let [text, reader, format, manner, number, value, _] = *cells else {
        return None;
    };
    let reader = if reader == "literal" { Reader::Literal } else { plain(reader, manner_named(manner)?)? };
    let answer = Answer { number: number.parse().ok()?, flag: false, value: value.parse().ok()? };
    Some(Stated { text: text_in(text), reader, format: format_named(format)?, answer })
}

fn witness(cells: &[&'static str]) -> Option<Witness> {
    let [class, text, radix, format, _, right, of_s] = *cells else {
        return None;
    };
    let class = Class::ALL.into_iter().find(|known| format!("{known:?}") == class)?;
    let (text, reader, format) = (text_in(text), plain(radix, STRICT)?, format_named(format)?);
    Some(Witness { class, right: Stated { text, reader, format, answer: answer_in(right)? }, of_s: answer_in(of_s)? })
}

fn text_in(cell: &'static str) -> &'static [u8] {
    if cell == "(empty)" { b"" } else { cell.trim_matches('`').as_bytes() }
}

fn plain(radix: &str, manner: u32) -> Option<Reader> {
    Some(Reader::Plain { radix: radix.parse().ok()?, manner })
}

fn manner_named(name: &str) -> Option<u32> {
    let place = ["strict", "saturating", "wrapping", "overflowing"].iter().position(|known| *known == name)?;
    Some(MANNERS[place])
}

/// A raw, or `refused, NUMBER`.
fn answer_in(cell: &str) -> Option<Answer> {
    match cell.strip_prefix("refused, ") {
        Some(number) => Some(Answer::refused(number.parse().ok()?)),
        None => Some(Answer::done(cell.parse().ok()?, false)),
    }
}

/// Document 01's names: I1F15 is signed, W = 16, F = 15.
fn format_named(name: &str) -> Option<Format> {
    let signed = name.starts_with('I');
    let (whole, frac) = name.get(1..)?.split_once('F')?;
    let frac: u32 = frac.parse().ok()?;
    Some(Format { signed, width: whole.parse::<u32>().ok()? + frac, frac })
}
