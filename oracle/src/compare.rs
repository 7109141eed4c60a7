//! Puts one question to S, the model and, where it is linked, the port, and keeps count.

use crate::classes::{Class, Occasion};
use crate::common::tally;
use crate::format::{Answer, Format, MANNERS, Outcome, Reader};
use crate::model::{self, Exact};
use crate::original;
use crate::pages::{self, Stated};
use crate::port;
use crate::scan::scan;

#[derive(Default)]
pub struct Tally {
    pub texts: u64,
    pub answers: tally::Tally,
    pub in_class: [u64; Class::ALL.len()],
    /// For each class the shortest text met, to be held against docs/DIFFERENCES.md.
    pub smallest: [Option<(Vec<u8>, Reader, Format)>; Class::ALL.len()],
}

/// The four manners of the plain reader, or the literal reader if there is no radix.
fn readers(radix: Option<u32>) -> Vec<Reader> {
    match radix {
        Some(radix) => MANNERS.iter().map(|manner| Reader::Plain { radix, manner: *manner }).collect(),
        None => vec![Reader::Literal],
    }
}

impl Tally {
    /// The text in each format, in each manner if it is plain.
    pub fn text(&mut self, text: &[u8], radix: Option<u32>, formats: &[Format]) {
        self.counted(|tally| {
            let readers = readers(radix);
            for signed in [true, false] {
                let formats = formats.iter().filter(|format| format.signed == signed);
                tally.text_of_sign(text, &readers, formats, signed);
            }
        });
    }

    fn text_of_sign<'a>(
        &mut self,
        text: &[u8],
        readers: &[Reader],
        formats: impl Iterator<Item = &'a Format>,
        signed: bool,
    ) {
        let scanned = scan(text, readers[0], signed);
        let exact = scanned.as_ref().map(Exact::of).map_err(|number| *number);
        for format in formats {
            let rounded = exact.as_ref().map(|exact| exact.rounded(format.frac)).map_err(|number| *number);
            for reader in readers {
                let expected = match &rounded {
                    Ok(rounded) => model::settle(rounded, *format, *reader),
                    Err(number) => Answer::refused(*number),
                };
                let occasion = Occasion { text, reader: *reader, format: *format, written: scanned.as_ref().ok() };
                self.compare(&occasion, expected);
            }
            if scanned.is_err() {
                // a refusal of the text does not depend on the format: one format shows it
                break;
            }
        }
    }

    /// Questions whose answers stand on a page: the model, S and the port must give them.
    pub fn telling_texts(&mut self) {
        for stated in pages::telling_texts() {
            self.stated(&stated, |tally, occasion, right| tally.compare(occasion, right));
        }
    }

    /// The smallest text of each class: it belongs there, and S still gives what the page says that it gives.
    pub fn witnesses(&mut self) {
        let witnesses = pages::witnesses();
        for witness in &witnesses {
            self.stated(&witness.right, |tally, occasion, right| {
                tally.judge_s(occasion, witness.of_s);
                tally.judge_port(occasion, right);
                let class = witness.class;
                tally.answers.see(Class::of(occasion) == Some(class), || format!("a witness is not in {class:?}"));
            });
        }
        for class in Class::ALL {
            let told = witnesses.iter().any(|witness| witness.class == class);
            self.answers.see(told, || format!("no page tells of {class:?}"));
        }
    }

    /// The model gives what the page states; then the others are asked.
    fn stated(&mut self, stated: &Stated, others: impl FnOnce(&mut Tally, &Occasion, Answer)) {
        let Stated { text, reader, format, answer } = *stated;
        let scanned = scan(text, reader, format.signed);
        let occasion = Occasion { text, reader, format, written: scanned.as_ref().ok() };
        let right = model::answer(text, reader, format);
        self.counted(|tally| {
            tally.judge("the page", &occasion, Outcome::Answered(answer), right);
            others(tally, &occasion, right);
        });
    }

    /// A question that S has no answer to: the port against the model alone.
    pub fn port_only(&mut self, text: &[u8], reader: Reader, format: Format) {
        let occasion = Occasion { text, reader, format, written: None };
        self.counted(|tally| tally.judge_port(&occasion, model::answer(text, reader, format)));
    }

    /// S takes no zero and no negative number (the crate panics there, we refuse), and has no raw that the format does
    /// not hold; the port takes any.
    pub fn log10(&mut self, raw: i128, format: Format) {
        let right = model::log10(raw, format);
        let known_to_s = format.refusal().is_none() && raw > 0 && raw <= format.highest();
        let of_s = if known_to_s { original::log10(raw, format) } else { Outcome::Absent };
        self.counted(|tally| {
            tally.judge_log10("S", raw, format, of_s, right);
            tally.judge_log10("the port", raw, format, port::log10(raw, format), right);
        });
    }

    fn judge_log10(&mut self, side: &str, raw: i128, format: Format, found: Outcome, right: Answer) {
        self.settle(found, right, |tally| {
            let told = || format!("log10 of the raw {raw} {format:?}: {side} gives {found:?}, the model {right:?}");
            tally.answers.see(false, told);
        });
    }

    /// S and the port against the model; where S differs, one of the classes must explain it. None explains a panic.
    fn compare(&mut self, occasion: &Occasion, right: Answer) {
        let found = original::answer(occasion.text, occasion.reader, occasion.format);
        self.settle(found, right, |tally| match Class::of(occasion) {
            Some(class) if found != Outcome::Panicked => tally.explained(class, occasion),
            _ => tally.differs("S", occasion, found, right),
        });
        self.judge_port(occasion, right);
    }

    fn judge_s(&mut self, occasion: &Occasion, right: Answer) {
        self.judge("S", occasion, original::answer(occasion.text, occasion.reader, occasion.format), right);
    }

    fn judge_port(&mut self, occasion: &Occasion, right: Answer) {
        self.judge("the port", occasion, port::answer(occasion.text, occasion.reader, occasion.format), right);
    }

    fn judge(&mut self, side: &str, occasion: &Occasion, found: Outcome, right: Answer) {
        self.settle(found, right, |tally| tally.differs(side, occasion, found, right));
    }

    pub fn compared(&self) -> u64 {
        self.answers.passed + self.answers.failed
    }

    /// Counts the text, if anyone was there to be asked.
    fn counted(&mut self, ask: impl FnOnce(&mut Tally)) {
        let before = self.compared();
        ask(self);
        self.texts += u64::from(self.compared() > before);
    }

    /// Counts one answer, or leaves it to be counted where it is not the right one; a side that is absent has none.
    fn settle(&mut self, found: Outcome, right: Answer, otherwise: impl FnOnce(&mut Tally)) {
        match found {
            Outcome::Absent => {}
            Outcome::Answered(answer) if answer == right => self.answers.passed += 1,
            _ => otherwise(self),
        }
    }

    fn explained(&mut self, class: Class, occasion: &Occasion) {
        self.answers.passed += 1;
        self.in_class[class as usize] += 1;
        let smallest = &mut self.smallest[class as usize];
        if smallest.as_ref().is_none_or(|(text, ..)| occasion.text.len() < text.len()) {
            *smallest = Some((occasion.text.to_vec(), occasion.reader, occasion.format));
        }
    }

    fn differs(&mut self, side: &str, occasion: &Occasion, found: Outcome, right: Answer) {
        let Occasion { text, reader, format, .. } = occasion;
        self.answers.see(false, || {
            let text = String::from_utf8_lossy(text);
            format!("`{text}` {reader:?} {format:?}: {side} gives {found:?}, the model {right:?}")
        });
    }
}
