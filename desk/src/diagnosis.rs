//! A refused sheet in words. Number and offset are the core's; the line there is looked at once more to say what is wrong with it.

use crate::due::{Due, Walk};
use crate::line::{fault, Fault};
use crate::names::{Kind, Names};
use crate::paint::{Paint, Tone};
use crate::problem::{At, Problem};
use crate::reader::{Flaw, NO_LF};
use crate::shown::marked;
use crate::spoilt::spoilt;
use crate::words::{called, under};
use pilgonca::SheetRefused;
use std::ops::Range;

/// A line at fault.
#[derive(Debug)]
pub struct Diagnosis<'a> {
    /// Counted from 1.
    pub line_number: usize,
    /// Without its LF.
    pub line: &'a [u8],
    pub flaw: Flaw,
    pub right: String,
}

/// The line at fault and what is wrong with it, for a number and an offset that the reader gave.
/// None would mean that this does not understand the sheet as the reader does; tests hold the two together.
pub fn diagnose<'a>(
    text: &'a [u8],
    number: u8,
    offset: usize,
    names: &Names,
) -> Option<Diagnosis<'a>> {
    let (before, rest) = text.split_at_checked(offset)?;
    let (walk, lines) = walked(before);
    let end = rest.iter().position(|byte| *byte == b'\n');
    let line = &rest[..end.unwrap_or(rest.len())];
    if number == 3 && walk.due == Due::End && line == b"end=sheet" {
        return own_in_signature(text, names);
    }
    let fault = match (spoilt(text, offset, line), walk.due, end) {
        (Some(flaw), ..) if number == 1 => Fault { number, flaw },
        (_, Due::Nothing, _) => form(0..line.len(), behind(line)),
        (_, _, None) => form(line.len()..line.len(), cut_off(walk.due, line, names)),
        (_, _, Some(_)) => fault(&walk, line, names)?,
    };
    let behind = match fault.flaw.wrong == NO_LF {
        true => ", and LF behind it",
        false => "",
    };
    let diagnosis = Diagnosis {
        line_number: lines + 1,
        line,
        flaw: fault.flaw,
        right: walk.due.right(&walk) + behind,
    };
    (fault.number == number).then_some(diagnosis)
}

fn form(mark: Range<usize>, wrong: String) -> Fault {
    Fault {
        number: 1,
        flaw: Flaw { mark, wrong },
    }
}

/// No LF is left where a line is due.
fn cut_off(due: Due, line: &[u8], names: &Names) -> String {
    match line.is_empty() {
        true => format!("the file ends here, where the {} is due", due.title(names)),
        false => NO_LF.to_string(),
    }
}

/// Where the reader stands behind lines that are right, and how many they are.
fn walked(before: &[u8]) -> (Walk, usize) {
    let mut walk = Walk::start();
    let mut count = 0;
    for line in before.split_inclusive(|byte| *byte == b'\n') {
        walk.pass(line.strip_suffix(b"\n").unwrap_or(line));
        count += 1;
    }
    (walk, count)
}

/// Something stands behind the last line.
fn behind(line: &[u8]) -> String {
    match line.starts_with(b"do=") {
        true => {
            let called = called();
            format!("requests stand behind the sheet: this is a script, for {called} run and {called} audit")
        }
        false => "something stands behind the end=sheet line".to_string(),
    }
}

/// The first line whose signature names an own type. The reader notices it at the end, where all types are known (S13).
fn own_in_signature<'a>(text: &'a [u8], names: &Names) -> Option<Diagnosis<'a>> {
    let own = own_types(text);
    let mut walk = Walk::start();
    for (index, line) in text.split(|byte| *byte == b'\n').enumerate() {
        if let (Due::Method(..), Some((mark, number))) = (walk.due, named(line, &own)) {
            let words = names.words(Kind::Type, number as i64);
            let wrong = format!("the signature names {words}, which has own=yes");
            return Some(Diagnosis {
                line_number: index + 1,
                line,
                flaw: Flaw { mark, wrong },
                right: "a type with own=no here, or own=no in the type that is named".to_string(),
            });
        }
        walk.pass(line);
    }
    None
}

/// The types of a sheet that have own.
fn own_types(text: &[u8]) -> Vec<usize> {
    let mut walk = Walk::start();
    let mut own = Vec::new();
    for line in text.split(|byte| *byte == b'\n') {
        match walk.due {
            Due::Own(number) if line == b"own=yes" => own.push(number),
            _ => {}
        }
        walk.pass(line);
    }
    own
}

/// The first number in a line that is one of those.
fn named(line: &[u8], numbers: &[usize]) -> Option<(Range<usize>, usize)> {
    let mut at = 0;
    while at < line.len() {
        let length = line[at..]
            .iter()
            .take_while(|byte| byte.is_ascii_digit())
            .count();
        let digits = std::str::from_utf8(&line[at..at + length]).ok()?;
        if let Some(number) = digits
            .parse()
            .ok()
            .filter(|number| numbers.contains(number))
        {
            return Some((at..at + length, number));
        }
        at += length.max(1);
    }
    None
}

/// A refused sheet as it is told.
pub fn told(
    file: &str,
    text: &[u8],
    refused: &SheetRefused,
    names: &Names,
    paint: Paint,
) -> Problem {
    let number = refused.refusal.number();
    let how = paint.of(Tone::Bad, &format!("refused with {number}"));
    let words = format!("the sheet is {how} at byte {}", refused.offset);
    match diagnose(text, number, refused.offset, names) {
        Some(found) => Problem::at(words, found.at(file, Some(number), paint)),
        None => Problem::of(format!("{file}: {words}: {}", refused.refusal)),
    }
}

impl Diagnosis<'_> {
    /// The place in a file, with the line, a mark under what is wrong, and the words for it.
    pub fn at(self, file: &str, refused: Option<u8>, paint: Paint) -> At {
        let Flaw { mark, wrong } = self.flaw;
        let (text, below) = marked(self.line, &mark);
        let place = format!("line {}", self.line_number);
        let margin = " ".repeat(place.len());
        let text = format!("  {place} | {text}");
        let block = format!(
            "\n{}\n  {margin} | {}\n\n{}{}",
            text.trim_end(),
            paint.of(Tone::Bad, &below),
            under("  wrong: ", &wrong),
            under("  right: ", &self.right)
        );
        At {
            file: file.to_string(),
            line: self.line_number,
            column: mark.start + 1,
            refused,
            wrong,
            right: self.right,
            block,
        }
    }
}
