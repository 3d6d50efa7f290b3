//! `desk fix`: the sheet that was meant, where mail or an editor spoilt it. Only what no sheet can hold is changed, and no sheet is written that the
//! core does not accept.

use crate::commands::{saved_state, Desk, End, Stop};
use crate::input::{self, is_saved};
use crate::problem::Problem;
use crate::scripts::is_right;
use crate::spoilt::{utf16, BYTE_ORDER_MARK, QUOTED_EQUALS};
use crate::words::{called, listed, plural};
use std::path::Path;

/// A text with what was changed in it, in words.
#[derive(Debug)]
pub struct Mended {
    pub text: Vec<u8>,
    pub changes: Vec<String>,
}

/// A change: the new text, and words for it; none where there is nothing to change.
type Change = fn(&[u8]) -> Option<(Vec<u8>, String)>;

const CHANGES: [Change; 8] = [
    from_utf16,
    byte_order_mark,
    line_ends,
    spaces,
    mail_marks,
    quoted_printable,
    blank_lines,
    last_line,
];

/// The text without what mail and editors put in.
pub fn mended(text: &[u8]) -> Mended {
    let mut mended = Mended {
        text: text.to_vec(),
        changes: Vec::new(),
    };
    for change in CHANGES {
        if let Some((text, words)) = change(&mended.text) {
            mended.text = text;
            mended.changes.push(words);
        }
    }
    mended
}

impl Desk {
    pub fn fix(&self, path: &Path, out: Option<&Path>) -> Result<String, Stop> {
        let bytes = input::read(path)?;
        let fixed = self.fixed(path, &bytes)?;
        let file = input::name(path);
        let words = match fixed.changes.is_empty() {
            true => format!("{file}: it is accepted as it is; nothing is changed"),
            false => format!("{file}: {}", listed(fixed.changes.into_iter())),
        };
        let text = String::from_utf8_lossy(&fixed.text).into_owned();
        match input::put(out.unwrap_or(Path::new("-")), text)? {
            None => Ok(words + "\n"),
            Some(printed) => Err(Stop {
                printed,
                problem: Some(Problem::of(words)),
                end: End::Yes,
            }),
        }
    }

    /// The text that was meant, if the core accepts it; else what is left wrong.
    pub fn fixed(&self, path: &Path, bytes: &[u8]) -> Result<Mended, Stop> {
        if is_right(bytes) {
            return Ok(Mended {
                text: bytes.to_vec(),
                changes: Vec::new(),
            });
        }
        if is_saved(bytes) {
            return Err(saved_state(path, "sheet"));
        }
        let mended = mended(bytes);
        self.right(path, &mended.text).map_err(|mut stop| {
            if let Some(problem) = &mut stop.problem {
                let called = called();
                problem.words = format!("{}, and {called} fix cannot mend that", problem.words);
            }
            stop
        })?;
        Ok(mended)
    }
}

fn lines(text: &[u8]) -> impl Iterator<Item = &[u8]> {
    text.split_inclusive(|byte| *byte == b'\n')
}

/// Every line changed in a way, and how many were.
fn each(text: &[u8], change: impl Fn(&[u8]) -> Vec<u8>) -> Option<(Vec<u8>, usize)> {
    let changed: Vec<Vec<u8>> = lines(text).map(change).collect();
    let count = lines(text)
        .zip(&changed)
        .filter(|(old, new)| old != new)
        .count();
    (count > 0).then(|| (changed.concat(), count))
}

fn from_utf16(text: &[u8]) -> Option<(Vec<u8>, String)> {
    let text = utf16(text)?;
    Some((text.into_bytes(), "UTF-16 turned into ASCII".to_string()))
}

fn byte_order_mark(text: &[u8]) -> Option<(Vec<u8>, String)> {
    let rest = text.strip_prefix(BYTE_ORDER_MARK)?;
    Some((
        rest.to_vec(),
        "the byte order mark taken away in front".to_string(),
    ))
}

/// CR LF, or CR alone.
fn line_ends(text: &[u8]) -> Option<(Vec<u8>, String)> {
    let count = text.iter().filter(|byte| **byte == b'\r').count();
    let mut changed = Vec::new();
    let mut end = "CR LF";
    for (index, byte) in text.iter().enumerate() {
        match (byte, text.get(index + 1)) {
            (b'\r', Some(b'\n')) => {}
            (b'\r', _) => {
                end = "CR";
                changed.push(b'\n');
            }
            _ => changed.push(*byte),
        }
    }
    let lines = plural(count, "line");
    (count > 0).then(|| {
        (
            changed,
            format!("{end} at the end of {lines} turned into LF"),
        )
    })
}

fn mail_marks(text: &[u8]) -> Option<(Vec<u8>, String)> {
    let bare = |line: &[u8]| {
        let mut rest = line;
        while let Some(b'>' | b' ') = rest.first() {
            rest = &rest[1..];
        }
        match line.starts_with(b">") {
            true => rest.to_vec(),
            false => line.to_vec(),
        }
    };
    let (text, count) = each(text, bare)?;
    let words = format!("> taken away in front of {}", plural(count, "line"));
    Some((text, words))
}

/// `=3D` is `=`, and `=` at the end of a line joins it to the next. No sheet has either.
fn quoted_printable(text: &[u8]) -> Option<(Vec<u8>, String)> {
    let mut changed = Vec::new();
    let (mut at, mut count) = (0, 0);
    while at < text.len() {
        let rest = &text[at..];
        let length = if rest.starts_with(QUOTED_EQUALS) {
            changed.push(b'=');
            count += 1;
            QUOTED_EQUALS.len()
        } else if rest.starts_with(b"=\n") {
            2
        } else {
            changed.push(rest[0]);
            1
        };
        at += length;
    }
    (count > 0).then(|| (changed, format!("=3D turned into = {}", times(count))))
}

fn times(count: usize) -> String {
    match count {
        1 => "once".to_string(),
        _ => format!("{count} times"),
    }
}

/// Spaces and tabs at both ends of lines.
fn spaces(text: &[u8]) -> Option<(Vec<u8>, String)> {
    let bare = |line: &[u8]| {
        let end = if line.ends_with(b"\n") { "\n" } else { "" };
        [line.trim_ascii(), end.as_bytes()].concat()
    };
    let (text, count) = each(text, bare)?;
    let words = format!("spaces taken away at the ends of {}", plural(count, "line"));
    Some((text, words))
}

fn blank_lines(text: &[u8]) -> Option<(Vec<u8>, String)> {
    let bare = |line: &[u8]| match line {
        b"\n" => Vec::new(),
        _ => line.to_vec(),
    };
    let (text, count) = each(text, bare)?;
    let words = format!("{} taken away", plural(count, "blank line"));
    Some((text, words))
}

fn last_line(text: &[u8]) -> Option<(Vec<u8>, String)> {
    if text.is_empty() || text.ends_with(b"\n") {
        return None;
    }
    let words = "LF put at the end of the last line".to_string();
    Some(([text, b"\n"].concat(), words))
}
