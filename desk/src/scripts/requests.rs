//! The requests of a script, read as the core reads them (P2, P5 to P11); `follow` holds what came of them against the core's own run.

use crate::reader::{Flaw, Reader, LEADING_ZERO};

/// A request with its operands.
#[derive(Clone, PartialEq, Eq, Debug)]
pub enum Request {
    New {
        subject: i64,
        class: i64,
        to: i64,
    },
    Move {
        subject: i64,
        cell: i64,
        receiver: i64,
        to: i64,
    },
    Call {
        subject: i64,
        cell: i64,
        method: i64,
        arguments: Vec<i64>,
    },
    Answer {
        subject: i64,
        call: i64,
        value: Option<i64>,
    },
}

/// The forms of a request, by its word.
const FORMS: [(&str, &str); 4] = [
    ("do=new", "do=new SUBJECT CLASS TYPE"),
    ("do=move", "do=move SUBJECT CELL RECEIVER TYPE"),
    (
        "do=call",
        "do=call SUBJECT CELL METHOD, and up to four arguments",
    ),
    (
        "do=answer",
        "do=answer SUBJECT CALL VALUE, or - for the value",
    ),
];

/// What would be right in place of a line.
pub fn right(line: &[u8]) -> String {
    let mut forms = FORMS.iter();
    match forms.find(|(word, _)| line.starts_with(word.as_bytes())) {
        Some((_, form)) => format!("{form}, with one space in front of each"),
        None => FORMS.map(|(_, form)| form).join("; or "),
    }
}

/// The sheet of a script, and what stands behind it (P2).
pub fn split(input: &[u8]) -> (&[u8], &[u8]) {
    let mut end = 0;
    for line in input.split_inclusive(|byte| *byte == b'\n') {
        end += line.len();
        if line == b"end=sheet\n" {
            return input.split_at(end);
        }
    }
    (input, &[])
}

/// A line without its LF as a request, or what keeps it from being one.
pub fn read(line: &[u8]) -> Result<Request, Flaw> {
    let mut reader = Reader::new(line);
    if line.is_empty() {
        return Err(reader.flaw(0, "the line is empty, where a request is due"));
    }
    if !reader.take("do=") {
        return Err(reader.flaw(line.len(), "this is no request: it does not begin with do="));
    }
    let length = reader.count(|byte| byte != b' ' && byte != b'\r');
    let word = &reader.rest()[..length];
    let request = match word {
        b"new" => new,
        b"move" => moved,
        b"call" => call,
        b"answer" => answer,
        _ => return Err(reader.flaw(length, "there is no such request")),
    };
    reader.skip(length);
    let request = request(&mut reader)?;
    reader.end("the last operand")?;
    Ok(request)
}

fn new(reader: &mut Reader) -> Result<Request, Flaw> {
    let [subject, class, to] = operands(reader, ["subject", "class", "type"])?;
    Ok(Request::New { subject, class, to })
}

fn moved(reader: &mut Reader) -> Result<Request, Flaw> {
    let what = ["subject", "cell", "receiver", "type"];
    let [subject, cell, receiver, to] = operands(reader, what)?;
    Ok(Request::Move {
        subject,
        cell,
        receiver,
        to,
    })
}

fn call(reader: &mut Reader) -> Result<Request, Flaw> {
    let [subject, cell, method] = operands(reader, ["subject", "cell", "method"])?;
    let mut arguments = Vec::new();
    while arguments.len() < 4 && reader.rest().starts_with(b" ") {
        arguments.push(operand(reader, "argument")?);
    }
    Ok(Request::Call {
        subject,
        cell,
        method,
        arguments,
    })
}

fn answer(reader: &mut Reader) -> Result<Request, Flaw> {
    let [subject, call] = operands(reader, ["subject", "call"])?;
    let nothing = reader.rest() == b" -" && reader.take(" -");
    let value = match nothing {
        true => None,
        false => Some(operand(reader, "value")?),
    };
    Ok(Request::Answer {
        subject,
        call,
        value,
    })
}

fn operands<const COUNT: usize>(
    reader: &mut Reader,
    what: [&str; COUNT],
) -> Result<[i64; COUNT], Flaw> {
    let mut found = [0; COUNT];
    for (slot, what) in found.iter_mut().zip(what) {
        *slot = operand(reader, what)?;
    }
    Ok(found)
}

/// One space and a number (P9, P10).
fn operand(reader: &mut Reader, what: &str) -> Result<i64, Flaw> {
    if reader.rest().is_empty() {
        return Err(reader.flaw(0, format!("the line ends where its {what} is due")));
    }
    if !reader.take(" ") {
        return Err(reader.flaw(1, format!("no space stands here, in front of the {what}")));
    }
    let length = reader.count(|byte| byte.is_ascii_digit() || byte == b'-');
    let number = whole(&reader.rest()[..length]).map_err(|wrong| {
        let wrong = wrong.unwrap_or_else(|| format!("this is no number, and the {what} is due"));
        reader.flaw(length.max(1), wrong)
    })?;
    reader.skip(length);
    Ok(number)
}

/// A signed decimal, or what is wrong with it; nothing where it is no number at all.
fn whole(word: &[u8]) -> Result<i64, Option<String>> {
    let digits = word.strip_prefix(b"-").unwrap_or(word);
    if digits.is_empty() || !digits.iter().all(u8::is_ascii_digit) {
        return Err(None);
    }
    let wrong = match digits {
        [b'0'] if word != digits => "a sign stands in front of 0",
        [b'0', _, ..] => LEADING_ZERO,
        _ => "this number does not fit 64 bits",
    };
    let text = std::str::from_utf8(word).ok();
    let number = text.and_then(|text| text.parse().ok());
    let plain = digits == b"0" && word == digits || digits[0] != b'0';
    number.filter(|_| plain).ok_or(Some(wrong.to_string()))
}
