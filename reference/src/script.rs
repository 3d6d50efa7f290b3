//! The program `script` (P1 to P15): a sheet and requests come in as lines, a
//! line of answer goes out for each.

use crate::model::Model;
use crate::refusal::{Refusal, FORM, OUT_OF_RANGE};
use crate::requests::{Got, Request};
use crate::sheet;
use crate::state::State;
use crate::table::Table;

/// The longest input, in bytes (P1).
pub const MAX_INPUT: usize = 32_768;

/// The most arguments of a `do=call` line (P7): of the line's form, whatever a signature may have.
pub const MAX_CALL_ARGUMENTS: usize = 4;

/// An input as it is read: a table, requests, and whether a malformed line
/// ended them.
pub struct Script {
    pub table: Table,
    pub requests: Vec<Request>,
    pub malformed: bool,
}

/// Reads an input, refused where it is too long or its sheet is (P1 to P4).
pub fn read(input: &[u8]) -> Result<Script, Refusal> {
    if input.len() > MAX_INPUT {
        return Err(OUT_OF_RANGE);
    }
    let (text, mut rest) = split(input);
    let mut script = Script {
        table: sheet::read(text).map_err(|(number, _)| number)?,
        requests: Vec::new(),
        malformed: false,
    };
    while !rest.is_empty() && !script.malformed {
        match next_request(rest) {
            Some((request, behind)) => {
                script.requests.push(request);
                rest = behind;
            }
            None => script.malformed = true,
        }
    }
    Ok(script)
}

/// A run of the program: what it printed, the requests in order with their
/// results, and the model in the end.
pub struct Run {
    pub output: Vec<u8>,
    pub requests: Vec<Request>,
    pub results: Vec<Result<Got, Refusal>>,
    /// `None` where the input was refused.
    pub model: Option<Model>,
}

/// What the program prints for an input.
pub fn run(input: &[u8]) -> Vec<u8> {
    run_whole(input).output
}

/// A run of the program on an input.
pub fn run_whole(input: &[u8]) -> Run {
    let script = match read(input) {
        Ok(script) => script,
        Err(number) => return refused(number),
    };
    let mut model = Model::new(State::of_sheet(script.table));
    let results = script.requests.iter().map(|one| model.request(one));
    let results: Vec<Result<Got, Refusal>> = results.collect();
    Run {
        output: printed(&results, script.malformed),
        requests: script.requests,
        results,
        model: Some(model),
    }
}

/// The run of an input that is refused as a whole (P1, P3).
fn refused(number: Refusal) -> Run {
    Run {
        output: printed(&[Err(number)], false),
        requests: Vec::new(),
        results: Vec::new(),
        model: None,
    }
}

/// A line for each result, and one for a malformed line (P11 to P13, P15).
pub fn printed(results: &[Result<Got, Refusal>], malformed: bool) -> Vec<u8> {
    let last = malformed.then_some(Err(FORM));
    let lines = results
        .iter()
        .copied()
        .chain(last)
        .map(|result| match result {
            Ok(got) => got_line(got),
            Err(number) => format!("no={number}"),
        });
    lines.flat_map(|line| (line + "\n").into_bytes()).collect()
}

/// The line of an accepted request (P12).
pub fn got_line(got: Got) -> String {
    match got {
        Got::Cell { cell, place } => format!("got={cell} {place}"),
        Got::Call { call, adapters } => format!("got={call} {adapters}"),
        Got::Number(number) => format!("got={number}"),
        Got::Nothing => "got=-".to_string(),
    }
}

/// The sheet and what is behind it (P2).
pub fn split(input: &[u8]) -> (&[u8], &[u8]) {
    let mut at = 0;
    while let Some(length) = input[at..].iter().position(|byte| *byte == b'\n') {
        let end = at + length + 1;
        if &input[at..end] == b"end=sheet\n" {
            return input.split_at(end);
        }
        at = end;
    }
    (input, &[])
}

/// The request of the next line and what is behind it; `None` where it is malformed (P11).
fn next_request(rest: &[u8]) -> Option<(Request, &[u8])> {
    let length = rest.iter().position(|byte| *byte == b'\n')?;
    let request = parse(&rest[..length])?;
    Some((request, &rest[length + 1..]))
}

/// A line without its LF as a request (P5 to P11).
pub fn parse(line: &[u8]) -> Option<Request> {
    let text = std::str::from_utf8(line).ok()?.strip_prefix("do=")?;
    let mut words = text.split(' ');
    let name = words.next()?;
    let words: Vec<&str> = words.collect();
    Some(match (name, words.as_slice()) {
        ("new", [subject, class, type_]) => Request::New {
            subject: operand(subject)?,
            class: operand(class)?,
            type_: operand(type_)?,
        },
        ("move", [subject, cell, receiver, type_]) => Request::Move {
            subject: operand(subject)?,
            cell: operand(cell)?,
            receiver: operand(receiver)?,
            type_: operand(type_)?,
        },
        ("call", [subject, cell, method, arguments @ ..])
            if arguments.len() <= MAX_CALL_ARGUMENTS =>
        {
            let arguments = arguments.iter().map(|word| operand(word));
            Request::Call {
                subject: operand(subject)?,
                cell: operand(cell)?,
                method: operand(method)?,
                arguments: arguments.collect::<Option<_>>()?,
            }
        }
        ("answer", [subject, call, "-"]) => Request::Answer {
            subject: operand(subject)?,
            call: operand(call)?,
            value: None,
        },
        ("answer", [subject, call, value]) => Request::Answer {
            subject: operand(subject)?,
            call: operand(call)?,
            value: Some(operand(value)?),
        },
        _ => return None,
    })
}

/// An operand (P9).
fn operand(word: &str) -> Option<i64> {
    let digits = word.strip_prefix('-').unwrap_or(word);
    let leading_zero = digits.starts_with('0') && word != "0";
    if digits.is_empty() || leading_zero || !digits.bytes().all(|byte| byte.is_ascii_digit()) {
        return None;
    }
    word.parse().ok()
}

/// The line of a request, with its LF.
pub fn line(request: &Request) -> String {
    match request {
        Request::New {
            subject,
            class,
            type_,
        } => format!("do=new {subject} {class} {type_}\n"),
        Request::Move {
            subject,
            cell,
            receiver,
            type_,
        } => format!("do=move {subject} {cell} {receiver} {type_}\n"),
        Request::Call {
            subject,
            cell,
            method,
            arguments,
        } => {
            let arguments: String = arguments.iter().map(|one| format!(" {one}")).collect();
            format!("do=call {subject} {cell} {method}{arguments}\n")
        }
        Request::Answer {
            subject,
            call,
            value,
        } => {
            let value = value.map_or("-".to_string(), |value| value.to_string());
            format!("do=answer {subject} {call} {value}\n")
        }
    }
}
