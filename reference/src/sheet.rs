//! The text of a sheet (S20 to S27), its reader (S) and its writer (W).

use crate::refusal::{Refusal, FORM, NOT_BELOW, OUT_OF_RANGE, SHORT_BUFFER};
use crate::table::*;

/// The number, and the offset of the line that is refused (S31).
pub type SheetRefusal = (Refusal, usize);

/// Reads a whole sheet: line after line in the order of S22, and own in
/// signatures last (S6, S13).
pub fn read(input: &[u8]) -> Result<Table, SheetRefusal> {
    let mut lines = Lines { input, at: 0 };
    lines.next(guide)?;
    let subjects = lines.next(|line| ranged(line, "subjects=", 1, MAX_SUBJECTS))?;
    let methods = lines.next(|line| ranged(line, "methods=", 1, MAX_METHODS))?;
    let categories = lines.next(|line| ranged(line, "cats=", 0, MAX_CATEGORIES))?;
    let mut broader = Vec::new();
    for category in 1..=categories {
        broader.push(lines.next(|line| under(line, category, categories))?);
    }
    let sheet_types = lines.next(|line| ranged(line, "types=", 1, MAX_SHEET_TYPES))?;
    let mut types = Vec::new();
    for number in 0..sheet_types {
        types.push(read_type(
            &mut lines,
            number,
            methods,
            categories,
            sheet_types,
        )?);
    }
    let last = lines.at;
    lines.next(|line| exactly(line, "end=sheet"))?;
    // S10
    if lines.at < input.len() {
        return Err((FORM, lines.at));
    }
    let table = Table {
        subjects,
        methods,
        broader,
        sheet_types,
        types,
        keys: Vec::new(),
    };
    if table.own_in_signature() {
        return Err((NOT_BELOW, last));
    }
    Ok(table)
}

/// The block of a type (S25).
fn read_type(
    lines: &mut Lines,
    number: usize,
    methods: usize,
    categories: usize,
    sheet_types: usize,
) -> Result<Type, SheetRefusal> {
    // S30
    lines.next(|line| ranged(line, "type=", number, number))?;
    let representation = lines.next(representation)?;
    let category = lines.next(|line| ranged(line, "cat=", 0, categories))?;
    if representation != Representation::Ref {
        return Ok(Type::number(representation, category));
    }
    let own = lines.next(own)?;
    let mut states = Vec::new();
    for _ in 0..methods {
        states.push(lines.next(|line| method_state(line, sheet_types))?);
    }
    Ok(Type {
        representation,
        category,
        own,
        methods: states,
    })
}

/// The lines of the input (S20), and where the next one begins.
struct Lines<'a> {
    input: &'a [u8],
    at: usize,
}

impl<'a> Lines<'a> {
    /// Reads the next line by `reader`, refused at its offset. Where no LF is
    /// left it is 1 (S8, S9).
    fn next<T>(
        &mut self,
        reader: impl FnOnce(&'a [u8]) -> Result<T, Refusal>,
    ) -> Result<T, SheetRefusal> {
        let offset = self.at;
        let rest = &self.input[offset..];
        let length = rest
            .iter()
            .position(|byte| *byte == b'\n')
            .ok_or((FORM, offset))?;
        let value = reader(&rest[..length]).map_err(|number| (number, offset))?;
        self.at = offset + length + 1;
        Ok(value)
    }
}

/// What is behind a prefix that is due (S28).
fn after<'a>(line: &'a [u8], prefix: &str) -> Result<&'a [u8], Refusal> {
    line.strip_prefix(prefix.as_bytes()).ok_or(FORM)
}

/// A line of one word.
fn exactly(line: &[u8], text: &str) -> Result<(), Refusal> {
    if line == text.as_bytes() {
        Ok(())
    } else {
        Err(FORM)
    }
}

/// A decimal (S3, S21). One too large for a word stays at the largest, which
/// is outside every range (S2).
fn decimal(text: &[u8]) -> Result<usize, Refusal> {
    let leading_zero = text.len() > 1 && text[0] == b'0';
    if text.is_empty() || leading_zero || !text.iter().all(u8::is_ascii_digit) {
        return Err(FORM);
    }
    Ok(text.iter().fold(0usize, |value, digit| {
        value
            .saturating_mul(10)
            .saturating_add(usize::from(digit - b'0'))
    }))
}

/// A line of prefix and number (S29).
fn ranged(line: &[u8], prefix: &str, lowest: usize, highest: usize) -> Result<usize, Refusal> {
    let number = decimal(after(line, prefix)?)?;
    if (lowest..=highest).contains(&number) {
        Ok(number)
    } else {
        Err(OUT_OF_RANGE)
    }
}

/// S1.
fn guide(line: &[u8]) -> Result<usize, Refusal> {
    ranged(line, "guide=", 1, 1)
}

/// The line of a category (S11, S12, S24): over all of it 1 before 2 before 3 (S5).
fn under(line: &[u8], category: usize, categories: usize) -> Result<Broader, Refusal> {
    let mut numbers = Vec::new();
    for text in after(line, "under=")?.split(|byte| *byte == b',') {
        numbers.push(decimal(text)?);
    }
    if numbers.len() > 2 {
        return Err(FORM);
    }
    if numbers.iter().any(|number| *number > categories) {
        return Err(OUT_OF_RANGE);
    }
    if numbers.iter().any(|number| *number >= category) {
        return Err(NOT_BELOW);
    }
    Ok(Broader {
        first: numbers[0],
        second: numbers.get(1).copied(),
    })
}

fn representation(line: &[u8]) -> Result<Representation, Refusal> {
    match after(line, "rep=")? {
        b"ref" => Ok(Representation::Ref),
        b"w32" => Ok(Representation::W32),
        b"w64" => Ok(Representation::W64),
        _ => Err(FORM),
    }
}

fn own(line: &[u8]) -> Result<bool, Refusal> {
    match after(line, "own=")? {
        b"yes" => Ok(true),
        b"no" => Ok(false),
        _ => Err(FORM),
    }
}

/// The line of a method (S26).
fn method_state(line: &[u8], sheet_types: usize) -> Result<MethodState, Refusal> {
    let text = after(line, "m=")?;
    if text == b"denied" {
        return Ok(MethodState::Denied);
    }
    if text == b"unavail" {
        return Ok(MethodState::Unavail);
    }
    if let Some(rest) = text.strip_prefix(b"optional") {
        return Ok(MethodState::Optional(signature(rest, sheet_types)?));
    }
    let rest = text.strip_prefix(b"avail").ok_or(FORM)?;
    Ok(MethodState::Avail(signature(rest, sheet_types)?))
}

/// A signature: its form first (S5, S11), then whether its types are there (S27).
fn signature(text: &[u8], sheet_types: usize) -> Result<Signature, Refusal> {
    let inner = text.strip_prefix(b"(").ok_or(FORM)?;
    let close = inner.iter().position(|byte| *byte == b')').ok_or(FORM)?;
    let (listed, answer) = (&inner[..close], &inner[close + 1..]);
    let mut arguments = Vec::new();
    if !listed.is_empty() {
        for text in listed.split(|byte| *byte == b',') {
            arguments.push(decimal(text)?);
        }
    }
    if arguments.len() > MAX_ARGUMENTS {
        return Err(FORM);
    }
    let answer = match answer {
        b"-" => None,
        text => Some(decimal(text)?),
    };
    let signature = Signature { arguments, answer };
    if signature.named().any(|number| number >= sheet_types) {
        return Err(OUT_OF_RANGE);
    }
    Ok(signature)
}

/// The text of a table, derived types left out (W5 to W7).
pub fn text(table: &Table) -> Vec<u8> {
    let mut lines = vec![
        "guide=1".to_string(),
        format!("subjects={}", table.subjects),
        format!("methods={}", table.methods),
        format!("cats={}", table.categories()),
    ];
    for broader in &table.broader {
        lines.push(match broader.second {
            Some(second) => format!("under={},{second}", broader.first),
            None => format!("under={}", broader.first),
        });
    }
    lines.push(format!("types={}", table.sheet_types));
    for (number, one) in table.types[..table.sheet_types].iter().enumerate() {
        lines.push(format!("type={number}"));
        lines.extend(type_lines(one));
    }
    lines.push("end=sheet".to_string());
    let mut text = lines.join("\n").into_bytes();
    text.push(b'\n');
    text
}

/// The lines of a type behind its `type=` line.
pub fn type_lines(one: &Type) -> Vec<String> {
    let representation = match one.representation {
        Representation::Ref => "ref",
        Representation::W32 => "w32",
        Representation::W64 => "w64",
    };
    let mut lines = vec![
        format!("rep={representation}"),
        format!("cat={}", one.category),
    ];
    if one.is_ref() {
        let own = if one.own { "yes" } else { "no" };
        lines.push(format!("own={own}"));
        lines.extend(one.methods.iter().map(method_line));
    }
    lines
}

fn method_line(state: &MethodState) -> String {
    match state {
        MethodState::Denied => "m=denied".to_string(),
        MethodState::Optional(signature) => format!("m=optional{}", signature_text(signature)),
        MethodState::Avail(signature) => format!("m=avail{}", signature_text(signature)),
        MethodState::Unavail => "m=unavail".to_string(),
    }
}

fn signature_text(signature: &Signature) -> String {
    let arguments: Vec<String> = signature.arguments.iter().map(usize::to_string).collect();
    let answer = match signature.answer {
        Some(answer) => answer.to_string(),
        None => "-".to_string(),
    };
    format!("({}){answer}", arguments.join(","))
}

/// Writes the text of a table to the front of a buffer (W2 to W4).
pub fn write(table: &Table, buffer: &mut [u8]) -> Result<usize, Refusal> {
    put(&text(table), buffer)
}

/// Puts a text to the front of a buffer: its length, or 4 (W2 to W4, P26).
pub fn put(text: &[u8], buffer: &mut [u8]) -> Result<usize, Refusal> {
    if text.len() > buffer.len() {
        return Err(SHORT_BUFFER);
    }
    buffer[..text.len()].copy_from_slice(text);
    Ok(text.len())
}
