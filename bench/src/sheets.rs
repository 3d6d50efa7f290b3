//! Sheet read and Sheet write in safe Rust, to and from the same bytes and with the same refusals. Writing goes over the table
//! twice, as the proved writer does: to know the length, then to write.

use crate::fits;
use reference::raw::{RawTable, BROADER_BYTES};
use reference::refusal::{Refusal, FORM, NOT_BELOW, OUT_OF_RANGE, SHORT_BUFFER};
use reference::table::{MAX_ARGUMENTS, MAX_CATEGORIES, MAX_METHODS, MAX_SHEET_TYPES, MAX_SUBJECTS};

type Refused = (Refusal, usize);

/// Sheet read into a new table; on a refusal, number and offset, and a table with every count 0.
pub fn read(input: &[u8], table: &mut RawTable) -> Result<(), Refused> {
    *table = RawTable::default();
    let result = fill(input, table);
    if result.is_err() {
        *table = RawTable::default();
    }
    result
}

fn fill(input: &[u8], table: &mut RawTable) -> Result<(), Refused> {
    let mut lines = Lines { input, at: 0 };
    lines.next(|line| ranged(line, b"guide=", 1, 1))?;
    table.subjects = lines.next(|line| ranged(line, b"subjects=", 1, MAX_SUBJECTS))?;
    table.methods = lines.next(|line| ranged(line, b"methods=", 1, MAX_METHODS))?;
    table.categories = lines.next(|line| ranged(line, b"cats=", 0, MAX_CATEGORIES))?;
    for category in 1..=table.categories {
        let links = lines.next(|line| under(line, category, table.categories))?;
        let at = category as usize * BROADER_BYTES;
        table.broader[at..at + BROADER_BYTES].copy_from_slice(&links);
    }
    table.sheet_types = lines.next(|line| ranged(line, b"types=", 1, MAX_SHEET_TYPES))?;
    table.types = table.sheet_types;
    for number in 0..table.sheet_types {
        read_type(&mut lines, table, number)?;
    }
    let last = lines.at;
    lines.next(|line| {
        if line == b"end=sheet" {
            Ok(())
        } else {
            Err(FORM)
        }
    })?;
    if lines.at < input.len() {
        return Err((FORM, lines.at));
    }
    if fits::own_in_signature(table) {
        return Err((NOT_BELOW, last));
    }
    Ok(())
}

fn read_type(lines: &mut Lines, table: &mut RawTable, number: u32) -> Result<(), Refused> {
    lines.next(|line| ranged(line, b"type=", number as usize, number as usize))?;
    let representation = lines.next(representation)?;
    let category = lines.next(|line| ranged(line, b"cat=", 0, table.categories as usize))?;
    let entry = table.entry_mut(number as usize);
    entry[0] = representation;
    entry[1] = category as u8;
    if representation != 0 {
        return Ok(());
    }
    entry[2] = lines.next(own)?;
    for method in 0..table.methods as usize {
        let bytes = lines.next(|line| method_state(line, table.sheet_types))?;
        table
            .method_mut(number as usize, method)
            .copy_from_slice(&bytes);
    }
    Ok(())
}

/// The lines of an input, each ended by LF.
struct Lines<'a> {
    input: &'a [u8],
    at: usize,
}

impl<'a> Lines<'a> {
    fn next<T>(
        &mut self,
        reader: impl FnOnce(&'a [u8]) -> Result<T, Refusal>,
    ) -> Result<T, Refused> {
        let rest = &self.input[self.at..];
        let end = rest.iter().position(|byte| *byte == b'\n');
        let end = end.ok_or((FORM, self.at))?;
        let value = reader(&rest[..end]).map_err(|number| (number, self.at))?;
        self.at += end + 1;
        Ok(value)
    }
}

/// A decimal and what is behind it.
fn decimal(text: &[u8]) -> Result<(usize, &[u8]), Refusal> {
    let length = text.iter().take_while(|byte| byte.is_ascii_digit()).count();
    if length == 0 || length > 1 && text[0] == b'0' {
        return Err(FORM);
    }
    let value = text[..length].iter().fold(0usize, |value, digit| {
        value
            .saturating_mul(10)
            .saturating_add(usize::from(digit - b'0'))
    });
    Ok((value, &text[length..]))
}

fn ranged(line: &[u8], word: &[u8], lowest: usize, highest: usize) -> Result<u32, Refusal> {
    match decimal(line.strip_prefix(word).ok_or(FORM)?)? {
        (number, []) if (lowest..=highest).contains(&number) => Ok(number as u32),
        (_, []) => Err(OUT_OF_RANGE),
        _ => Err(FORM),
    }
}

fn under(line: &[u8], category: u32, categories: u32) -> Result<[u8; BROADER_BYTES], Refusal> {
    let (first, rest) = decimal(line.strip_prefix(b"under=").ok_or(FORM)?)?;
    let (count, second) = match rest {
        [] => (1, 0),
        [b',', rest @ ..] => match decimal(rest)? {
            (second, []) => (2, second),
            _ => return Err(FORM),
        },
        _ => return Err(FORM),
    };
    let most = first.max(second);
    if most > categories as usize {
        return Err(OUT_OF_RANGE);
    }
    if most >= category as usize {
        return Err(NOT_BELOW);
    }
    Ok([count, first as u8, second as u8])
}

fn representation(line: &[u8]) -> Result<u8, Refusal> {
    match line {
        b"rep=ref" => Ok(0),
        b"rep=w32" => Ok(1),
        b"rep=w64" => Ok(2),
        _ => Err(FORM),
    }
}

fn own(line: &[u8]) -> Result<u8, Refusal> {
    match line {
        b"own=no" => Ok(0),
        b"own=yes" => Ok(1),
        _ => Err(FORM),
    }
}

fn method_state(line: &[u8], types: u32) -> Result<[u8; 7], Refusal> {
    match line {
        b"m=denied" => return Ok([0; 7]),
        b"m=unavail" => return Ok([3, 0, 0, 0, 0, 0, 0]),
        _ => {}
    }
    if let Some(rest) = line.strip_prefix(b"m=optional(") {
        return signature(1, rest, types as usize);
    }
    signature(
        2,
        line.strip_prefix(b"m=avail(").ok_or(FORM)?,
        types as usize,
    )
}

/// The signature behind `(`.
fn signature(state: u8, text: &[u8], types: usize) -> Result<[u8; 7], Refusal> {
    let mut bytes = [state, 0, 0, 0, 0, 0, 0];
    let mut most = 0;
    let mut rest = text;
    while !matches!(rest, [b')', ..]) {
        let slot = usize::from(bytes[1]);
        if slot == MAX_ARGUMENTS {
            return Err(FORM);
        }
        let (number, behind) = decimal(rest)?;
        most = most.max(number);
        bytes[2 + slot] = number as u8;
        bytes[1] += 1;
        rest = match behind {
            [b',', next @ ..] if !matches!(next, [b')', ..]) => next,
            [b')', ..] => behind,
            _ => return Err(FORM),
        };
    }
    if &rest[1..] != b"-" {
        let (number, behind) = decimal(&rest[1..])?;
        if !behind.is_empty() {
            return Err(FORM);
        }
        most = most.max(number);
        bytes[6] = (number as u8).wrapping_add(1);
    }
    if most >= types {
        return Err(OUT_OF_RANGE);
    }
    Ok(bytes)
}

/// Sheet write of a table handed in: the length, or 2 or 4 and the buffer as it was.
pub fn write(table: &RawTable, buffer: &mut [u8]) -> Result<usize, Refusal> {
    if !fits::table(table) {
        return Err(OUT_OF_RANGE);
    }
    let mut count = Text {
        buffer: &mut [],
        at: 0,
    };
    put_sheet(&mut count, table);
    if buffer.len() < count.at {
        return Err(SHORT_BUFFER);
    }
    let mut text = Text { buffer, at: 0 };
    put_sheet(&mut text, table);
    Ok(text.at)
}

/// Text that is written where there is room, and counted in any case.
pub struct Text<'a> {
    pub buffer: &'a mut [u8],
    pub at: usize,
}

impl Text<'_> {
    fn put(&mut self, text: &[u8]) {
        let end = self.at + text.len();
        if let Some(room) = self.buffer.get_mut(self.at..end) {
            room.copy_from_slice(text);
        }
        self.at = end;
    }

    fn number(&mut self, value: usize) {
        if value >= 10 {
            self.number(value / 10);
        }
        self.put(&[b'0' + (value % 10) as u8]);
    }

    fn line(&mut self, word: &[u8], value: usize) {
        self.put(word);
        self.number(value);
        self.put(b"\n");
    }
}

pub fn put_sheet(text: &mut Text, table: &RawTable) {
    text.line(b"guide=", 1);
    text.line(b"subjects=", table.subjects as usize);
    text.line(b"methods=", table.methods as usize);
    text.line(b"cats=", table.categories as usize);
    for category in 1..=table.categories as usize {
        let at = category * BROADER_BYTES;
        text.put(b"under=");
        text.number(usize::from(table.broader[at + 1]));
        if table.broader[at] == 2 {
            text.put(b",");
            text.number(usize::from(table.broader[at + 2]));
        }
        text.put(b"\n");
    }
    text.line(b"types=", table.sheet_types as usize);
    for number in 0..table.sheet_types as usize {
        put_type(text, table, number);
    }
    text.put(b"end=sheet\n");
}

fn put_type(text: &mut Text, table: &RawTable, number: usize) {
    let entry = table.entry(number);
    text.line(b"type=", number);
    text.put(match entry[0] {
        0 => b"rep=ref\n",
        1 => b"rep=w32\n",
        _ => b"rep=w64\n",
    });
    text.line(b"cat=", usize::from(entry[1]));
    if entry[0] != 0 {
        return;
    }
    text.put(if entry[2] == 1 {
        b"own=yes\n"
    } else {
        b"own=no\n"
    });
    for method in 0..table.methods as usize {
        put_method(text, table.method(number, method));
    }
}

fn put_method(text: &mut Text, bytes: &[u8]) {
    match bytes[0] {
        0 => return text.put(b"m=denied\n"),
        1 => text.put(b"m=optional("),
        2 => text.put(b"m=avail("),
        _ => return text.put(b"m=unavail\n"),
    }
    for slot in 0..usize::from(bytes[1]) {
        if slot > 0 {
            text.put(b",");
        }
        text.number(usize::from(bytes[2 + slot]));
    }
    text.put(b")");
    match bytes[6] {
        0 => text.put(b"-"),
        answer => text.number(usize::from(answer) - 1),
    }
    text.put(b"\n");
}
