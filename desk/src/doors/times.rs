//! From the cells of a file to a list of times: which column they stand in, and each as a number. Nothing is guessed: what may be read in two ways is refused.

use super::cells::{Cell, Row, Rows};
use super::fault::Fault;
use crate::reader::LEADING_ZERO;
use crate::words::{listed, plural};
use pilgonca::raw::LAST_TIME;
use std::ops::Range;

/// Columns of these names have the times, where no other is asked for.
const USUAL: [&str; 3] = ["time", "ms", "time_ms"];

/// An entry of a list. A time past 64 bits counts as the largest, which is outside the range too (V1).
#[derive(Debug)]
pub struct Entry {
    pub time: u64,
    /// The line that it stands in, from 1 on.
    pub line: usize,
    pub bytes: Range<usize>,
}

/// The column of a table that has the times: its number from 1 on, and its name where there is a header.
#[derive(Clone, Debug)]
pub struct Column {
    pub number: usize,
    pub name: Option<String>,
}

/// The times of a file, in the order in which they stand there.
#[derive(Debug)]
pub struct Times {
    pub entries: Vec<Entry>,
    /// None of a list that is no table.
    pub column: Option<Column>,
}

/// Why a file is no list of times.
#[derive(Debug)]
pub enum Unread {
    Fault(Fault),
    /// The words do not say, or say wrongly, which column is meant.
    Column(String),
}

impl From<Fault> for Unread {
    fn from(fault: Fault) -> Unread {
        Unread::Fault(fault)
    }
}

impl Times {
    /// The times of a file. Which column has them, by name or number, counts only for a file that has more than one.
    pub fn read(text: &[u8], wanted: Option<&str>) -> Result<Times, Unread> {
        let rows = Rows::read(text)?;
        let Some(first) = rows.rows.first() else {
            return Ok(Times {
                entries: Vec::new(),
                column: None,
            });
        };
        if !is_list(&rows, first) {
            return of_table(&rows.rows, first, wanted);
        }
        let entries = of_list(&rows.rows)?;
        is_plain(&rows.rows, first, wanted)?;
        Ok(Times {
            entries,
            column: None,
        })
    }
}

/// A list has no header, and its lines are no rows of a table: not each with as many cells.
fn is_list(rows: &Rows, first: &Row) -> bool {
    let headed = first.iter().any(|cell| !is_like_a_time(cell));
    let alike = rows.rows.len() > 1 && rows.rows.iter().all(|row| row.len() == first.len());
    let in_columns = first.len() > 1 && (alike || rows.separator == b';');
    !headed && !in_columns
}

/// Whether a cell is no name: a time, or one gone wrong, is not to pass for a header.
fn is_like_a_time(cell: &Cell) -> bool {
    let first = cell.text.first();
    first.is_none_or(|byte| byte.is_ascii_digit() || b"+-.".contains(byte))
}

fn of_list(rows: &[Row]) -> Result<Vec<Entry>, Fault> {
    let words = rows.iter().flatten().flat_map(words);
    words
        .map(|(word, bytes, line)| entry(word, bytes, line))
        .collect()
}

/// Whether numbers are a list and can be no table: columns may have blanks between them too, so words count here, and not cells.
fn is_plain(rows: &[Row], first: &Row, wanted: Option<&str>) -> Result<(), Unread> {
    let numbers = |row: &Row| row.iter().flat_map(words).count();
    let count = numbers(first);
    if count > 1 && rows.len() > 1 && rows.iter().all(|row| numbers(row) == count) {
        return Err(Unread::Fault(Fault {
            bytes: place(first),
            wrong: format!("each line has {count} numbers: this may be a list of times, or a table with blanks between its columns"),
            right: "each time of a list on a line of its own, or commas between the cells of a table".to_string(),
        }));
    }
    match wanted.and_then(number) {
        Some(number) if first.len().max(count) > 1 => Err(Unread::Column(format!(
            "this may be a list of times, or a table with the times in column {number}: put each time of a list on a line of its own"
        ))),
        _ => Ok(()),
    }
}

/// The bytes from the first cell of a row to its last.
fn place(row: &Row) -> Range<usize> {
    row[0].bytes.start..row[row.len() - 1].bytes.end
}

/// What stands between blanks in a cell, with its place; what is quoted is one word.
fn words(cell: &Cell) -> Vec<(&[u8], Range<usize>, usize)> {
    if cell.quoted {
        return vec![(&cell.text, cell.bytes.clone(), cell.line)];
    }
    let mut from = cell.bytes.start;
    let words = cell.text.split(|byte| b" \t".contains(byte)).map(|word| {
        let bytes = from..from + word.len();
        from = bytes.end + 1;
        (word, bytes, cell.line)
    });
    words.filter(|(word, ..)| !word.is_empty()).collect()
}

fn of_table(rows: &[Row], first: &Row, wanted: Option<&str>) -> Result<Times, Unread> {
    let index = column(first, wanted).map_err(|why| Unread::Column(why + &columns(first)))?;
    let head = &first[index];
    // a first line whose cell in this column is a time is a row like the others, unless the column is asked for by that name
    let by_name = wanted.is_some_and(|word| number(word).is_none());
    let headed = by_name || head.text.is_empty() || !is_like_a_time(head);
    let rows = &rows[usize::from(headed)..];
    let entries: Result<Vec<Entry>, Fault> = rows.iter().map(|row| at(row, index, first)).collect();
    Ok(Times {
        entries: entries?,
        column: Some(Column {
            number: index + 1,
            name: headed.then(|| name(head)),
        }),
    })
}

/// The time in a column of a row. A row with more or fewer cells than the first may have them in other columns.
fn at(row: &Row, index: usize, first: &Row) -> Result<Entry, Fault> {
    match row.get(index) {
        Some(cell) if row.len() == first.len() => entry(&cell.text, cell.bytes.clone(), cell.line),
        _ => {
            let due = plural(first.len(), "cell");
            let line = first[0].line;
            Err(Fault {
                bytes: place(row),
                wrong: format!(
                    "the line has {}, and line {line} has {}",
                    plural(row.len(), "cell"),
                    first.len()
                ),
                right: format!("{due}; one with a separator in it stands between quotes"),
            })
        }
    }
}

/// The number of a column, from 1 on, as it is typed.
fn number(word: &str) -> Option<usize> {
    let digits = word.bytes().all(|byte| byte.is_ascii_digit());
    word.parse().ok().filter(|_| digits)
}

/// Which column has the times: the only one, or the one that is asked for, or the one with a usual name.
fn column(first: &Row, wanted: Option<&str>) -> Result<usize, String> {
    match wanted {
        _ if first.len() == 1 => Ok(0),
        None => match with_name(first, |name| USUAL.contains(&&*name.to_lowercase()))[..] {
            [one] => Ok(one),
            _ => Err("--column says which column has the times, by its name or number".to_string()),
        },
        Some(word) => match number(word) {
            Some(number) if (1..=first.len()).contains(&number) => Ok(number - 1),
            Some(number) => Err(format!("there is no column {number}")),
            None => named(first, word),
        },
    }
}

/// The column of a name, or else of one that differs in capitals alone.
fn named(first: &Row, word: &str) -> Result<usize, String> {
    let mut found = with_name(first, |name| name == word);
    if found.is_empty() {
        found = with_name(first, |name| name.to_lowercase() == word.to_lowercase());
    }
    match found[..] {
        [one] => Ok(one),
        [] => Err(format!("no column is named {word:?}")),
        _ => Err(format!("{} columns are named {word:?}", found.len())),
    }
}

fn with_name(first: &Row, test: impl Fn(&str) -> bool) -> Vec<usize> {
    let cells = first.iter().enumerate();
    let found = cells.filter(|(_, cell)| test(&name(cell)));
    found.map(|(index, _)| index).collect()
}

/// The columns of a table, to choose from.
fn columns(first: &Row) -> String {
    let each = first
        .iter()
        .zip(1..)
        .map(|(cell, number)| match cell.text.is_empty() {
            true => number.to_string(),
            false => format!("{number} ({})", name(cell)),
        });
    format!("; line {} has the columns {}", first[0].line, listed(each))
}

/// What a cell says, as it can be printed.
fn name(cell: &Cell) -> String {
    let text = String::from_utf8_lossy(&cell.text);
    match text.chars().any(char::is_control) {
        true => format!("{text:?}"),
        false => text.into_owned(),
    }
}

/// A time: a decimal (S21), so that what is read here is what the program `doors` reads.
fn entry(word: &[u8], bytes: Range<usize>, line: usize) -> Result<Entry, Fault> {
    match decimal(word) {
        Some(time) => Ok(Entry { time, line, bytes }),
        None => Err(Fault {
            bytes,
            wrong: wrong(word).to_string(),
            right: format!(
                "a whole number of milliseconds in digits alone, 0 to {LAST_TIME}, such as 61200"
            ),
        }),
    }
}

/// A decimal without a sign and without leading zeros (S21); one past 64 bits counts as the largest.
pub fn decimal(word: &[u8]) -> Option<u64> {
    let digits = word.iter().all(u8::is_ascii_digit);
    if !digits || word.is_empty() || (word[0] == b'0' && word.len() > 1) {
        return None;
    }
    let text = std::str::from_utf8(word).ok()?;
    Some(text.parse().unwrap_or(u64::MAX))
}

/// What is wrong with what is no decimal.
fn wrong(word: &[u8]) -> &'static str {
    let digits = word.iter().take_while(|byte| byte.is_ascii_digit()).count();
    match (digits, word.get(digits)) {
        (0, None) => "the cell is empty, and a time is due in it",
        (_, None) => LEADING_ZERO,
        (0, Some(b'-' | b'+')) => "a sign stands in front of the number",
        (0, Some(_)) => "this is no number",
        (_, Some(b':' | b'-' | b'/')) => {
            "this reads like a date or a time of day, and desk reads neither"
        }
        (_, Some(byte)) if byte.is_ascii_alphabetic() => {
            "letters stand behind the number, as a unit does"
        }
        (_, Some(_)) => "the number has more in it than digits",
    }
}
