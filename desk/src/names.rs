//! Names of subjects, methods, types and categories, from a file with one on each line: `method 1 mark`.

use crate::words::listed;
use pilgonca::Sheet;
use std::fmt;

/// What can have a name.
#[derive(Clone, Copy, PartialEq, Eq, Debug)]
pub enum Kind {
    Subject,
    Method,
    Type,
    Category,
}

const KINDS: [Kind; 4] = [Kind::Subject, Kind::Method, Kind::Type, Kind::Category];

/// The longest name, in characters: pictures and tables have a column for it.
const LONGEST: usize = 40;

impl Kind {
    /// The numbers that a sheet can give to it at most (T1 to T4).
    fn numbers(self) -> (usize, usize) {
        match self {
            Kind::Subject | Kind::Method => (0, 15),
            Kind::Type => (0, 47),
            Kind::Category => (1, 31),
        }
    }

    /// The last number that a sheet gives to it; none where it has no categories.
    fn last(self, sheet: &Sheet) -> Option<usize> {
        match self {
            Kind::Subject => sheet.subjects().checked_sub(1),
            Kind::Method => sheet.methods().checked_sub(1),
            Kind::Type => sheet.sheet_types().checked_sub(1),
            Kind::Category => Some(sheet.categories()).filter(|count| *count > 0),
        }
    }
}

impl fmt::Display for Kind {
    fn fmt(&self, out: &mut fmt::Formatter) -> fmt::Result {
        out.write_str(match self {
            Kind::Subject => "subject",
            Kind::Method => "method",
            Kind::Type => "type",
            Kind::Category => "category",
        })
    }
}

#[derive(Debug)]
struct Entry {
    kind: Kind,
    number: usize,
    name: String,
    line: usize,
}

/// The names of a file, or none.
#[derive(Debug, Default)]
pub struct Names {
    file: String,
    entries: Vec<Entry>,
}

impl Names {
    /// The names of a file; where a line can't be used, a message that says which and why. Blank lines and lines that begin
    /// with `#` are passed over.
    pub fn read(file: &str, text: &[u8]) -> Result<Names, String> {
        let mut names = Names {
            file: file.to_string(),
            entries: Vec::new(),
        };
        for (index, line) in text.split(|byte| *byte == b'\n').enumerate() {
            let fail = |why: String| format!("{file}, line {}: {why}", index + 1);
            let line = std::str::from_utf8(line).map_err(|_| fail("not UTF-8".to_string()))?;
            let line = line.trim();
            if !line.is_empty() && !line.starts_with('#') {
                let entry = entry(line, index + 1).map_err(fail)?;
                names.is_new(&entry).map_err(fail)?;
                names.entries.push(entry);
            }
        }
        Ok(names)
    }

    fn is_new(&self, new: &Entry) -> Result<(), String> {
        let same = self.entries.iter().filter(|old| old.kind == new.kind);
        for old in same {
            if old.number == new.number {
                let Entry { kind, number, .. } = new;
                return Err(format!(
                    "{kind} {number} has a name already, on line {}",
                    old.line
                ));
            }
            if old.name == new.name {
                let Entry { kind, name, .. } = new;
                let number = old.number;
                return Err(format!(
                    "{kind} {number} is named {name} already, on line {}",
                    old.line
                ));
            }
        }
        Ok(())
    }

    /// Whether every name is of something that the sheet has.
    pub fn fit(&self, sheet: &Sheet) -> Result<(), String> {
        for entry in &self.entries {
            let Entry {
                kind, number, line, ..
            } = entry;
            let (first, _) = kind.numbers();
            let has = match kind.last(sheet) {
                Some(last) if *number <= last => continue,
                Some(last) => format!("numbers from {first} to {last} for that"),
                None => "none".to_string(),
            };
            let file = &self.file;
            return Err(format!(
                "{file}, line {line}: there is no {kind} {number}: the sheet has {has}"
            ));
        }
        Ok(())
    }

    pub fn name(&self, kind: Kind, number: usize) -> Option<&str> {
        let mut entries = self.entries.iter();
        let entry = entries.find(|entry| entry.kind == kind && entry.number == number)?;
        Some(&entry.name)
    }

    /// The number of a name.
    pub fn number(&self, kind: Kind, name: &str) -> Option<usize> {
        let mut entries = self.entries.iter();
        let entry = entries.find(|entry| entry.kind == kind && entry.name == name)?;
        Some(entry.number)
    }

    /// All names of a kind in a row; nothing where there are none.
    pub fn all(&self, kind: Kind) -> String {
        let entries = self.entries.iter().filter(|entry| entry.kind == kind);
        listed(entries.map(|entry| entry.name.clone()))
    }

    /// The number, with the name if there is one: `3 reader`. Any number, as operands are.
    pub fn label(&self, kind: Kind, number: i64) -> String {
        let name = usize::try_from(number)
            .ok()
            .and_then(|number| self.name(kind, number));
        match name {
            Some(name) => format!("{number} {name}"),
            None => number.to_string(),
        }
    }

    /// The name alone, or what it is with its number: `reader`, `type 3`.
    pub fn short(&self, kind: Kind, number: i64) -> String {
        let name = usize::try_from(number)
            .ok()
            .and_then(|number| self.name(kind, number));
        name.map_or_else(|| format!("{kind} {number}"), str::to_string)
    }

    /// The number with the name, or what it is with its number: `3 reader`, `type 3`.
    pub fn numbered(&self, kind: Kind, number: i64) -> String {
        let label = self.label(kind, number);
        if label == number.to_string() {
            return format!("{kind} {number}");
        }
        label
    }

    /// In a sentence: `type 3 (reader)`.
    pub fn words(&self, kind: Kind, number: i64) -> String {
        let name = usize::try_from(number)
            .ok()
            .and_then(|number| self.name(kind, number));
        match name {
            Some(name) => format!("{kind} {number} ({name})"),
            None => format!("{kind} {number}"),
        }
    }
}

/// One line of the file.
fn entry(text: &str, line: usize) -> Result<Entry, String> {
    let (word, rest) = text.split_once(' ').unwrap_or((text, ""));
    let mut kinds = KINDS.into_iter();
    let kind = kinds.find(|kind| kind.to_string() == word).ok_or_else(|| {
        format!("{word:?} can have no name: a line begins with subject, method, type or category")
    })?;
    let (digits, name) = rest
        .trim_start()
        .split_once(' ')
        .ok_or_else(|| format!("it takes a kind, a number and a name, as in `{kind} 1 visitor`"))?;
    let (first, last) = kind.numbers();
    let number = digits
        .parse()
        .ok()
        .filter(|number| (first..=last).contains(number))
        .ok_or_else(|| {
            format!("{digits:?} is no number of a {kind}: they go from {first} to {last}")
        })?;
    let name = usable(name.trim())?;
    Ok(Entry {
        kind,
        number,
        name,
        line,
    })
}

/// A name that is no number, since types can be asked for by either, and that fits on a line.
fn usable(name: &str) -> Result<String, String> {
    if name.chars().any(char::is_control) {
        return Err(format!("the name {name:?} has a control character in it"));
    }
    if name.parse::<i64>().is_ok() {
        return Err(format!("the name {name} is a number"));
    }
    if name.chars().count() > LONGEST {
        return Err(format!(
            "the name {name} has more than {LONGEST} characters"
        ));
    }
    Ok(name.to_string())
}
