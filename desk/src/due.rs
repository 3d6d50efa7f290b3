//! Which line is due at a place of a sheet (S22 to S26), told from the lines in front of it, which are right.

use crate::names::{Kind, Names};
use pilgonca::raw::MAX_ARGUMENTS;

/// A line that is due.
#[derive(Clone, Copy, PartialEq, Eq, Debug)]
pub enum Due {
    Guide,
    Subjects,
    Methods,
    Categories,
    /// The broader ones of a category.
    Under(usize),
    Types,
    /// The first line of a type.
    Type(usize),
    Representation(usize),
    Category(usize),
    Own(usize),
    /// What a type says of a method.
    Method(usize, usize),
    End,
    /// The sheet is over.
    Nothing,
}

/// The keys that lines begin with.
pub const KEYS: [&str; 13] = [
    "guide=",
    "subjects=",
    "methods=",
    "cats=",
    "under=",
    "types=",
    "type=",
    "rep=",
    "cat=",
    "own=",
    "m=",
    "end=",
    "do=",
];

/// Where the reader of a sheet stands: the line that is due, and what earlier lines said.
#[derive(Clone, Debug)]
pub struct Walk {
    pub due: Due,
    pub methods: usize,
    pub categories: usize,
    pub types: usize,
    /// Whether the type that is being read is a reference.
    reference: bool,
}

impl Walk {
    pub fn start() -> Walk {
        Walk {
            due: Due::Guide,
            methods: 0,
            categories: 0,
            types: 0,
            reference: false,
        }
    }

    /// Goes past a line that is right.
    pub fn pass(&mut self, line: &[u8]) {
        match self.due {
            Due::Methods => self.methods = number(line),
            Due::Categories => self.categories = number(line),
            Due::Types => self.types = number(line),
            Due::Representation(_) => self.reference = line == b"rep=ref",
            _ => {}
        }
        self.due = self.next();
    }

    fn next(&self) -> Due {
        match self.due {
            Due::Guide => Due::Subjects,
            Due::Subjects => Due::Methods,
            Due::Methods => Due::Categories,
            Due::Categories => self.under(1),
            Due::Under(category) => self.under(category + 1),
            Due::Types => self.block(0),
            Due::Type(number) => Due::Representation(number),
            Due::Representation(number) => Due::Category(number),
            Due::Category(number) if self.reference => Due::Own(number),
            Due::Category(number) => self.block(number + 1),
            Due::Own(number) => self.method(number, 0),
            Due::Method(number, method) => self.method(number, method + 1),
            Due::End | Due::Nothing => Due::Nothing,
        }
    }

    fn under(&self, category: usize) -> Due {
        if category <= self.categories {
            Due::Under(category)
        } else {
            Due::Types
        }
    }

    fn block(&self, number: usize) -> Due {
        if number < self.types {
            Due::Type(number)
        } else {
            Due::End
        }
    }

    fn method(&self, number: usize, method: usize) -> Due {
        if method < self.methods {
            Due::Method(number, method)
        } else {
            self.block(number + 1)
        }
    }
}

/// The number behind `=` in a line that is right.
fn number(line: &[u8]) -> usize {
    let text = std::str::from_utf8(line).unwrap_or("");
    let digits = text.split_once('=').map_or("", |(_, digits)| digits);
    digits.parse().unwrap_or(0)
}

impl Due {
    /// What the line begins with; nothing where none is due.
    pub fn key(self) -> &'static str {
        match self {
            Due::Guide => "guide=",
            Due::Subjects => "subjects=",
            Due::Methods => "methods=",
            Due::Categories => "cats=",
            Due::Under(_) => "under=",
            Due::Types => "types=",
            Due::Type(_) => "type=",
            Due::Representation(_) => "rep=",
            Due::Category(_) => "cat=",
            Due::Own(_) => "own=",
            Due::Method(..) => "m=",
            Due::End => "end=",
            Due::Nothing => "",
        }
    }

    /// The line in words, behind "the": which one it is.
    pub fn title(self, names: &Names) -> String {
        let of_type = |number: usize| {
            let words = names.words(Kind::Type, number as i64);
            format!("{} line of {words}", self.key())
        };
        match self {
            Due::Under(category) => {
                let words = names.words(Kind::Category, category as i64);
                format!("under= line of {words}")
            }
            Due::Type(number) => format!("type={number} line"),
            Due::Representation(number) | Due::Category(number) | Due::Own(number) => {
                of_type(number)
            }
            Due::Method(number, method) => {
                let words = names.words(Kind::Method, method as i64);
                format!("{} for {words}", of_type(number))
            }
            Due::End => "end=sheet line".to_string(),
            Due::Nothing => "end of the file".to_string(),
            _ => format!("{} line", self.key()),
        }
    }

    /// What would be right there.
    pub fn right(self, walk: &Walk) -> String {
        match self {
            Due::Guide => "guide=1".to_string(),
            Due::Subjects => "subjects= and a number from 1 to 16, as in subjects=3".to_string(),
            Due::Methods => "methods= and a number from 1 to 16, as in methods=2".to_string(),
            Due::Categories => "cats= and a number from 0 to 31, as in cats=0".to_string(),
            Due::Under(category) => under(category),
            Due::Types => "types= and a number from 1 to 48, as in types=6".to_string(),
            Due::Type(number) => format!("type={number}: types are numbered in turn, from 0"),
            Due::Representation(_) => "rep=ref, rep=w32 or rep=w64".to_string(),
            Due::Category(_) if walk.categories == 0 => {
                "cat=0: this sheet has no categories".to_string()
            }
            Due::Category(_) => format!("cat= and a number from 0 (none) to {}", walk.categories),
            Due::Own(_) => "own=yes or own=no".to_string(),
            Due::Method(..) => method(walk.types),
            Due::End => "end=sheet".to_string(),
            Due::Nothing => "nothing: the sheet is over with the end=sheet line".to_string(),
        }
    }
}

fn under(category: usize) -> String {
    match category {
        1 => "under=0: the first category has no broader one but 0".to_string(),
        _ => format!(
            "under= and one or two numbers from 0 to {}, as in under=0 or under=0,{}",
            category - 1,
            category - 1
        ),
    }
}

fn method(types: usize) -> String {
    format!(
        "m=denied, m=unavail, or m=avail or m=optional with up to {MAX_ARGUMENTS} argument types and an answer type from 0 to {}, \
         as in m=avail(0)- or m=optional()0",
        types.saturating_sub(1)
    )
}
