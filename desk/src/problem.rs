//! What keeps a command from its answer.

use crate::words::under;

/// A message, and the place in a file that it is about, if there is one.
#[derive(Debug)]
pub struct Problem {
    /// One line.
    pub words: String,
    pub at: Option<Box<At>>,
    /// What else is to say.
    pub note: Option<String>,
}

/// A place in a file, as editors jump to it, and what is to say about it.
#[derive(Debug)]
pub struct At {
    pub file: String,
    /// From 1 on; the column in bytes.
    pub line: usize,
    pub column: usize,
    /// The refusal's number; none where it is desk that cannot read the file.
    pub refused: Option<u8>,
    pub wrong: String,
    pub right: String,
    /// The line with a mark below it, and both.
    pub block: String,
}

impl Problem {
    pub fn of(words: String) -> Problem {
        Problem {
            words,
            at: None,
            note: None,
        }
    }

    pub fn at(words: String, at: At) -> Problem {
        Problem {
            at: Some(Box::new(at)),
            ..Problem::of(words)
        }
    }

    /// As it goes to standard error.
    pub fn message(&self) -> String {
        let Problem { words, at, note } = self;
        let note = note
            .as_ref()
            .map_or(String::new(), |note| format!("\n{}", under("  ", note)));
        match at {
            None => format!("desk: {words}\n{note}"),
            Some(at) => {
                let At {
                    file,
                    line,
                    column,
                    block,
                    ..
                } = &**at;
                format!("{file}:{line}:{column}: {words}\n{block}{note}")
            }
        }
    }
}
