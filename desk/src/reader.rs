//! One line of a sheet or a script from its front on, and what is found wrong there.

use std::ops::Range;

/// What is wrong, and where in the line.
#[derive(Clone, PartialEq, Eq, Debug)]
pub struct Flaw {
    pub mark: Range<usize>,
    pub wrong: String,
}

/// Said of the last line of a sheet or of a script.
pub const NO_LF: &str = "the file ends in this line, without LF behind it";

/// Said of a number in either.
pub const LEADING_ZERO: &str = "a zero stands in front of the number";

/// A number in a line. One past 64 bits counts as the largest, which is outside every range (S2).
pub struct Number {
    pub mark: Range<usize>,
    pub value: u64,
}

/// Goes over a line from its front.
pub struct Reader<'a> {
    line: &'a [u8],
    at: usize,
}

impl<'a> Reader<'a> {
    pub fn new(line: &'a [u8]) -> Reader<'a> {
        Reader { line, at: 0 }
    }

    pub fn rest(&self) -> &'a [u8] {
        &self.line[self.at..]
    }

    /// Takes the word if it stands here.
    pub fn take(&mut self, word: &str) -> bool {
        let found = self.rest().starts_with(word.as_bytes());
        if found {
            self.at += word.len();
        }
        found
    }

    /// Goes past so many bytes that are there.
    pub fn skip(&mut self, length: usize) {
        self.at += length;
    }

    /// A flaw in the next bytes.
    pub fn flaw(&self, length: usize, wrong: impl Into<String>) -> Flaw {
        let end = self.line.len().min(self.at + length);
        Flaw {
            mark: self.at..end,
            wrong: wrong.into(),
        }
    }

    /// How many of the next bytes are so.
    pub fn count(&self, test: impl Fn(u8) -> bool) -> usize {
        self.rest().iter().take_while(|byte| test(**byte)).count()
    }

    /// The end of the line is due.
    pub fn end(&self, behind: &str) -> Result<(), Flaw> {
        let rest = self.rest();
        let wrong = match rest {
            [] => return Ok(()),
            b"\r" => "the line ends with CR LF: a carriage return (CR) stands in front of its LF"
                .to_string(),
            b" " => format!("a space stands at the end, behind {behind}"),
            _ if rest.iter().all(|byte| *byte == b' ') => {
                format!("{} spaces stand at the end, behind {behind}", rest.len())
            }
            _ => format!("this stands behind {behind}, where the line is over"),
        };
        Err(self.flaw(rest.len(), wrong))
    }

    /// A decimal without a sign and without leading zeros (S21).
    pub fn number(&mut self) -> Result<Number, Flaw> {
        let digits = self.count(|byte| byte.is_ascii_digit());
        if digits == 0 {
            return Err(self.no_number());
        }
        if digits > 1 && self.rest()[0] == b'0' {
            return Err(self.flaw(digits, LEADING_ZERO));
        }
        let mark = self.at..self.at + digits;
        self.at = mark.end;
        let value = std::str::from_utf8(&self.line[mark.clone()])
            .ok()
            .and_then(|digits| digits.parse().ok())
            .unwrap_or(u64::MAX);
        Ok(Number { mark, value })
    }

    fn no_number(&self) -> Flaw {
        match self.rest().first() {
            Some(b'-' | b'+') => self.flaw(1, "a sign stands in front of the number"),
            Some(b' ') => self.flaw(1, "a space stands where a number is due"),
            Some(_) => self.flaw(1, "this is no number, and one is due here"),
            None => self.flaw(0, "the line ends where a number is due"),
        }
    }
}
