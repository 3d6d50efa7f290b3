//! A file of times as it stands: rows of cells, as lists and CSV have them. Here nothing is a number yet.

use super::fault::Fault;
use crate::spoilt::BYTE_ORDER_MARK;
use std::ops::Range;

/// A cell: what it says, without its quotes, and where.
pub struct Cell {
    pub text: Vec<u8>,
    pub quoted: bool,
    /// Its bytes in the file.
    pub bytes: Range<usize>,
    /// The line that it begins in, from 1 on.
    pub line: usize,
}

pub type Row = Vec<Cell>;

/// The rows of a file, without blank ones, and what stands between their cells.
pub struct Rows {
    pub rows: Vec<Row>,
    pub separator: u8,
}

impl Rows {
    pub fn read(text: &[u8]) -> Result<Rows, Fault> {
        let separator = separator(text);
        let mark = text.starts_with(BYTE_ORDER_MARK);
        let mut scanner = Scanner {
            text,
            separator,
            at: if mark { BYTE_ORDER_MARK.len() } else { 0 },
            line: 1,
        };
        let mut rows = Vec::new();
        while scanner.at < text.len() {
            let row = scanner.row()?;
            if row.iter().any(|cell| !cell.text.is_empty()) {
                rows.push(row);
            }
        }
        Ok(Rows { rows, separator })
    }
}

/// A comma; or a semicolon, where the first row has one and no comma, those between quotes aside.
fn separator(text: &[u8]) -> u8 {
    let mut found = b',';
    let mut quoted = false;
    for byte in text.trim_ascii_start() {
        match byte {
            b'"' => quoted = !quoted,
            b'\n' if !quoted => break,
            b',' if !quoted => return b',',
            b';' if !quoted => found = b';',
            _ => {}
        }
    }
    found
}

struct Scanner<'a> {
    text: &'a [u8],
    separator: u8,
    at: usize,
    line: usize,
}

impl Scanner<'_> {
    /// The cells up to the end of the line, or of one further down where quotes go over it.
    fn row(&mut self) -> Result<Row, Fault> {
        let mut row = vec![self.cell()?];
        while self.text.get(self.at) == Some(&self.separator) {
            self.at += 1;
            row.push(self.cell()?);
        }
        self.at += 1;
        self.line += 1;
        Ok(row)
    }

    /// A cell without the blanks around it. What stands behind its closing quote is taken with that quote, so that it passes for no number.
    fn cell(&mut self) -> Result<Cell, Fault> {
        self.at += self.count(|byte| b" \t".contains(&byte));
        let (from, line) = (self.at, self.line);
        let quoted = self.text.get(from) == Some(&b'"');
        let mut text = Vec::new();
        if quoted {
            text = self.between_quotes()?;
        }
        let length = self.count(|byte| byte != self.separator && byte != b'\n');
        let rest = self.text[self.at..self.at + length].trim_ascii_end();
        if quoted && !rest.is_empty() {
            text.push(b'"');
        }
        text.extend(rest);
        let bytes = from..self.at + rest.len();
        self.at += length;
        Ok(Cell {
            text,
            quoted,
            bytes,
            line,
        })
    }

    /// What stands between quotes; two in a row are one of the text.
    fn between_quotes(&mut self) -> Result<Vec<u8>, Fault> {
        let from = self.at;
        let mut text = Vec::new();
        loop {
            self.at += 1;
            match &self.text[self.at..] {
                [] => {
                    return Err(Fault {
                        bytes: from..from + 1,
                        wrong: "the cell begins with a quote, and no quote ends it".to_string(),
                        right: "a quote behind the cell too, or none in front of it".to_string(),
                    })
                }
                [b'"', b'"', ..] => {
                    self.at += 1;
                    text.push(b'"');
                }
                [b'"', ..] => break,
                [byte, ..] => {
                    self.line += usize::from(*byte == b'\n');
                    text.push(*byte);
                }
            }
        }
        self.at += 1;
        Ok(text)
    }

    /// How many of the next bytes are so.
    fn count(&self, test: impl Fn(u8) -> bool) -> usize {
        let rest = self.text[self.at..].iter();
        rest.take_while(|byte| test(**byte)).count()
    }
}

#[cfg(test)]
mod tests {
    use super::*;

    /// The texts of the cells, row by row, and the line that each row begins in.
    fn read(text: &str) -> Vec<(usize, Vec<String>)> {
        let rows = Rows::read(text.as_bytes()).unwrap_or_else(|fault| panic!("{}", fault.wrong));
        let texts = |row: &Row| {
            let texts = row.iter().map(|cell| String::from_utf8_lossy(&cell.text));
            (row[0].line, texts.map(|text| text.into_owned()).collect())
        };
        rows.rows.iter().map(texts).collect()
    }

    fn row(line: usize, cells: &[&str]) -> (usize, Vec<String>) {
        (line, cells.iter().map(|cell| cell.to_string()).collect())
    }

    #[test]
    fn rows_and_cells() {
        assert_eq!(read(""), []);
        assert_eq!(read("\u{feff}\r\n \n,,\n"), []);
        assert_eq!(read("1,2"), [row(1, &["1", "2"])]);
        assert_eq!(
            read("\n a , b c\t,\r\n1,2,3\r\n"),
            [row(2, &["a", "b c", ""]), row(3, &["1", "2", "3"])]
        );
    }

    #[test]
    fn quotes_are_taken_off() {
        let text = "\"a, \"\"b\"\"\";\"two\nlines\" ; c\n\"1\"x;\"\";3\n";
        assert_eq!(
            read(text),
            [
                row(1, &["a, \"b\"", "two\nlines", "c"]),
                row(3, &["1\"x", "", "3"])
            ]
        );
        let open = Rows::read(b"a,b\n1,\"2\n").err().expect("a fault");
        assert_eq!(open.bytes, 6..7);
    }

    #[test]
    fn semicolons_are_taken_where_there_is_no_comma() {
        assert_eq!(
            read("a;b\n1,5;2"),
            [row(1, &["a", "b"]), row(2, &["1,5", "2"])]
        );
        assert_eq!(read("a;b,c"), [row(1, &["a;b", "c"])]);
        assert_eq!(read("\"a,b\";c"), [row(1, &["a,b", "c"])]);
    }

    /// The bytes of a cell are where it stands in the file.
    #[test]
    fn cells_have_their_place() {
        let text = b"a, \"b\" ,c d\r\n1,2,3";
        let rows = Rows::read(text).unwrap_or_else(|fault| panic!("{}", fault.wrong));
        let at = |row: &Row| -> Vec<&[u8]> {
            row.iter().map(|cell| &text[cell.bytes.clone()]).collect()
        };
        let found: Vec<Vec<&[u8]>> = rows.rows.iter().map(at).collect();
        assert_eq!(found[0], [&b"a"[..], b"\"b\"", b"c d"]);
        assert_eq!(found[1], [b"1", b"2", b"3"]);
    }
}
