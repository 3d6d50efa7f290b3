//! A line of a file as it can be shown, whatever bytes it holds, with a mark under a part of it.

use std::ops::Range;

/// How many bytes of a line are shown at most.
const WINDOW: usize = 90;
/// How many of them stand in front of the mark.
const BEFORE: usize = 40;

/// The line, and the mark that goes below it. Bytes that are no printable ASCII are shown by their numbers.
pub fn marked(line: &[u8], mark: &Range<usize>) -> (String, String) {
    let (from, to) = window(line.len(), mark.start);
    let in_front = if from > 0 { "..." } else { "" };
    let behind = if to < line.len() { "..." } else { "" };
    let text = shown(&line[from..to]);
    let column = in_front.len() + shown(&line[from..mark.start]).len();
    let end = mark.end.clamp(mark.start, to);
    let width = shown(&line[mark.start..end]).len().max(1);
    (
        format!("{in_front}{text}{behind}"),
        format!("{}{}", " ".repeat(column), "^".repeat(width)),
    )
}

/// The part of a line that is shown, with the start of the mark in it.
fn window(length: usize, start: usize) -> (usize, usize) {
    if length <= WINDOW {
        return (0, length);
    }
    let from = start.saturating_sub(BEFORE);
    (from, length.min(from + WINDOW))
}

/// Bytes as they can be shown.
pub fn shown(bytes: &[u8]) -> String {
    bytes.iter().map(|byte| one(*byte)).collect()
}

fn one(byte: u8) -> String {
    match byte {
        b' '..=b'~' => char::from(byte).to_string(),
        b'\r' => "\\r".to_string(),
        b'\t' => "\\t".to_string(),
        _ => format!("\\x{byte:02x}"),
    }
}

#[cfg(test)]
mod tests {
    use super::*;

    #[test]
    fn the_mark_is_under_its_bytes() {
        let (line, mark) = marked(b"a\xff=\r3", &(3..5));
        assert_eq!(line, "a\\xff=\\r3");
        assert_eq!(mark, "      ^^^");
    }

    #[test]
    fn nothing_at_the_end_has_one_mark() {
        assert_eq!(marked(b"ab", &(2..2)).1, "  ^");
        assert_eq!(marked(b"", &(0..0)), (String::new(), "^".to_string()));
    }

    #[test]
    fn a_long_line_is_cut() {
        let line = [b'9'; 5000];
        let (text, mark) = marked(&line, &(2000..5000));
        assert_eq!(text.len(), WINDOW + 6);
        assert_eq!(mark.len(), 3 + WINDOW);
        assert_eq!(mark.trim_start().len(), WINDOW - BEFORE);
    }
}
