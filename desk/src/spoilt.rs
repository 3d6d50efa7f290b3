//! What mail and editors put into a text, told by its name: a byte order mark, UTF-16, the marks of quoted mail.

use crate::reader::Flaw;

/// In front of UTF-8.
pub const BYTE_ORDER_MARK: &[u8] = b"\xef\xbb\xbf";
/// How mail writes `=` where it is quoted-printable.
pub const QUOTED_EQUALS: &[u8] = b"=3D";

/// What spoilt a line that is not of its form.
pub fn spoilt(text: &[u8], offset: usize, line: &[u8]) -> Option<Flaw> {
    if offset == 0 && utf16(text).is_some() {
        return Some(Flaw {
            mark: 0..line.len(),
            wrong: "the file is UTF-16: it has two bytes for each character".to_string(),
        });
    }
    let flaw = |at: usize, length: usize, wrong: &str| {
        Some(Flaw {
            mark: at..at + length,
            wrong: wrong.to_string(),
        })
    };
    if line.starts_with(BYTE_ORDER_MARK) {
        let wrong = "a byte order mark (BOM) stands in front of the line";
        return flaw(0, BYTE_ORDER_MARK.len(), wrong);
    }
    if line.starts_with(b">") {
        let length = line.iter().take_while(|byte| b"> ".contains(byte)).count();
        return flaw(
            0,
            length,
            "the mark of quoted mail, >, stands in front of the line",
        );
    }
    let mut windows = line.windows(QUOTED_EQUALS.len());
    let at = windows.position(|window| window == QUOTED_EQUALS)?;
    let wrong = "=3D stands in the place of =: this is mail that is quoted-printable";
    flaw(at, QUOTED_EQUALS.len(), wrong)
}

/// The text of UTF-16, with a byte order mark in front or with a zero in the first character. None where it is not that.
pub fn utf16(text: &[u8]) -> Option<String> {
    let (big, body) = match text {
        [0xff, 0xfe, body @ ..] => (false, body),
        [0xfe, 0xff, body @ ..] => (true, body),
        [first, 0, ..] if *first != 0 => (false, text),
        [0, second, ..] if *second != 0 => (true, text),
        _ => return None,
    };
    let pairs = body.chunks_exact(2);
    if !pairs.remainder().is_empty() {
        return None;
    }
    let units = pairs.map(|pair| match big {
        true => u16::from_be_bytes([pair[0], pair[1]]),
        false => u16::from_le_bytes([pair[0], pair[1]]),
    });
    let characters: Result<String, _> = char::decode_utf16(units).collect();
    characters.ok()
}
