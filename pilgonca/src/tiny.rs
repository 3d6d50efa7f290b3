//! Every tiny sheet, for those who test with sheets.

use crate::raw::{self, TINY_BYTES, TINY_SHEETS};

/// What the program `tiny` prints (P21): every tiny sheet, with nothing between.
///
/// ```
/// let text = pilgonca::tiny();
/// assert!(text.starts_with(b"guide=1\nsubjects=1\nmethods=1\n") && text.ends_with(b"end=sheet\n"));
/// assert_eq!(text, pilgonca::tiny_sheets().concat());
/// ```
pub fn tiny() -> Vec<u8> {
    let (mut text, mut length) = (vec![0; TINY_BYTES], 0);
    let code = raw::tiny(&mut text, &mut length);
    assert_eq!((code, length), (0, TINY_BYTES), "a buffer for all of them");
    text
}

/// The text of each tiny sheet: every sheet with one subject, one or two methods, no categories and one type, a ref type of which no method has more than
/// one argument (P22 to P25). There are 130, and the core accepts each; they are the first inputs of a test of whatever takes sheets.
///
/// ```
/// use pilgonca::{Sheet, tiny_sheets};
/// let sheets = tiny_sheets();
/// assert_eq!(sheets.len(), 130);
/// for text in sheets {
///     let sheet = Sheet::read(&text).unwrap();
///     assert_eq!((sheet.subjects(), sheet.sheet_types(), sheet.write()), (1, 1, text));
/// }
/// ```
pub fn tiny_sheets() -> Vec<Vec<u8>> {
    let mut sheets = Vec::with_capacity(TINY_SHEETS);
    let mut sheet = Vec::new();
    for line in tiny().split_inclusive(|byte| *byte == b'\n') {
        sheet.extend_from_slice(line);
        if line == b"end=sheet\n" {
            sheets.push(std::mem::take(&mut sheet));
        }
    }
    sheets
}
