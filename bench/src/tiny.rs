//! Every tiny sheet in safe Rust (P21 to P26), as the proved function makes them: the record of each is made of its number, stored in a table and written by
//! the sheet's own writer. No text of them is kept.

use crate::sheets::{put_sheet, Text};
use pilgonca::raw::TINY_BYTES;
use reference::raw::{RawTable, METHOD_BYTES};
use reference::refusal::{Refusal, SHORT_BUFFER};

/// What may be said of a method: so much, and with own=yes (P23).
const CHOICES: usize = 10;
const OWN_CHOICES: usize = 4;

/// Where those with one method and own=yes begin, those with two methods, those of them with own=yes, and how many there are (P24, P25).
const ONE_OWN: usize = CHOICES;
const TWO: usize = ONE_OWN + OWN_CHOICES;
const TWO_OWN: usize = TWO + CHOICES * CHOICES;
const ALL: usize = TWO_OWN + OWN_CHOICES * OWN_CHOICES;

/// All of them in front of a buffer, and their length; or 4 and the buffer as it was.
pub fn write(buffer: &mut [u8]) -> Result<usize, Refusal> {
    if buffer.len() < TINY_BYTES {
        return Err(SHORT_BUFFER);
    }
    let mut table = RawTable {
        subjects: 1,
        sheet_types: 1,
        types: 1,
        ..RawTable::default()
    };
    let mut text = Text { buffer, at: 0 };
    for number in 0..ALL {
        store(&mut table, number);
        put_sheet(&mut text, &table);
    }
    Ok(text.at)
}

/// Makes the table that of a sheet: its count of methods, and the whole record of its type, a ref type of no category.
fn store(table: &mut RawTable, number: usize) {
    table.methods = if number < TWO { 1 } else { 2 };
    let (own, choices) = choices(number);
    let entry = table.entry_mut(0);
    entry.fill(0);
    entry[2] = u8::from(own);
    for (place, choice) in choices.into_iter().enumerate() {
        let bytes = method(own, choice);
        table.method_mut(0, place).copy_from_slice(&bytes);
    }
}

/// Whether a sheet says own=yes, and what it says of both methods, the first as the slowest (P24); a method that is not there is denied.
fn choices(number: usize) -> (bool, [usize; 2]) {
    let two = |behind: usize, choices: usize| [behind / choices, behind % choices];
    match number {
        0..ONE_OWN => (false, [number, 0]),
        ONE_OWN..TWO => (true, [number - ONE_OWN, 0]),
        TWO..TWO_OWN => (false, two(number - TWO, CHOICES)),
        _ => (true, two(number - TWO_OWN, OWN_CHOICES)),
    }
}

/// The bytes of a method by its choice (P23): the state, and of the signatures `()-`, `()0`, `(0)-`, `(0)0` how many arguments and which answer.
fn method(own: bool, choice: usize) -> [u8; METHOD_BYTES] {
    let (state, signature) = match (choice, own) {
        (0, _) => (0, 0),
        (1, _) => (3, 0),
        (2, true) => (2, 0),
        (_, true) => (1, 0),
        (2..6, false) => (2, choice - 2),
        (_, false) => (1, choice - 6),
    };
    let [arguments, answer] = [signature / 2, signature % 2].map(|count| count as u8);
    [state, arguments, 0, 0, 0, 0, answer]
}

#[cfg(test)]
mod tests {
    use super::*;
    use reference::tiny;

    /// What is measured against does the same work.
    #[test]
    fn is_the_reference() {
        for size in [0, TINY_BYTES - 1, TINY_BYTES, TINY_BYTES + 7] {
            let [mut ours, mut theirs] = [(); 2].map(|()| vec![0xa5; size]);
            assert_eq!(write(&mut ours), tiny::write(&mut theirs), "{size}");
            assert!(ours == theirs, "{size}");
        }
    }
}
