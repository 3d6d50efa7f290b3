//! Compare (R14), and the program `pairs` (P16, P17).

use crate::refusal::{Refusal, UNKNOWN_TYPE};
use crate::relations::{Relations, RELATIONS};
use crate::requests::index;
use crate::script::MAX_INPUT;
use crate::sheet;
use crate::table::Table;

/// The four answers at a pair of types (R14).
pub fn compare(table: &Table, t: i64, s: i64) -> Result<[bool; 4], Refusal> {
    let t = index(t, table.types.len()).ok_or(UNKNOWN_TYPE)?;
    let s = index(s, table.types.len()).ok_or(UNKNOWN_TYPE)?;
    let relations = Relations::of(table);
    Ok(RELATIONS.map(|relation| relations.holds(relation, t, s)))
}

/// What `pairs` prints for an input (P1, P16, P17).
pub fn run(input: &[u8]) -> Vec<u8> {
    if input.len() > MAX_INPUT {
        return b"no=2\n".to_vec();
    }
    match sheet::read(input) {
        Ok(table) => lines(&table).into_bytes(),
        Err(refusal) => refused(refusal),
    }
}

/// A line for every pair of a sheet's types (P17).
fn lines(table: &Table) -> String {
    let relations = Relations::of(table);
    let mut output = String::new();
    for t in 0..table.types.len() {
        for s in 0..table.types.len() {
            let answers =
                RELATIONS.map(|relation| u8::from(relations.holds(relation, t, s)).to_string());
            output.push_str(&format!("{t} {s} {}\n", answers.join(" ")));
        }
    }
    output
}

/// Whether a sheet is read: `ok`, or where and why not.
pub fn run_sheet(input: &[u8]) -> Vec<u8> {
    match sheet::read(input) {
        Ok(_) => b"ok\n".to_vec(),
        Err(refusal) => refused(refusal),
    }
}

fn refused((number, offset): sheet::SheetRefusal) -> Vec<u8> {
    format!("no={number} at={offset}\n").into_bytes()
}
