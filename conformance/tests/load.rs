//! The state of a sheet in the proved core against the reference: number, offset, every count and every byte.

use conformance::inputs::{largest, shares};
use conformance::layout;
use conformance::served::{load, set_counts};
use conformance::states::of_table;
use conformance::tiny_first::{self, Input};
use pilgonca::raw::TINY_SHEETS;
use reference::raw::{RawState, RawTable, BROADER_LENGTH, TYPES_LENGTH};
use reference::refusal::Refusal;
use reference::sheet;
use reference::shrink::shrink;

/// What stands in everything lent before.
const MARK: u8 = 0xa5;

/// A state, and the offset, with a refusal's number before it.
type Loading = (RawState, Result<usize, (Refusal, usize)>);

fn proved(text: &[u8]) -> Loading {
    let mut state = of_table(RawTable {
        broader: [MARK; BROADER_LENGTH],
        type_bytes: [MARK; TYPES_LENGTH],
        ..RawTable::default()
    });
    state.cell_bytes.fill(MARK);
    state.place_bytes.fill(MARK);
    state.call_bytes.fill(MARK);
    let (mut counts, mut at) = ([usize::MAX; 8], usize::MAX);
    let code = load(text, &mut state, &mut counts, &mut at);
    set_counts(&mut state, counts);
    let result = match code {
        0 => Ok(at),
        _ => Err((code as Refusal, at)),
    };
    (state, result)
}

/// The reference's: where the sheet is refused, every count and byte is 0.
fn wanted(text: &[u8]) -> Loading {
    match sheet::read(text) {
        Ok(table) => (of_table(layout::plain(&table)), Ok(0)),
        Err(refusal) => (of_table(RawTable::default()), Err(refusal)),
    }
}

/// One loading both ways; says whether the sheet is accepted.
fn same(text: &[u8], from: &str) -> bool {
    let differs = |text: &[u8]| proved(text) != wanted(text);
    if differs(text) {
        let small = shrink(text, &mut |other| differs(other));
        let (theirs, ours) = (proved(&small).1, wanted(&small).1);
        let small = String::from_utf8_lossy(&small);
        panic!("{from}: {theirs:?} for {ours:?} of\n{small}");
    }
    wanted(text).1.is_ok()
}

#[test]
fn generated_sheets_are_loaded() {
    for Input { from, of, .. } in tiny_first::tables(shares(1000, 400, 100, 50)) {
        assert!(same(&sheet::text(&of), &from));
    }
    assert!(same(&sheet::text(&largest()), "largest"));
}

fn damaged_sheets(seeds: u64) {
    let mut sheets = tiny_first::damaged_sheets(0..seeds);
    let is_loaded = |one: Input<Vec<u8>>| same(&one.of, &one.from);
    assert!(sheets.by_ref().take(TINY_SHEETS).all(is_loaded));
    let damaged: Vec<bool> = sheets.map(is_loaded).collect();
    let all = damaged.len();
    let accepted = damaged.into_iter().filter(|loaded| *loaded).count();
    println!("{accepted} of {all} damaged sheets are loaded");
    assert!((all / 100..all / 2).contains(&accepted));
}

#[test]
fn damaged_sheets_are_loaded() {
    damaged_sheets(10_000);
}

#[test]
#[ignore = "long"]
fn a_million_damaged_sheets_are_loaded() {
    damaged_sheets(1_000_000);
}
