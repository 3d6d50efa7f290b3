//! Tables handed in, right, noisy and broken in one place or many: compare in the proved core against the reference's.

use conformance::compare;
use conformance::inputs::worst;
use conformance::tiny_first::{self, Input};
use reference::entry;
use reference::generators::Profile;
use reference::hostile::Hostile;
use reference::raw::RawTable;
use reference::sheet;
use reference::shrink::{shrink, shrink_hostile};

/// What the proved core answers and what the reference does.
fn both(table: &RawTable, t: i64, s: i64) -> (Result<[bool; 4], usize>, Result<[bool; 4], usize>) {
    let ours = entry::compare(table, t, s).map_err(|refusal| refusal as usize);
    (compare(table, t, s), ours)
}

fn differs(table: &RawTable, t: i64, s: i64) -> bool {
    let (theirs, ours) = both(table, t, s);
    theirs != ours
}

/// One comparison on a table handed in; a difference is shown on the smallest table found.
fn same_handed_in(hostile: &Hostile, t: i64, s: i64, from: &str) -> bool {
    let table = &hostile.state.table;
    if differs(table, t, s) {
        let small = shrink_hostile(hostile, &mut |other| differs(&other.state.table, t, s));
        panic!(
            "{from}: compare {t} {s} gives {:?}\n{small:?}",
            both(&small.state.table, t, s)
        );
    }
    compare(table, t, s).is_ok()
}

#[test]
fn compare_on_tables_handed_in() {
    let mut answered = 0;
    let odd = [i64::MIN, -1, 0, 1, 47, 48, 127, 128, 255, 256, i64::MAX];
    for Input {
        from,
        seed,
        of: hostile,
    } in tiny_first::states(0..4000)
    {
        let n = i64::from(hostile.state.table.types);
        for (t, s) in [(0, 1), (1, 0), (n - 1, 0), (n / 2, n - 1), (n, 0)] {
            answered += u32::from(same_handed_in(&hostile, t, s, &from));
        }
        let (t, s) = (seed as usize % odd.len(), seed as usize / 11 % odd.len());
        same_handed_in(&hostile, odd[t], odd[s], &from);
    }
    assert!(answered > 2000, "only {answered} comparisons were answered");
}

/// The table of the sheet at the head of an input, if it is right.
fn table_of(input: &[u8]) -> Option<RawTable> {
    let end = b"end=sheet\n";
    let at = input.windows(end.len()).position(|window| window == end)?;
    let table = sheet::read(&input[..at + end.len()]).ok()?;
    Some(RawTable::of(&table))
}

/// The first pair of a sheet's types on which the two differ.
fn differing_pair(table: &RawTable) -> Option<(i64, i64)> {
    let n = i64::from(table.types);
    (0..n * n)
        .map(|pair| (pair / n, pair % n))
        .find(|(t, s)| differs(table, *t, *s))
}

#[test]
fn every_pair_of_generated_sheets() {
    let mut pairs = 0;
    let profiles = [
        (Profile::Small, 400),
        (Profile::Medium, 60),
        (Profile::Big, 6),
    ];
    for Input { from, of, .. } in tiny_first::scripts(&profiles) {
        let Some(table) = table_of(&of) else {
            continue;
        };
        pairs += table.types * table.types;
        if differing_pair(&table).is_some() {
            let small = shrink(&of, &mut |other| {
                table_of(other).is_some_and(|table| differing_pair(&table).is_some())
            });
            let pair = table_of(&small).and_then(|table| differing_pair(&table));
            let small = String::from_utf8_lossy(&small);
            panic!("{from}: pair {pair:?} of\n{small}");
        }
    }
    assert!(pairs > 10_000, "only {pairs} pairs");
}

/// Every pair of 128 types reached, in a stack of 256 KB.
#[test]
fn the_worst_comparison_needs_little_stack() {
    let table = worst(128, 31);
    let small = std::thread::Builder::new().stack_size(256 * 1024);
    let answer = small
        .spawn(move || compare(&table, 126, 127))
        .unwrap()
        .join();
    assert_eq!(answer.unwrap(), Ok([true; 4]));
}
