//! The pair table of a sheet in the proved core against the reference's relations: generated sheets, and tables handed in.

use conformance::inputs::shares;
use conformance::tiny_first::{self, Input};
use conformance::{counts, pairs, Counts, PAIRS_LENGTH};
use reference::check::{self, Reason};
use reference::raw::RawTable;
use reference::relations::{Relations, RELATIONS};
use reference::sheet;
use reference::shrink::{shrink, shrink_hostile};
use reference::table::MAX_SHEET_TYPES;
use std::collections::BTreeMap;

/// What stands in the lent bytes before.
const MARK: u8 = 0xa5;

type Pairs = [u8; PAIRS_LENGTH];

/// What the reference answers: 0 and the whole pair table, or 2 and the bytes as they were.
fn expected(raw: &RawTable) -> (usize, Pairs) {
    let Ok(table) = check::table(raw) else {
        return (2, [MARK; PAIRS_LENGTH]);
    };
    let relations = Relations::of(&table);
    let mut out = [0; PAIRS_LENGTH];
    for t in 0..table.sheet_types {
        for s in 0..table.sheet_types {
            for (bit, relation) in RELATIONS.into_iter().enumerate() {
                out[t * MAX_SHEET_TYPES + s] |= u8::from(relations.holds(relation, t, s)) << bit;
            }
        }
    }
    (0, out)
}

/// What the proved core answers.
fn proved(raw: &RawTable, counts: Counts) -> (usize, Pairs) {
    let mut out = [MARK; PAIRS_LENGTH];
    let code = pairs(raw, counts, &mut out);
    (code, out)
}

fn differs(raw: &RawTable) -> bool {
    proved(raw, counts(raw)) != expected(raw)
}

/// The first byte on which the two differ, for a message.
fn first_difference(raw: &RawTable) -> String {
    let (theirs, ours) = (proved(raw, counts(raw)), expected(raw));
    let at = (0..PAIRS_LENGTH).find(|at| theirs.1[*at] != ours.1[*at]);
    let byte = at.map(|at| (at / 48, at % 48, theirs.1[at], ours.1[at]));
    format!("{} for {}, first pair with bits {byte:?}", theirs.0, ours.0)
}

#[test]
fn generated_sheets() {
    // how many pairs have each of the sixteen combinations of bits
    let mut met = [0; 16];
    for Input { from, of, .. } in tiny_first::tables(shares(1200, 250, 30, 20)) {
        let raw = RawTable::of(&of);
        if differs(&raw) {
            let text = shrink(&sheet::text(&of), &mut |text| {
                sheet::read(text).is_ok_and(|table| differs(&RawTable::of(&table)))
            });
            let small = RawTable::of(&sheet::read(&text).unwrap());
            panic!("{from}: {}\n{small:?}", first_difference(&small));
        }
        let (_, out) = expected(&raw);
        for t in 0..of.sheet_types {
            for s in 0..of.sheet_types {
                met[usize::from(out[t * MAX_SHEET_TYPES + s])] += 1;
            }
        }
    }
    println!("pairs with each combination of bits: {met:?}");
    // each of the four relations lies within the next, so there are five combinations
    for (bits, count) in met.into_iter().enumerate() {
        let possible = [0, 8, 12, 14, 15].contains(&bits);
        assert_eq!(count > 500, possible, "{count} pairs with bits {bits}");
    }
}

#[test]
fn tables_handed_in() {
    let mut reasons: BTreeMap<Reason, u32> = BTreeMap::new();
    let (mut answered, mut derived) = (0, 0);
    for Input {
        from, of: hostile, ..
    } in tiny_first::states(0..4000)
    {
        let raw = &hostile.state.table;
        if differs(raw) {
            let small = shrink_hostile(&hostile, &mut |other| differs(&other.state.table));
            let raw = &small.state.table;
            panic!("{from}: {}\n{raw:?}", first_difference(raw));
        }
        match check::table(raw) {
            Ok(table) => {
                answered += 1;
                derived += u32::from(table.types.len() > table.sheet_types);
            }
            Err(reason) => *reasons.entry(reason).or_default() += 1,
        }
    }
    println!("answered {answered}, {derived} of them with derived types; refused {reasons:?}");
    assert!(answered > 2000 && derived > 1000);
    // counts, rules and numbers of a table: the other reasons are about states
    assert_eq!(reasons.len(), 19, "{reasons:?}");
    assert!(reasons.values().all(|count| *count >= 5), "{reasons:?}");
}

/// A count that is right only in its low 32 bits, or as large as can be, is outside its limits.
#[test]
fn wide_counts() {
    for Input { from, of, .. } in tiny_first::tables(shares(1, 0, 0, 0)) {
        let raw = RawTable::of(&of);
        assert_eq!(proved(&raw, counts(&raw)).0, 0, "{from}");
        for place in 0..5 {
            for wide in [counts(&raw)[place] + (1 << 32), usize::MAX, 1 << 63] {
                let mut counts = counts(&raw);
                counts[place] = wide;
                let kept = (2, [MARK; PAIRS_LENGTH]);
                assert_eq!(proved(&raw, counts), kept, "{from} {counts:?}");
            }
        }
    }
}
