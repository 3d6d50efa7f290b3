//! cargo run --profile speed -p bench: the proved core against safe Rust of the same algorithm, in one run.
//! Prints tables of times and ratios (proved time over Rust time): below 1 the proved core is faster. A ratio is the median of seven, both
//! sides in turn. There are two, to safe Rust that works on a copy and to safe Rust in place (`measure::in_place`); one of the first above 1
//! is marked. Sheets are read and written in one way only, and marks are held against arrivals in one: there the two columns are the same
//! measured twice.
//! With the argument `requests`, `calls`, `scripts`, `sheets`, `tables` or `doors` it measures these alone.

mod calls;
mod doors;
mod fits;
mod heavy;
mod measure;
mod requests;
mod restriction;
mod scenes;
mod scripts;
mod search;
mod served;
mod sheets;
mod tiny;

use conformance::inputs::{with_48_types, worst};
use conformance::{chains, compare, counts, Asked, Loaded, PAIRS_LENGTH};
use measure::{head, ratio};
use pilgonca::raw::{self, TINY_BYTES, TINY_SHEETS};
use reference::raw::{RawTable, BROADER_LENGTH, TYPES_LENGTH};
use reference::refusal::Refusal;
use reference::relations::RELATIONS;
use reference::sheet;
use reference::table::MAX_CATEGORIES;
use std::hint::black_box;

/// Compare at one pair of a table, both ways: the same answer, which is returned, and the ratio of their times.
fn measure(name: &str, table: &RawTable, t: usize, s: usize) -> Result<[bool; 4], Refusal> {
    let answer = search::compare(table, t, s);
    let expected = answer.map_err(|refusal| refusal as usize);
    assert_eq!(compare(table, t as i64, s as i64), expected);
    ratio(
        name,
        || {
            let _ = black_box(compare(black_box(table), t as i64, s as i64));
        },
        || {
            let _ = black_box(search::compare(black_box(table), t, s));
        },
    );
    answer
}

/// The table with derived types of its pairs, as many as there is room for.
fn grown(mut table: RawTable) -> RawTable {
    for (t, s, kind) in (0..128 * 128 * 2).map(|n| (n / 256, n / 2 % 128, n % 2)) {
        if t.max(s) < table.types as usize {
            // what is full or known adds nothing
            let _ = restriction::derive(&mut table, kind, t, s);
        }
    }
    assert_eq!(table.types, 128);
    table
}

fn comparisons() {
    let random = RawTable::of(&with_48_types());
    for (t, s) in [(1, 2), (5, 9), (20, 31)] {
        let name = format!("compare, 48 generated types, pair {t} {s}");
        let _ = measure(&name, &random, t, s);
    }
    let random = grown(random);
    for (t, s) in [(1, 2), (60, 100), (127, 48)] {
        let name = format!("compare, 128 generated types, pair {t} {s}");
        let _ = measure(&name, &random, t, s);
    }
    worst_comparison("48 types, every pair reached", &worst(48, 0));
    worst_comparison("128 types, every pair reached", &worst(128, 0));
    worst_comparison(
        "128 types, every pair reached, 31 categories",
        &worst(128, MAX_CATEGORIES),
    );
}

/// Compare where every pair is reached, in each of the four relations.
fn worst_comparison(name: &str, table: &RawTable) {
    let count = table.types as usize;
    let (t, s) = (count - 2, count - 1);
    for relation in RELATIONS {
        let pairs = search::reached(table, relation, t, s);
        assert_eq!(pairs, Some(count * count), "{name}");
    }
    let answer = measure(&format!("compare, {name}"), table, t, s);
    assert_eq!(answer, Ok([true; 4]), "{name}");
}

/// The pair table, all of whose bytes have to be the same.
fn pair_table(name: &str, table: &RawTable) {
    let (mut theirs, mut ours) = ([0; PAIRS_LENGTH], [1; PAIRS_LENGTH]);
    let mut proved = || conformance::pairs(black_box(table), counts(table), &mut theirs);
    let mut rust = || search::pairs(black_box(table), &mut ours);
    assert_eq!((proved(), rust()), (0, 0));
    ratio(
        &format!("pair table, {name}"),
        || {
            black_box(proved());
        },
        || {
            black_box(rust());
        },
    );
    assert!(theirs == ours, "the pair tables differ");
}

/// Where sheets are read to, filled with something else.
fn unread() -> Loaded {
    Loaded {
        types: [1; TYPES_LENGTH],
        links: [1; BROADER_LENGTH],
        counts: [1; 5],
        at: 1,
    }
}

/// Both readings of a text have to give the same number, offset and table; the number is returned.
fn same_reading(text: &[u8]) -> usize {
    let (mut loaded, mut table) = (unread(), RawTable::default());
    let code = conformance::read(text, &mut loaded);
    let result = sheets::read(text, &mut table);
    assert_eq!(
        code as Refusal,
        result.map_or_else(|refusal| refusal.0, |()| 0)
    );
    assert!(result.is_ok() || result == Err((code as Refusal, loaded.at)));
    assert!(loaded.table() == table, "the tables differ");
    code
}

fn reading(name: &str, text: &[u8]) {
    let code = same_reading(text);
    let (mut loaded, mut table) = (unread(), RawTable::default());
    ratio(
        &format!("read, {name}, {} bytes, answer {code}", text.len()),
        || {
            black_box(conformance::read(black_box(text), &mut loaded));
        },
        || {
            let _ = black_box(sheets::read(black_box(text), &mut table));
        },
    );
}

/// Writing a sheet's table, which has to give back its text.
fn writing(name: &str, text: &[u8]) {
    let mut table = RawTable::default();
    assert_eq!(sheets::read(text, &mut table), Ok(()));
    let (mut theirs, mut ours) = (vec![0; text.len()], vec![0; text.len()]);
    let mut length = 0;
    let mut proved =
        || conformance::write(black_box(&table), counts(&table), &mut theirs, &mut length);
    let mut rust = || sheets::write(black_box(&table), &mut ours);
    assert_eq!((proved(), rust()), (0, Ok(text.len())));
    ratio(
        &format!("write, {name}"),
        || {
            black_box(proved());
        },
        || {
            let _ = black_box(rust());
        },
    );
    assert!(length == text.len() && theirs == text && ours == text);
}

/// All tiny sheets, whose bytes have to be the same.
fn tiny_sheets() {
    let (mut theirs, mut ours, mut length) = ([0; TINY_BYTES], [1; TINY_BYTES], 0);
    assert_eq!(raw::tiny(&mut theirs, &mut length), 0);
    assert_eq!(tiny::write(&mut ours), Ok(length));
    assert!(theirs == ours, "the tiny sheets differ");
    ratio(
        &format!("tiny, all {TINY_SHEETS} sheets"),
        || {
            black_box(raw::tiny(black_box(&mut theirs), &mut length));
        },
        || {
            let _ = black_box(tiny::write(black_box(&mut ours)));
        },
    );
}

/// A sheet refused at its very end: the LF of the last line is missing.
fn without_end(text: &[u8]) -> &[u8] {
    &text[..text.len() - 1]
}

/// A derivation, each time on the table as it was first; both have to give the same number and types.
fn derivation(name: &str, table: &RawTable, (kind, t, s): (usize, i64, i64)) {
    let asked = Asked { kind, t, s };
    let (mut number, mut now) = (0, counts(table));
    let (mut theirs, mut ours) = (table.clone(), table.clone());
    let code = conformance::derive(&mut theirs, &mut now, asked, &mut number);
    let result = restriction::derive(&mut ours, kind, t as usize, s as usize);
    assert_eq!((code, Ok(number), now), (0, result, counts(&ours)));
    assert!(theirs.type_bytes == ours.type_bytes, "the types differ");
    let new = ours.types - table.types;
    ratio(
        &format!("derive, {name}, {new} new types"),
        || {
            theirs.type_bytes = table.type_bytes;
            let mut counts = counts(table);
            black_box(conformance::derive(
                &mut theirs,
                &mut counts,
                asked,
                &mut number,
            ));
        },
        || {
            ours.type_bytes = table.type_bytes;
            ours.types = table.types;
            let _ = black_box(restriction::derive(&mut ours, kind, t as usize, s as usize));
        },
    );
}

fn derivations() {
    let (chain, _) = chains::deepest();
    derivation("nested 119 deep", &chain, chains::START);
    let mut full = chain.clone();
    let (kind, t, s) = chains::START;
    let known = restriction::derive(&mut full, kind, t as usize, s as usize);
    assert_eq!(known, Ok(9));
    derivation("known in a full table", &full, chains::START);
    let random = RawTable::of(&with_48_types());
    let new_types = |(kind, t, s): (usize, i64, i64)| {
        let mut after = random.clone();
        let number = restriction::derive(&mut after, kind, t as usize, s as usize);
        number.map_or(0, |_| after.types - random.types)
    };
    let most = (0..48 * 48)
        .map(|pair| (0, pair / 48, pair % 48))
        .max_by_key(|asked| new_types(*asked));
    derivation("48 generated types", &random, most.expect("a pair"));
}

/// Reading, refusing and writing sheets, and the tiny ones.
fn all_sheets(generated: &[u8]) {
    head("sheets");
    let example = include_bytes!("../../examples/types-48.sheet");
    for (name, text) in [
        ("48 generated types", generated),
        ("examples/types-48.sheet", &example[..]),
    ] {
        reading(name, text);
        reading(&format!("{name} without its last LF"), without_end(text));
        writing(name, text);
    }
    tiny_sheets();
}

/// Compare, the pair table and derivations on tables.
fn all_tables(table: &RawTable) {
    head("tables");
    comparisons();
    pair_table("48 generated types", table);
    derivations();
}

fn main() {
    let asked = std::env::args().nth(1);
    let wanted = |part: &str| asked.as_deref().is_none_or(|asked| asked == part);
    let random = with_48_types();
    if wanted("requests") {
        served::all();
    }
    if wanted("calls") {
        calls::all();
    }
    if wanted("scripts") {
        scripts::all();
    }
    if wanted("sheets") {
        all_sheets(&sheet::text(&random));
    }
    if wanted("tables") {
        all_tables(&RawTable::of(&random));
    }
    if wanted("doors") {
        doors::all();
    }
    measure::end();
}

#[cfg(test)]
mod tests {
    use super::*;
    use conformance::tiny_first;
    use reference::refusal::OUT_OF_RANGE;

    /// What is measured against refuses what the proved core refuses, so that both do the same work.
    #[test]
    fn sheets_and_tables_are_refused_alike() {
        let mut read = [0; 4];
        let mut sheets = tiny_first::damaged_sheets(0..3000);
        for tiny in sheets.by_ref().take(TINY_SHEETS) {
            assert_eq!(same_reading(&tiny.of), 0, "{}", tiny.from);
        }
        for sheet in sheets {
            read[same_reading(&sheet.of)] += 1;
        }
        assert!(read.iter().all(|count| *count > 50), "{read:?}");
        let mut unfit = 0;
        for hostile in tiny_first::states(0..1000) {
            let table = hostile.of.state.table;
            let refused = compare(&table, 0, 0) == Err(OUT_OF_RANGE as usize);
            assert_eq!(fits::table(&table), !refused, "{}", hostile.from);
            unfit += u32::from(refused);
        }
        assert!((100..900).contains(&unfit), "{unfit}");
    }
}
