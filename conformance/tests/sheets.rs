//! Sheet read and Sheet write in the proved core against the reference: number, offset, every byte of the table, every byte of
//! the buffer.

use conformance::inputs::{largest, shares};
use conformance::tiny_first::{self, Input};
use conformance::{counts, derive, layout, read, write, Asked, Counts, Loaded};
use pilgonca::raw::TINY_SHEETS;
use reference::damage::{lines, BYTES, NUMBERS};
use reference::entry;
use reference::random::Random;
use reference::raw::{RawTable, BROADER_LENGTH, TYPES_LENGTH};
use reference::refusal::Refusal;
use reference::sheet;
use reference::shrink::{shrink, shrink_hostile};
use reference::table::MAX_SHEET_TYPES;
use std::collections::BTreeMap;

/// What stands in everything lent before.
const MARK: u8 = 0xa5;
const NUMBER_MARK: usize = 0xa5a5_a5a5_a5a5;

/// What a reading gives: the table, and the offset, with a refusal's number before it.
type Reading = (RawTable, Result<usize, (Refusal, usize)>);

/// The proved core's reading; the bytes of the new table were others before.
fn proved(input: &[u8]) -> Reading {
    let mut loaded = Loaded {
        types: [MARK; TYPES_LENGTH],
        links: [MARK; BROADER_LENGTH],
        counts: [NUMBER_MARK; 5],
        at: NUMBER_MARK,
    };
    let code = read(input, &mut loaded);
    let result = match code {
        0 => Ok(loaded.at),
        _ => Err((code as Refusal, loaded.at)),
    };
    (loaded.table(), result)
}

/// The reference's reading, in bytes by the layout; the offset is 0 where the sheet is accepted, every byte where it is refused.
fn wanted(input: &[u8]) -> Reading {
    match sheet::read(input) {
        Ok(table) => (layout::plain(&table), Ok(0)),
        Err(refusal) => (RawTable::default(), Err(refusal)),
    }
}

fn differs(input: &[u8]) -> bool {
    proved(input) != wanted(input)
}

/// What the readings of a test met: for each number the lines where it was met, by what stands before `=`.
#[derive(Default, Debug)]
struct Seen {
    accepted: u32,
    refused: BTreeMap<(Refusal, String), u32>,
}

impl Seen {
    fn note(&mut self, input: &[u8], result: Result<(), (Refusal, usize)>) {
        let Err((number, at)) = result else {
            self.accepted += 1;
            return;
        };
        let line = input[at..].split(|byte| *byte == b'\n').next();
        let name = line.and_then(|line| line.split(|byte| *byte == b'=').next());
        let mut name = String::from_utf8_lossy(name.unwrap_or_default()).to_string();
        if at == input.len() {
            name = "nothing".to_string();
        } else if !NAMES.contains(&name.as_str()) {
            name = "other".to_string();
        }
        *self.refused.entry((number, name)).or_default() += 1;
    }

    fn count(&self, number: Refusal) -> u32 {
        let of_number = self.refused.iter().filter(|((one, _), _)| *one == number);
        of_number.map(|(_, count)| count).sum()
    }

    /// Every kind of line was refused, for every number that it can be refused with, so often at least.
    fn assert_lines(&self, least: u32) {
        let ranged = [
            "guide", "subjects", "methods", "cats", "under", "types", "type", "cat", "m",
        ];
        let all = NAMES
            .map(|name| (1, name))
            .into_iter()
            .chain([(1, "nothing"), (1, "other")])
            .chain(ranged.map(|name| (2, name)))
            .chain([(3, "under"), (3, "end")]);
        for (number, name) in all {
            let count = self.refused.get(&(number, name.to_string()));
            assert!(count >= Some(&least), "{number} at {name}: {count:?}");
        }
    }
}

/// What stands before `=` in the lines of a sheet.
const NAMES: [&str; 12] = [
    "guide", "subjects", "methods", "cats", "under", "types", "type", "rep", "cat", "own", "m",
    "end",
];

/// One reading, both ways.
fn same(input: &[u8], seen: &mut Seen, from: &str) {
    if differs(input) {
        let small = shrink(input, &mut |other| differs(other));
        panic!(
            "{from}: {:?} for {:?} of\n{}",
            proved(&small),
            wanted(&small),
            String::from_utf8_lossy(&small)
        );
    }
    seen.note(input, sheet::read(input).map(drop));
}

#[test]
fn generated_sheets_are_read() {
    let mut seen = Seen::default();
    for Input { from, of, .. } in tiny_first::tables(shares(3000, 1000, 300, 100)) {
        same(&sheet::text(&of), &mut seen, &from);
    }
    let all = TINY_SHEETS as u32 + 4400;
    assert_eq!((seen.accepted, seen.refused.len()), (all, 0));
}

#[test]
fn damaged_sheets_are_read() {
    let mut seen = Seen::default();
    for Input { from, of, .. } in tiny_first::damaged_sheets(0..40_000) {
        same(&of, &mut seen, &from);
    }
    println!("{seen:?}");
    assert!(seen.accepted > TINY_SHEETS as u32 + 600);
    seen.assert_lines(5);
}

/// A sheet of Case P with two categories.
fn case() -> Vec<u8> {
    let text = include_str!("../../examples/case-p.sheet");
    text.replacen("cats=0\n", "cats=2\nunder=0\nunder=1,0\n", 1)
        .into_bytes()
}

/// Every place of one sheet with another byte, one more or one less; cut at every place, with and without LF; every line lost,
/// doubled, and exchanged with every other; every number replaced.
#[test]
fn every_place_of_a_sheet() {
    let text = case();
    let mut seen = Seen::default();
    same(&text, &mut seen, "case");
    assert_eq!(seen.accepted, 1);
    for at in 0..=text.len() {
        for byte in BYTES {
            let rest = &text[at..];
            same(
                &[&text[..at], &[*byte], rest].concat(),
                &mut seen,
                "byte more",
            );
            let rest = rest.get(1..).unwrap_or_default();
            same(
                &[&text[..at], &[*byte], rest].concat(),
                &mut seen,
                "other byte",
            );
        }
        let rest = text.get(at + 1..).unwrap_or_default();
        same(&[&text[..at], rest].concat(), &mut seen, "byte less");
        same(&text[..at], &mut seen, "cut");
        same(&[&text[..at], b"\n"].concat(), &mut seen, "cut with LF");
    }
    let list = lines(&text);
    for at in 0..list.len() {
        let rest = list[at + 1..].concat();
        same(
            &[list[..at].concat(), rest].concat(),
            &mut seen,
            "line lost",
        );
        let doubled = [list[..=at].concat(), list[at..].concat()].concat();
        same(&doubled, &mut seen, "line doubled");
        for other in 0..at {
            let mut list = list.clone();
            list.swap(at, other);
            same(&list.concat(), &mut seen, "lines exchanged");
        }
        for number in NUMBERS {
            let name = list[at].split(|byte| *byte == b'=').next().unwrap();
            let line = [name, b"=", number.as_bytes(), b"\n"].concat();
            let text = [list[..at].concat(), line, list[at + 1..].concat()].concat();
            same(&text, &mut seen, "other number");
        }
    }
    println!("{seen:?}");
    assert!(seen.accepted > 100 && seen.count(3) > 5);
    assert!(seen.count(1) > 30_000 && seen.count(2) > 500);
}

/// Any bytes, alone and behind the beginning of a right sheet.
#[test]
fn any_bytes_are_read() {
    let mut seen = Seen::default();
    for Input { from, seed, of } in tiny_first::tables(shares(6000, 0, 0, 0)) {
        let mut random = Random::new(seed ^ 0x0a11_0000);
        let text = sheet::text(&of);
        let start = if seed % 3 == 0 {
            0
        } else {
            random.below(text.len() + 1)
        };
        let length = random.below(60);
        let any: Vec<u8> = (0..length)
            .map(|_| match seed % 2 {
                0 => random.below(256) as u8,
                _ => *random.pick(BYTES),
            })
            .collect();
        same(&[&text[..start], &any].concat(), &mut seen, &from);
    }
    println!("{seen:?}");
    assert!(seen.count(1) > 5000 && seen.refused.len() > 12);
}

/// The text with the first `old` replaced.
fn replaced(text: &str, old: &str, new: &str) -> String {
    assert!(text.contains(old), "{old:?} is not there");
    text.replacen(old, new, 1)
}

/// Refusals worked out by hand: Case P with one place changed, and where in the new text the refused line begins.
#[test]
fn refusals_by_hand() {
    let text = String::from_utf8(case()).unwrap();
    let long = "9".repeat(100_000);
    let cases = [
        // form, and the ranges of the counts (S1 to S3, S23)
        ("guide=1", "guide=2", 2, "guide=2"),
        ("guide=1", "guide=01", 1, "guide=01"),
        ("subjects=3", "subjects=17", 2, "subjects="),
        ("subjects=3", "subjects=0", 2, "subjects="),
        ("subjects=3", &format!("subjects={long}"), 2, "subjects="),
        ("subjects=3", &format!("subjects={long}x"), 1, "subjects="),
        (
            "subjects=3",
            "subjects=18446744073709551617",
            2,
            "subjects=",
        ),
        ("subjects=3", "subjects=4294967297", 2, "subjects="),
        ("subjects=3", "subjects=", 1, "subjects="),
        ("subjects=3", "subjects=+3", 1, "subjects="),
        ("methods=3", "methods=17", 2, "methods="),
        ("cats=2", "cats=32", 2, "cats="),
        ("types=6", "types=49", 2, "types="),
        ("types=6", "types=0", 2, "types="),
        // a type out of turn (S30), and a broader category above the last (S12)
        (
            "type=3",
            "type=4",
            2,
            "type=4\nrep=ref\ncat=0\nown=no\nm=avail()0\nm=opt",
        ),
        ("under=0\n", "under=3\n", 2, "under=3"),
        ("under=1,0", "under=0,3", 2, "under=0,3"),
        // a broader category that is not below its own (S12)
        ("under=0\n", "under=1\n", 3, "under=1\n"),
        ("under=0\n", "under=2\n", 3, "under=2"),
        ("under=1,0", "under=1,2", 3, "under=1,2"),
        ("under=1,0", "under=2", 3, "under=2"),
        // in a line the form before ranges, and these before 3 (S5)
        ("under=1,0", "under=9,2", 2, "under=9,2"),
        ("under=1,0", "under=2,9", 2, "under=2,9"),
        ("under=1,0", "under=9,0,0", 1, "under=9,0,0"),
        ("m=avail(0)-", "m=avail(0,0,99)0", 2, "m=avail(0,0,99)0"),
        ("m=avail(0)-", "m=avail(0,0,0,6)-", 2, "m=avail(0,0,0,6)-"),
        ("m=avail(0)-", "m=avail(0,0,0,)-", 1, "m=avail(0,0,0,)-"),
        // one argument too many (S11)
        (
            "m=avail(0)-",
            "m=avail(0,0,0,0,0)-",
            1,
            "m=avail(0,0,0,0,0)-",
        ),
        (
            "m=avail(0)-",
            "m=avail(0,0,0,0,99)0",
            1,
            "m=avail(0,0,0,0,99)0",
        ),
        ("m=avail(0)-", "m=avail(99,0)x", 1, "m=avail(99,0)x"),
        ("m=avail(0)-", "m=avail(6)-", 2, "m=avail(6)-"),
        ("m=avail(0)-", "m=avail(0)6", 2, "m=avail(0)6"),
        ("m=avail(0)-", "m=avail(0,)-", 1, "m=avail(0,)-"),
        ("m=avail(0)-", "m=avail(0)", 1, "m=avail(0)\n"),
        ("rep=w32", "rep=w16", 1, "rep=w16"),
        ("cat=0", "cat=3", 2, "cat=3"),
        ("own=no", "own=maybe", 1, "own=maybe"),
        // lines that are missing, too many, or without LF (S7 to S10)
        ("own=no\n", "", 1, "m=avail()0"),
        ("end=sheet\n", "end=sheet", 1, "end=sheet"),
        ("end=sheet\n", "", 1, ""),
        ("end=sheet\n", "end=sheet\nx", 1, "x"),
        ("end=sheet\n", "end=sheet\n\n", 1, "\n"),
        ("end=sheet\n", "end=sheet \n", 1, "end=sheet \n"),
        (
            "m=avail()-\n",
            "m=avail()-\nm=denied\n",
            1,
            "m=denied\ntype=2",
        ),
        // own in a signature, where every line is right (S6, S13)
        ("m=avail()0", "m=avail()4", 3, "end=sheet\n"),
        ("m=optional(0)-", "m=optional(0,4)-", 3, "end=sheet\n"),
        ("m=optional(0)-", "m=optional(0,0,4)-", 3, "end=sheet\n"),
        ("m=optional(0)-", "m=optional(0,0,0,4)-", 3, "end=sheet\n"),
    ];
    for (old, new, number, line) in cases {
        let text = replaced(&text, old, new);
        let at = match line {
            "" => text.len(),
            "\n" => text.len() - 1,
            "x" => text.len() - 1,
            _ => text.find(line).unwrap(),
        };
        let expected = (RawTable::default(), Err((number, at)));
        assert!(
            proved(text.as_bytes()) == expected,
            "{old:?} as {new:.30?}: {:?}",
            proved(text.as_bytes()).1
        );
        same(text.as_bytes(), &mut Seen::default(), new);
    }
    // own in a signature, and an extra line
    let own = replaced(&text, "m=avail()0", "m=avail()4");
    let extra = format!("{own}end=sheet\n");
    assert_eq!(proved(extra.as_bytes()).1, Err((1, own.len())));
    assert_eq!(proved(b"").1, Err((1, 0)));
    assert_eq!(proved(b"\n").1, Err((1, 0)));
}

/// At the limits: 16 subjects, 16 methods, 31 categories and 48 types; one of each and no category.
#[test]
fn largest_and_smallest() {
    let mut seen = Seen::default();
    let text = sheet::text(&largest());
    same(&text, &mut seen, "largest");
    assert!(text.len() > 16_000, "{}", text.len());
    same(
        b"guide=1\nsubjects=1\nmethods=1\ncats=0\ntypes=1\ntype=0\nrep=w64\ncat=0\nend=sheet\n",
        &mut seen,
        "smallest",
    );
    assert_eq!(seen.accepted, 2);
    // every type of a full sheet named where it can be
    let text = String::from_utf8(text).unwrap();
    for named in 0..MAX_SHEET_TYPES + 2 {
        for line in [
            format!("m=optional({named},45,46,47)43\n"),
            format!("m=optional(44,45,46,{named})43\n"),
            format!("m=optional(44,45,46,47){named}\n"),
        ] {
            let other = replaced(&text, "m=optional(44,45,46,47)43\n", &line);
            same(other.as_bytes(), &mut seen, &line);
        }
    }
    // 0 and 1 have own; 48 and 49 are no types
    let met = (seen.accepted, seen.count(2), seen.count(3));
    assert_eq!(met, (2 + 3 * 46, 6, 6));
}

// ---- writing

/// What a writing gives: the answer, the length stored or not, and the buffer.
fn written(raw: &RawTable, counts: Counts, size: usize) -> (usize, usize, Vec<u8>) {
    let mut buffer = vec![MARK; size];
    let mut length = NUMBER_MARK;
    let code = write(raw, counts, &mut buffer, &mut length);
    (code, length, buffer)
}

/// The same of the reference.
fn expected(raw: &RawTable, size: usize) -> (usize, usize, Vec<u8>) {
    let mut buffer = vec![MARK; size];
    match entry::write(raw, &mut buffer) {
        Ok(length) => (0, length, buffer),
        Err(refusal) => (refusal as usize, NUMBER_MARK, vec![MARK; size]),
    }
}

/// The first size of a buffer, around the length of the text, with which the two differ.
fn differing_size(raw: &RawTable) -> Option<usize> {
    let mut large = vec![0; 20_000];
    let length = entry::write(raw, &mut large).unwrap_or(100);
    [
        0,
        1,
        length / 2,
        length - 1,
        length,
        length + 1,
        length + 37,
        20_000,
    ]
    .into_iter()
    .find(|size| written(raw, counts(raw), *size) != expected(raw, *size))
}

/// One writing, both ways, into short, exact and longer buffers.
fn same_text(raw: &RawTable, from: &str) {
    if let Some(size) = differing_size(raw) {
        let (code, length, buffer) = written(raw, counts(raw), size);
        let (wanted, wanted_length, text) = expected(raw, size);
        panic!(
            "{from}, buffer of {size}: {code} and {length} for {wanted} and {wanted_length}\n{}\nfor\n{}",
            String::from_utf8_lossy(&buffer),
            String::from_utf8_lossy(&text)
        );
    }
}

/// What was read is written as the same bytes, with types derived in between too.
#[test]
fn sheets_are_written_as_they_were_read() {
    let mut derivations = 0;
    for Input { from, seed, of } in tiny_first::tables(shares(1500, 500, 150, 50)) {
        let text = sheet::text(&of);
        let mut raw = proved(&text).0;
        same_text(&raw, &from);
        assert_eq!(
            written(&raw, counts(&raw), text.len()),
            (0, text.len(), text.clone())
        );
        derivations += derive_some(&mut raw, seed);
        same_text(&raw, &from);
        assert_eq!(
            written(&raw, counts(&raw), text.len()),
            (0, text.len(), text)
        );
    }
    println!("{derivations} derived types were not written");
    assert!(derivations > 4000);
}

/// Derives a few types in the proved core; gives how many.
fn derive_some(raw: &mut RawTable, seed: u64) -> u32 {
    let mut random = Random::new(seed ^ 0x0de4_0000);
    let before = raw.types;
    for kind in [0, 1, 2, 2] {
        let mut any = || random.below(raw.types as usize) as i64;
        let asked = Asked {
            kind,
            t: any(),
            s: any(),
        };
        let mut counts = counts(raw);
        // a full table stays as it is
        let _ = derive(raw, &mut counts, asked, &mut 0);
        raw.types = counts[4] as u32;
    }
    raw.types - before
}

/// The tiny sheets, damaged ones that are accepted all the same, and the largest.
#[test]
fn odd_sheets_are_written_as_they_were_read() {
    let mut accepted = 0;
    let odd = tiny_first::damaged_sheets(0..8000)
        .map(|sheet| sheet.of)
        .filter(|text| sheet::read(text).is_ok());
    for text in odd.chain([sheet::text(&largest())]) {
        let raw = proved(&text).0;
        same_text(&raw, "odd sheet");
        assert_eq!(written(&raw, counts(&raw), text.len()).2, text);
        accepted += 1;
    }
    println!("{accepted} odd sheets");
    assert!(accepted > TINY_SHEETS + 150);
}

#[test]
fn tables_handed_in_are_written_or_refused() {
    let (mut accepted, mut refused) = (0, 0);
    for Input {
        from, of: hostile, ..
    } in tiny_first::states(0..2500)
    {
        let raw = &hostile.state.table;
        if differing_size(raw).is_some() {
            let small = shrink_hostile(&hostile, &mut |other| {
                differing_size(&other.state.table).is_some()
            });
            same_text(
                &small.state.table,
                &format!("{from}\n{:?}", small.state.table),
            );
        }
        match written(raw, counts(raw), 0).0 {
            2 => refused += 1,
            _ => accepted += 1,
        }
    }
    println!("{accepted} tables written, {refused} refused");
    assert!(accepted > 1500 && refused > 400);
}

/// A count that is right only in its low 32 bits, or as large as can be, is outside its limits: 2 before 4.
#[test]
fn wide_counts() {
    for Input { from, of, .. } in tiny_first::tables(shares(0, 0, 1, 0)) {
        let raw = RawTable::of(&of);
        for place in 0..5 {
            for wide in [counts(&raw)[place] + (1 << 32), usize::MAX, 1 << 63] {
                let mut counts = counts(&raw);
                counts[place] = wide;
                for size in [0, 20_000] {
                    let kept = (2, NUMBER_MARK, vec![MARK; size]);
                    assert!(written(&raw, counts, size) == kept, "{from} {counts:?}");
                }
            }
        }
    }
}
