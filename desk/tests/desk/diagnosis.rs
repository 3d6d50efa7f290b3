//! What is said of a refused sheet fits the core's number and offset, for every small damage to examples and for generated sheets.

use crate::damage::damaged;
use crate::files::read;
use conformance::tiny_first;
use desk::diagnosis::diagnose;
use desk::names::Names;
use desk::scripts::requests::split;
use pilgonca::raw::TINY_SHEETS;
use pilgonca::{Sheet, SheetRefused};
use reference::generators::Profile;

/// How often each number was met; 0 stands for accepted.
type Counts = [usize; 4];

/// The line at an offset, without its LF, and its number from 1 on.
fn line_at(text: &[u8], offset: usize) -> (&[u8], usize) {
    let rest = &text[offset..];
    let length = rest.iter().position(|byte| *byte == b'\n');
    let number = text[..offset].iter().filter(|byte| **byte == b'\n').count() + 1;
    (&rest[..length.unwrap_or(rest.len())], number)
}

fn fits(text: &[u8], counts: &mut Counts) {
    let Err(SheetRefused { refusal, offset }) = Sheet::read(text) else {
        counts[0] += 1;
        return;
    };
    let number = refusal.number();
    counts[usize::from(number)] += 1;
    let shown = String::from_utf8_lossy(text);
    let found = diagnose(text, number, offset, &Names::default());
    let found = found.unwrap_or_else(|| panic!("{number} at {offset} has no words: {shown}"));
    let (line, line_number) = line_at(text, offset);
    if line == b"end=sheet" && number == 3 {
        // an own type in a signature, which stands on a line further up
        assert!(found.line_number < line_number, "{shown}");
        assert!(found.line.starts_with(b"m="), "{shown}");
    } else {
        assert_eq!(
            (found.line, found.line_number),
            (line, line_number),
            "{shown}"
        );
    }
    let mark = &found.flaw.mark;
    assert!(
        mark.start <= mark.end && mark.end <= found.line.len(),
        "{mark:?}: {shown}"
    );
    assert!(!found.flaw.wrong.is_empty() && !found.right.is_empty());
    is_no_rule(&found.flaw.wrong);
}

/// What is wrong is told, and not what would be right everywhere: that stands behind `right:`.
pub fn is_no_rule(wrong: &str) {
    for rule in [
        " or ",
        " at most",
        " may ",
        " has no ",
        " have no ",
        "lines end",
        "every line",
        "they are",
        "allowed",
        "only ",
        " are\n",
    ] {
        assert!(!wrong.contains(rule), "{rule:?}: {wrong}");
    }
    assert!(
        !wrong.ends_with(" are") && !wrong.ends_with(" is"),
        "{wrong}"
    );
}

/// Every number is met, and damage that leaves a sheet right is rare.
fn enough(counts: &Counts, least: usize) {
    println!("accepted, 1, 2, 3: {counts:?}");
    assert!(counts.iter().all(|count| *count >= least), "{counts:?}");
}

#[test]
fn every_small_damage_has_words() {
    let mut counts = [0; 4];
    for name in [
        "examples/case-p.sheet",
        "examples/categories.sheet",
        "examples/refused-own-in-signature.sheet",
    ] {
        let text = read(name);
        damaged(&text).for_each(|text| fits(&text, &mut counts));
    }
    enough(&counts, 50);
}

#[test]
fn generated_sheets_have_words() {
    let mut counts = [0; 4];
    for script in tiny_first::scripts(&[(Profile::Damaged, 3000)]) {
        fits(&script.of, &mut counts);
        fits(split(&script.of).0, &mut counts);
    }
    // each tiny sheet is accepted as it is, and stands for a script and for its sheet
    counts[0] -= 2 * TINY_SHEETS;
    enough(&counts, 20);
}

/// Line 7 of a sheet with three categories is `under=1,2`, line 15 `own=no`, line 16 an m= line; what each is changed to, the part of it that is
/// marked, and words that are said.
const WORDS: [(usize, &str, &str, &str); 26] = [
    (1, "guide=2", "2", "there is no form 2 of a sheet"),
    (
        2,
        "subjects=007",
        "007",
        "a zero stands in front of the number",
    ),
    (2, "subjects=17", "17", "17 is too many subjects"),
    (2, "subjects=0", "0", "0 is too few subjects"),
    (3, "methods=+1", "+", "a sign stands in front of the number"),
    (3, "methods=x", "x", "this is no number"),
    (4, "cats=3 ", " ", "a space stands at the end"),
    (
        4,
        "cats=99999999999999999999",
        "99999999999999999999",
        "a number past 64 bits is too many categories",
    ),
    (
        7,
        "under=0,1,2",
        ",2",
        "a third broader category stands here",
    ),
    (
        7,
        "under=0,3",
        "3",
        "category 3 is given here as broader than itself",
    ),
    (7, "under=9,3", "9", "9 names no category of this sheet"),
    (9, "type=3", "3", "type 3 begins here, and type 0 is next"),
    (15, "own=yes\r", "\r", "the line ends with CR LF"),
    (15, "own=maybe", "maybe", "maybe is no word of this line"),
    (
        15,
        "end=sheet",
        "end=sheet",
        "where the own= line of type 1 is due",
    ),
    (
        16,
        "m=avail(0,0,0,0,0)0",
        ",0",
        "one argument too many stands here",
    ),
    (
        16,
        "m=avail(0,0,99)0",
        "99",
        "99 names no type of this sheet",
    ),
    (16, "m=avail(0,0,0;0)0", ";0", "no ) stands here"),
    (16, "m=avail(0;0)0", ";0", "no ) stands here"),
    (16, "m=avail()", "", "the answer is missing"),
    (16, "m=optional", "", "the signature is missing"),
    (16, "m=denied()-", "()-", "a signature stands behind denied"),
    (
        16,
        "m=allowed",
        "allowed",
        "allowed is no word of this line",
    ),
    (16, "m=", "", "no word stands here, behind the ="),
    (16, "m=avail(0)99", "99", "99 names no type of this sheet"),
    (
        18,
        "m=denied",
        "m=denied",
        "an m= line for each method already",
    ),
];

#[test]
fn the_words_are_those_for_the_fault() {
    let text = read("examples/categories.sheet");
    for (number, line, marked, said) in WORDS {
        let mut lines: Vec<&[u8]> = text.split_inclusive(|byte| *byte == b'\n').collect();
        let changed = format!("{line}\n");
        lines[number - 1] = changed.as_bytes();
        let text = lines.concat();
        let refused = Sheet::read(&text).expect_err("it is refused");
        let found = diagnose(&text, refused.number(), refused.offset, &Names::default());
        let found = found.expect("it has words");
        let mark = &found.line[found.flaw.mark.clone()];
        assert_eq!(
            (found.line_number, mark),
            (number, marked.as_bytes()),
            "{line}"
        );
        assert!(
            found.flaw.wrong.contains(said),
            "{line}: {}",
            found.flaw.wrong
        );
    }
}
