//! Every tiny sheet (P21 to P25), held against the rules by other ways: a count from the words of
//! lines, and all texts of a larger space.

use reference::generators::on_tiny;
use reference::pairs;
use reference::script;
use reference::sheet;
use reference::tiny;
use std::collections::BTreeSet;

/// What a method line may say, in the order of P23, and what of it is left with own=yes.
const WORDS: [&str; 10] = [
    "denied",
    "unavail",
    "avail()-",
    "avail()0",
    "avail(0)-",
    "avail(0)0",
    "optional()-",
    "optional()0",
    "optional(0)-",
    "optional(0)0",
];
const WITH_OWN: [&str; 4] = ["denied", "unavail", "avail()-", "optional()-"];

fn words_of(own: &str) -> &'static [&'static str] {
    if own == "yes" {
        &WITH_OWN
    } else {
        &WORDS
    }
}

/// A text with these method lines, a tiny sheet if there are one or two and each is of the words.
fn text(own: &str, words: &[&str]) -> String {
    let count = words.len();
    let lines: String = words.iter().map(|word| format!("m={word}\n")).collect();
    format!(
        "guide=1\nsubjects=1\nmethods={count}\ncats=0\ntypes=1\n\
        type=0\nrep=ref\ncat=0\nown={own}\n{lines}end=sheet\n"
    )
}

/// P25.
#[test]
fn as_many_as_the_paper_says() {
    let tables = tiny::tables();
    let with = |methods| tables.iter().filter(|one| one.methods == methods).count();
    assert_eq!([with(1), with(2), tables.len()], [14, 116, 130]);
    assert_eq!(tiny::printed().len(), 13_659);
}

/// P25: each is read as the table that it is of, and written back as it was; no two are equal.
#[test]
fn each_is_read_and_written_back() {
    let printed = tiny::printed();
    let sheets = tiny::split(&printed);
    assert_eq!(sheets, tiny::texts());
    for (sheet, table) in sheets.iter().zip(tiny::tables()) {
        assert!(tiny::is_tiny(&table));
        assert_eq!(sheet::text(&table), *sheet);
        assert_eq!(sheet::read(sheet), Ok(table));
    }
    assert_eq!(sheets.iter().collect::<BTreeSet<_>>().len(), sheets.len());
}

/// P24: the place of a sheet, counted from its lines.
fn rank(sheet: &str) -> usize {
    let behind = |key| sheet.lines().filter_map(move |line| line.strip_prefix(key));
    let own = behind("own=").next().unwrap();
    let words = words_of(own);
    let digit = |word: &str| words.iter().position(|one| *one == word).unwrap();
    let digits: Vec<usize> = behind("m=").map(digit).collect();
    let before = match (digits.len(), own) {
        (1, "no") => 0,
        (1, "yes") => 10,
        (2, "no") => 10 + 4,
        (2, "yes") => 10 + 4 + 10 * 10,
        _ => panic!("{sheet}"),
    };
    let number = digits
        .iter()
        .fold(0, |number, digit| number * words.len() + digit);
    before + number
}

#[test]
fn each_has_its_place() {
    for (place, sheet) in tiny::texts().into_iter().enumerate() {
        let sheet = String::from_utf8(sheet).unwrap();
        assert_eq!(rank(&sheet), place, "{sheet}");
    }
}

/// What a method line might say: each state, without a signature and with each of up to two arguments
/// and an answer of types 0 and 1.
fn pool() -> Vec<String> {
    let mut pool = Vec::new();
    for state in ["denied", "unavail", "avail", "optional"] {
        pool.push(state.to_string());
        for arguments in ["", "0", "1", "0,0", "0,1", "1,0", "1,1"] {
            for answer in ["-", "0", "1"] {
                pool.push(format!("{state}({arguments}){answer}"));
            }
        }
    }
    pool
}

/// Texts with one and two lines of the pool, and with three of the words above; and one of a number type.
fn candidates() -> Vec<String> {
    let pool = pool();
    let number = "methods=1\ncats=0\ntypes=1\ntype=0\nrep=w32\ncat=0\nend=sheet\n";
    let mut texts = vec![format!("guide=1\nsubjects=1\n{number}")];
    for own in ["no", "yes"] {
        for first in &pool {
            texts.push(text(own, &[first]));
            for second in &pool {
                texts.push(text(own, &[first, second]));
            }
        }
        for first in WORDS {
            for second in WORDS {
                texts.extend(WORDS.map(|third| text(own, &[first, second, third])));
            }
        }
    }
    texts
}

/// Changes to other lines: a text that has one is refused, or not tiny.
const CHANGES: [&[(&str, &str)]; 12] = [
    &[],
    &[("guide=1", "guide=2")],
    &[("subjects=1", "subjects=0")],
    &[("subjects=1", "subjects=2")],
    &[("methods=1", "methods=2")],
    &[("methods=2", "methods=1")],
    &[("methods=2", "methods=3")],
    &[("cats=0", "cats=1\nunder=0")],
    &[("types=1", "types=2")],
    &[
        ("types=1", "types=2"),
        ("end=", "type=1\nrep=w32\ncat=0\nend="),
    ],
    &[("rep=ref", "rep=w64")],
    &[("cat=0", "cat=1")],
];

/// P22, from the lines of a text that the reader accepts.
fn says_tiny(text: &str) -> bool {
    let has = |line: &str| text.lines().any(|one| one == line);
    let lines = ["subjects=1", "cats=0", "types=1", "rep=ref"];
    let methods = has("methods=1") || has("methods=2");
    lines.into_iter().all(has) && methods && !text.contains(',')
}

/// The texts with each change; a change of a line that a text does not have gives none that is new.
fn changed() -> BTreeSet<String> {
    let with = |text: String, changes: &[(&str, &str)]| {
        let change = |text: String, (old, new): &(&str, &str)| text.replacen(old, new, 1);
        changes.iter().fold(text, change)
    };
    let all = candidates().into_iter();
    all.flat_map(|text| CHANGES.map(|changes| with(text.clone(), changes)))
        .collect()
}

/// P25: of all those texts the tiny sheets are the ones that are printed.
#[test]
fn every_one_is_there() {
    let tried = changed();
    let mut accepted = 0;
    let mut found = BTreeSet::new();
    for text in &tried {
        let Ok(table) = sheet::read(text.as_bytes()) else {
            continue;
        };
        accepted += 1;
        assert_eq!(tiny::is_tiny(&table), says_tiny(text), "{text}");
        if tiny::is_tiny(&table) {
            found.insert(text.clone().into_bytes());
        }
    }
    let (one, two) = (2 * 88, 2 * 88 * 88);
    let all = 1 + one + two + 2 * 1000;
    // all of them with eight of the changes, and all but that of a number type with `rep=w64`; then
    // with another count of methods, once where it was 1 and twice where it was 2
    assert_eq!(tried.len(), 9 * all - 1 + (1 + one) + 2 * two);
    // as they are, with two subjects and with a category; with another type; of a number type
    assert_eq!(accepted, 3 * 1_294 + 3_254 + 5);
    assert_eq!(found, tiny::texts().into_iter().collect());
}

/// P15, P17: alone a tiny sheet prints nothing, and its type is related to itself. P11, S10: another one
/// behind it is malformed.
#[test]
fn other_programs_on_tiny_sheets() {
    for sheet in tiny::texts() {
        assert_eq!(script::run(&sheet), b"");
        assert_eq!(pairs::run(&sheet), b"0 0 1 1 1 1\n");
    }
    let printed = tiny::printed();
    let first = tiny::split(&printed)[0];
    assert_eq!(script::run(&printed), b"no=1\n");
    assert_eq!(sheet::read(&printed), Err((1, first.len())));
}

/// A reference crosses from the one type to itself: no type is derived, no adapter made, and no
/// refusal is one of a crossing. Without a class (T16) nothing is accepted.
#[test]
fn requests_on_tiny_sheets() {
    let mut refused = BTreeSet::new();
    let mut classes = 0;
    for (table, input) in tiny::tables().into_iter().zip(on_tiny(0)) {
        let run = script::run_whole(&input);
        assert!(!run.requests.is_empty());
        let state = run.model.unwrap().state;
        assert_eq!(state.table, table);
        assert!((0..state.places.len()).all(|place| state.stack(place).0.is_empty()));
        let is_class = table.is_sheet_class(0);
        classes += usize::from(is_class);
        assert_eq!(run.results.iter().any(Result::is_ok), is_class);
        refused.extend(run.results.into_iter().filter_map(Result::err));
    }
    // one method: unavail and four avail
    assert_eq!(classes, 5 + 5 * 5);
    assert_eq!(refused, [5, 6, 7, 14, 15, 17].into());
}
