//! The headers in include/ and the declarations of the crate say what the Rattle source says: names, parameters in order, widths, constness, lengths of arrays,
//! numbers.

mod declarations;

use declarations::{between, rust_functions, Functions, Header, Passed};
use pilgonca::{raw, saved, Refusal};
use std::path::{Path, PathBuf};

fn root() -> PathBuf {
    Path::new(env!("CARGO_MANIFEST_DIR")).join("..")
}

fn read(path: &Path) -> String {
    std::fs::read_to_string(path).unwrap_or_else(|error| panic!("{}: {error}", path.display()))
}

fn header() -> Header {
    Header::of(&read(&root().join("include/pilgonca.h")))
}

/// Both headers, as the one for tools takes the other in.
fn with_tools() -> Header {
    let names = ["include/pilgonca.h", "include/pilgonca_tools.h"];
    Header::of(&names.map(|name| read(&root().join(name))).concat())
}

/// The Rattle source of a crate, all files of it.
fn source(name: &str) -> String {
    let folder = root().join("crates").join(name).join("src");
    let files = std::fs::read_dir(&folder).unwrap_or_else(|error| panic!("{name}: {error}"));
    let paths = files.map(|entry| entry.expect("an entry").path());
    let rattle = paths.filter(|path| path.extension().is_some_and(|end| end == "rt"));
    rattle.map(|path| read(&path)).collect()
}

/// The value of a constant of a crate, a count or a word without a sign.
fn constant(name: &str, constant: &str) -> usize {
    let source = source(name);
    let mut found = ["usize", "u64"]
        .iter()
        .filter_map(|width| between(&source, &format!("const {constant}: {width} = "), ";"));
    let (value, _) = found
        .next()
        .unwrap_or_else(|| panic!("{name} has no {constant}"));
    value_of(name, value)
}

/// What sums and products of numbers and constants come to; only a sum in front of a product stands in brackets.
fn value_of(name: &str, text: &str) -> usize {
    let bracket = text
        .strip_prefix('(')
        .and_then(|rest| rest.split_once(") * "));
    if let Some((sum, factor)) = bracket {
        return value_of(name, sum) * value_of(name, factor);
    }
    if let Some((left, right)) = text.split_once(" + ") {
        return value_of(name, left) + value_of(name, right);
    }
    if let Some((left, right)) = text.split_once(" * ") {
        return value_of(name, left) * value_of(name, right);
    }
    match text.split_once("::") {
        Some((owner, word)) => member(owner, word),
        None => text.parse().unwrap_or_else(|_| constant(name, text)),
    }
}

/// A constant of a type, as `Counts::TYPES`.
fn member(owner: &str, word: &str) -> usize {
    let found = ["table_record", "state_record"]
        .into_iter()
        .find_map(|name| {
            let source = source(name);
            let (block, _) = between(&source, &format!("\nimpl {owner} {{\n"), "\n}\n")?;
            let (value, _) = between(block, &format!("const {word}: usize = "), ";")?;
            Some(value_of(name, value))
        });
    found.unwrap_or_else(|| panic!("no {owner}::{word}"))
}

/// The crates of C functions: the static libraries.
fn exporting() -> Vec<String> {
    let crates = read(&root().join("crates.txt"));
    let lines = crates.lines();
    let named = lines.filter(|line| line.starts_with("export_"));
    let exporting = named.filter_map(|line| line.split_once(" staticlib:"));
    exporting.map(|(name, _)| String::from(name)).collect()
}

/// The crate that a line `use table_record::LINK_BYTES;` or `use table_record::{LINK_BYTES, TYPE_BYTES};` takes this word from.
fn used_from<'a>(line: &'a str, word: &str) -> Option<&'a str> {
    let line = line.strip_prefix("use ")?.strip_suffix(';')?;
    let (from, words) = line.split_once("::")?;
    let words = words.strip_prefix('{').unwrap_or(words);
    let words = words.strip_suffix('}').unwrap_or(words);
    words.split(", ").any(|one| one == word).then_some(from)
}

/// Every C function of the Rattle source.
fn exported() -> Functions {
    let mut functions = Functions::new();
    for name in exporting() {
        let source = source(&name);
        // a length is a number, or a constant of the crate that is used for it
        let length = |word: &str| {
            word.parse().unwrap_or_else(|_| {
                let from = source.lines().find_map(|line| used_from(line, word));
                constant(from.unwrap_or_else(|| panic!("{word} in {name}")), word)
            })
        };
        let mark = "#[unsafe(no_mangle)]\npub extern \"C\" fn ";
        let found = rust_functions(&source, mark, &length, &|_| None);
        assert!(!found.is_empty(), "{name} exports nothing");
        for word in ["extern \"C\"", "#[unsafe(no_mangle)]"] {
            assert_eq!(source.matches(word).count(), found.len(), "{name}: {word}");
        }
        for (function, declared) in found {
            let known = functions.insert(function.clone(), declared);
            assert!(known.is_none(), "{function} is exported twice");
        }
    }
    functions
}

/// The functions that the crate declares.
fn declared() -> Functions {
    let arrays = |name: &str| match name {
        "Types" => Some(("u8", size_of::<raw::Types>())),
        "Links" => Some(("u8", size_of::<raw::Links>())),
        "Cells" => Some(("u8", size_of::<raw::Cells>())),
        "Places" => Some(("u8", size_of::<raw::Places>())),
        "Calls" => Some(("u8", size_of::<raw::Calls>())),
        "PairTable" => Some(("u8", size_of::<raw::PairTable>())),
        "TableCounts" => Some(("usize", size_of::<raw::TableCounts>() / size_of::<usize>())),
        "StateCounts" => Some(("usize", size_of::<raw::StateCounts>() / size_of::<usize>())),
        "Values" => Some(("i64", size_of::<raw::Values>() / size_of::<i64>())),
        "DoorCounts" => Some(("usize", size_of::<raw::DoorCounts>() / size_of::<usize>())),
        _ => None,
    };
    let texts = [
        include_str!("../../src/raw/functions.rs"),
        include_str!("../../src/raw/functions/doors.rs"),
        include_str!("../../src/raw/functions/states.rs"),
        include_str!("../../src/raw/functions/tiny.rs"),
        include_str!("../../src/raw/functions/tools.rs"),
    ];
    let blocks = texts.map(|text| {
        let found = between(text, "extern \"C\" {", "\n}\n");
        let (block, behind) = found.expect("the declarations");
        assert!(!behind.contains("extern"), "declarations elsewhere");
        block
    });
    let length = |word: &str| panic!("{word}");
    rust_functions(&blocks.concat(), "fn ", &length, &arrays)
}

fn same(theirs: &Functions, exported: &Functions, whose: &str) {
    for (name, function) in exported {
        assert_eq!(theirs.get(name), Some(function), "{whose}: {name}");
    }
    let names = |functions: &Functions| functions.keys().cloned().collect::<Vec<_>>();
    assert_eq!(names(theirs), names(exported), "{whose}");
}

#[test]
fn every_function_is_declared_as_it_is() {
    let exported = exported();
    println!("{} functions", exported.len());
    same(&with_tools().functions(), &exported, "the headers");
    same(&declared(), &exported, "the crate");
}

/// What pilgonca.h offers to a caller who keeps a state changes it by a load, a request or a run, of which the claim speaks (L19 to L23). Beside these only the
/// reader stores types, and its comment says what for.
#[test]
fn a_state_is_changed_by_requests_alone() {
    let functions = header().functions();
    let stores = |name: &&str| {
        let parameters = &functions[*name].parameters;
        parameters.iter().any(|(parameter, passed)| {
            parameter == "types" && matches!(passed, Passed::Pointer { stored: true, .. })
        })
    };
    let storing: Vec<&str> = functions
        .keys()
        .map(String::as_str)
        .filter(stores)
        .collect();
    let steps = ["answer", "call", "load", "move", "new", "read", "run"];
    assert_eq!(storing, steps.map(|step| format!("pilgonca_{step}")));
}

/// Cargo.toml says the version once for every package; C callers have it from the header.
#[test]
fn the_version_is_the_workspaces() {
    let header = read(&root().join("include/pilgonca.h"));
    let (version, _) = between(&header, "#define PILGONCA_VERSION \"", "\"\n").expect("a version");
    assert_eq!(version, pilgonca::VERSION);
    let manifest = read(&root().join("Cargo.toml"));
    let (said, _) = between(&manifest, "[workspace.package]\n", "\n\n").expect("a section");
    assert!(
        said.contains(&format!("version = \"{version}\"\n")),
        "{said}"
    );
}

/// Every package takes version, edition and Rust version from the workspace.
#[test]
fn packages_inherit_what_is_said_once() {
    let manifest = read(&root().join("Cargo.toml"));
    let (members, _) = between(&manifest, "members = [", "]").expect("the members");
    for member in members.split(", ").map(|name| name.trim_matches('"')) {
        let package = read(&root().join(member).join("Cargo.toml"));
        for word in ["version", "edition", "rust-version"] {
            let line = format!("\n{word}.workspace = true\n");
            assert!(package.contains(&line), "{member}: {word}");
        }
    }
}

/// Numbers of the header by the crate that has each, and those of this crate.
const NUMBERS: [(&str, &str, usize); 21] = [
    ("table_record", "SUBJECTS", raw::MAX_SUBJECTS),
    ("table_record", "METHODS", raw::MAX_METHODS),
    ("table_record", "ARGUMENTS", raw::MAX_ARGUMENTS),
    ("table_record", "CATEGORIES", raw::MAX_CATEGORIES),
    ("table_record", "SHEET_TYPES", raw::MAX_SHEET_TYPES),
    ("table_record", "TYPES", raw::MAX_TYPES),
    ("state_record", "CELLS", raw::MAX_CELLS),
    ("state_record", "PLACES", raw::MAX_PLACES),
    ("state_record", "CALLS", raw::MAX_CALLS),
    ("state_record", "CALLS_EACH", raw::MAX_CALLS_EACH),
    ("table_record", "TYPE_BYTES", size_of::<raw::Types>()),
    ("table_record", "LINK_BYTES", size_of::<raw::Links>()),
    ("state_bytes", "CELL_BYTES", size_of::<raw::Cells>()),
    ("state_bytes", "PLACE_BYTES", size_of::<raw::Places>()),
    ("state_bytes", "CALL_BYTES", size_of::<raw::Calls>()),
    (
        "relation_compare",
        "PAIR_BYTES",
        size_of::<raw::PairTable>(),
    ),
    ("script_output", "INPUT_BYTES", raw::MAX_SCRIPT),
    (
        "script_output",
        "PRINTED_BYTES",
        raw::MAX_SCRIPT + raw::SCRIPT_LONGER,
    ),
    ("doors_hold", "TIMES", raw::MAX_TIMES),
    ("doors_hold", "LAST_TIME", raw::LAST_TIME as usize),
    ("doors_hold", "TOLERANCE", raw::MAX_TOLERANCE as usize),
];

/// Those that the header calls otherwise than their crate does, by the header's word.
const OTHERWISE: [(&str, &str, usize, &str); 2] = [
    ("tiny_record", "SHEETS", raw::TINY_SHEETS, "TINY_SHEETS"),
    (
        "tiny_output",
        "PRINTED_BYTES",
        raw::TINY_BYTES,
        "TINY_BYTES",
    ),
];

#[test]
fn every_number_is_the_sources() {
    let mut numbers = header().numbers;
    let alike = NUMBERS.map(|(name, word, ours)| (name, word, ours, word));
    for (name, word, ours, called) in alike.into_iter().chain(OTHERWISE) {
        let found = numbers.remove(&format!("PILGONCA_{called}"));
        assert_eq!(found, Some(constant(name, word)), "{called}");
        assert_eq!(found, Some(ours), "{called}");
    }
    let words = numbers.remove("PILGONCA_ANSWER_WORDS");
    assert_eq!(words, Some(constant("request_words", "OUTCOME")));
    let version = numbers.remove("PILGONCA_STATE_VERSION");
    assert_eq!(version, Some(usize::from(saved::VERSION)));
    // the rest are lengths of arrays, which are held against the functions
    let lengths = ["DOOR_COUNTS", "STATE_COUNTS", "TABLE_COUNTS", "VALUES"];
    let lengths = lengths.map(|word| format!("PILGONCA_{word}"));
    assert_eq!(numbers.into_keys().collect::<Vec<_>>(), lengths);
}

#[test]
fn the_structs_have_the_arrays() {
    let header = header();
    let functions = header.functions();
    for (name, function) in [
        ("pilgonca_table", "pilgonca_compare"),
        ("pilgonca_state", "pilgonca_offers"),
    ] {
        let members = header.members(name);
        let mut arrays = functions[function].parameters[..members.len()].to_vec();
        for (_, passed) in &mut arrays {
            if let Passed::Pointer { stored, .. } = passed {
                *stored = true;
            }
        }
        assert_eq!(members, arrays, "{name}");
        let behind = &functions[function].parameters[members.len()].1;
        assert!(matches!(behind, Passed::Number(_)), "{name}: {behind:?}");
    }
}

/// `NotHeld` as `PILGONCA_NOT_HELD`.
fn in_capitals(refusal: Refusal) -> String {
    let mut name = String::from("PILGONCA");
    for letter in format!("{refusal:?}").chars() {
        if letter.is_uppercase() {
            name.push('_');
        }
        name.push(letter.to_ascii_uppercase());
    }
    name
}

#[test]
fn the_refusals_are_the_crates() {
    let refusals = Refusal::ALL
        .iter()
        .map(|one| (in_capitals(*one), usize::from(one.number())));
    let named = [("PILGONCA_OK".to_string(), 0)].into_iter().chain(refusals);
    let named: Vec<(String, usize)> = named.collect();
    assert_eq!(header().constants("pilgonca_refusal"), named);
}
