//! The proved core in a stack of 256 KB: a program of its own does the work in its main thread, under `ulimit -s 256`.

use conformance::chains::{self, chain, nesting, MOST};
use conformance::inputs::with_48_types;
use conformance::process::{limited, plain, printed_each, run};
use conformance::stream::numbers;
use conformance::{counts, PAIRS_LENGTH};
use reference::entry;
use reference::pairs;
use reference::raw::{RawTable, TYPES_LENGTH};
use reference::sheet;
use std::path::Path;
use std::process::{Command, Output};

const PROGRAM: &str = env!("CARGO_BIN_EXE_small_stack");

fn work(mut command: Command, word: &str, input: &[u8]) -> Output {
    command.arg(word);
    run(command, input)
}

/// What the program prints when it comes to its end.
fn printed(word: &str, input: &[u8]) -> Vec<u8> {
    let output = work(limited(Path::new(PROGRAM)), word, input);
    assert!(
        output.status.success(),
        "{word} in 256 KB: {}, {}",
        output.status,
        String::from_utf8_lossy(&output.stderr)
    );
    output.stdout
}

/// The limit is in force: what needs 256 KB and more ends well without it and not with it.
#[test]
fn the_stack_is_limited() {
    let free = work(plain(Path::new(PROGRAM)), "overflow", b"");
    assert!(free.status.success(), "{free:?}");
    let ended = work(limited(Path::new(PROGRAM)), "overflow", b"");
    assert!(
        !ended.status.success() && ended.stdout.is_empty(),
        "{ended:?}"
    );
}

/// It is in force too for what is started for each of many inputs, here a shell, and a bad end or a word on the error stream is told.
#[test]
fn the_stack_of_each_is_limited() {
    let inputs = ["ulimit -s\n", "", "exit 3\n", "echo word >&2\n"].map(Vec::from);
    let printed = printed_each(Path::new(PROGRAM), Path::new("/bin/sh"), &inputs);
    let printed = printed.iter().map(|one| String::from_utf8_lossy(one));
    let told = [
        "256\n",
        "",
        "exit status: 3: \n",
        "exit status: 0: word\n\n",
    ];
    assert!(printed.eq(told));
}

/// The program's derivation of a chain: answer, number, count, and the table that it leaves.
fn derived(table: &RawTable) -> ([usize; 3], RawTable) {
    let (kind, t, s) = chains::START;
    let mut input = numbers(&counts(table).map(|count| count as i64));
    input.extend(numbers(&[kind as i64, t, s]));
    input.extend_from_slice(&table.broader);
    input.extend_from_slice(&table.type_bytes);
    let output = printed("derive", &input);
    assert_eq!(output.len(), 24 + TYPES_LENGTH);
    let number = |at: usize| {
        let bytes = output[at * 8..at * 8 + 8].try_into();
        u64::from_le_bytes(bytes.unwrap()) as usize
    };
    let answer = [number(0), number(1), number(2)];
    let mut after = table.clone();
    after.types = answer[2] as u32;
    after.type_bytes.copy_from_slice(&output[24..]);
    (answer, after)
}

/// As many new types as one derivation can nest, each begun before the one around it is complete.
#[test]
fn the_deepest_derivation() {
    let (table, seed) = chains::deepest();
    let (kind, t, s) = chains::START;
    let mut ours = table.clone();
    assert_eq!(entry::derive(&mut ours, kind, t, s), Ok(9));
    assert_eq!((nesting(&ours, 9), ours.types), (MOST, 128));
    let (answer, after) = derived(&table);
    assert_eq!(answer, [0, 9, 128]);
    assert!(after.type_bytes == ours.type_bytes);
    assert_eq!(nesting(&after, 9), MOST);
    // one type more on the way: as deep, and refused with 119 types begun
    let longer = chain(MOST - 112, seed);
    assert_eq!(entry::derive(&mut longer.clone(), kind, t, s), Err(11));
    let (answer, after) = derived(&longer);
    assert_eq!(answer, [11, 0, 9]);
    assert!(after.type_bytes == longer.type_bytes);
}

/// A sheet of 48 types read, all its pairs compared, and written.
#[test]
fn a_whole_sheet() {
    let text = sheet::text(&with_48_types());
    let output = printed("sheet", &text);
    assert_eq!(output[..24], [0; 24]);
    let lines = pairs::run(&text);
    let found: String = output[24..24 + PAIRS_LENGTH]
        .iter()
        .enumerate()
        .map(|(at, bits)| line(at / 48, at % 48, *bits))
        .collect();
    assert_eq!(found.as_bytes(), lines);
    assert_eq!(output[24 + PAIRS_LENGTH..], text);
}

/// A pair as the program `pairs` prints it.
fn line(t: usize, s: usize, bits: u8) -> String {
    let [a, b, c, d] = [0, 1, 2, 3].map(|bit| bits >> bit & 1);
    format!("{t} {s} {a} {b} {c} {d}\n")
}
