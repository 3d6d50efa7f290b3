//! The proved program `pairs` (crates/pairs/out/pairs, built by `rt ci` or `tools/prove pairs`) against the reference's.

use conformance::inputs::{damaged, largest, shares, with_48_types, worst};
use conformance::process::{built, feed, limited, plain, printed, run};
use conformance::tiny_first::{self, Input};
use pilgonca::raw::TINY_SHEETS;
use reference::entry;
use reference::pairs;
use reference::script::MAX_INPUT;
use reference::sheet;
use reference::shrink::shrink;
use std::path::{Path, PathBuf};
use std::process::Command;
use std::time::Duration;

/// A program as it is, or with its stack limited.
type Start = fn(&Path) -> Command;

fn proved(start: Start, input: &[u8]) -> Vec<u8> {
    printed(run(start(&built("pairs")), input))
}

/// How many inputs were answered with pairs, and with each refusal.
#[derive(Default, Debug, PartialEq)]
struct Seen {
    pairs: u32,
    refused: [u32; 4],
}

/// One input, both ways; a difference is shown on the smallest input found.
fn same(start: Start, input: &[u8], seen: &mut Seen, from: &str) {
    let differs = |input: &[u8]| proved(start, input) != pairs::run(input);
    if differs(input) {
        let small = shrink(input, &mut |input| differs(input));
        let text = |bytes: &[u8]| String::from_utf8_lossy(bytes).to_string();
        panic!(
            "{from}: prints\n{}for\n{}on {} bytes\n{}",
            text(&proved(start, &small)),
            text(&pairs::run(&small)),
            small.len(),
            text(&small)
        );
    }
    let output = pairs::run(input);
    match output.strip_prefix(b"no=") {
        Some(rest) => seen.refused[usize::from(rest[0] - b'0')] += 1,
        None => seen.pairs += 1,
    }
}

/// The sheets of examples/.
fn examples() -> Vec<PathBuf> {
    let folder = Path::new(env!("CARGO_MANIFEST_DIR")).join("../examples");
    let mut list: Vec<PathBuf> = std::fs::read_dir(folder)
        .unwrap()
        .map(|entry| entry.unwrap().path())
        .filter(|path| path.extension().is_some_and(|end| end == "sheet"))
        .collect();
    list.sort();
    list
}

/// Examples, by a pipe and from a file as ./run does it.
#[test]
fn examples_are_answered() {
    let mut seen = Seen::default();
    for path in examples() {
        let input = std::fs::read(&path).unwrap();
        for start in [plain, limited] {
            same(start, &input, &mut seen, &path.display().to_string());
        }
        let mut command = plain(&built("pairs"));
        let file = std::fs::File::open(&path).unwrap();
        let output = command.stdin(file).output().unwrap();
        assert_eq!(printed(output), pairs::run(&input), "{}", path.display());
    }
    println!("{seen:?}");
    assert!(seen.pairs >= 6 && seen.refused[1] >= 4 && seen.refused[3] >= 4);
}

/// Valid and damaged sheets, some of them in a stack of 256 KB.
#[test]
fn generated_inputs_are_answered() {
    let mut seen = Seen::default();
    for Input { from, seed, of } in tiny_first::tables(shares(100, 40, 12, 4)) {
        let start = [plain, limited][seed as usize % 2];
        same(start, &sheet::text(&of), &mut seen, &from);
    }
    let all = TINY_SHEETS as u32 + 156;
    assert_eq!((seen.pairs, seen.refused), (all, [0; 4]));
    for seed in 0..400 {
        let start = [plain, limited][seed as usize % 2];
        same(
            start,
            &damaged(seed),
            &mut seen,
            &format!("damaged seed {seed}"),
        );
    }
    println!("{seen:?}");
    assert!(seen.refused[1] > 100 && seen.refused[2] > 20 && seen.refused[3] > 5);
}

/// A right sheet and LFs behind it up to a length.
fn padded(length: usize) -> Vec<u8> {
    let mut input = sheet::text(&with_48_types());
    assert!(input.len() < length);
    input.resize(length, b'\n');
    input
}

/// 32,768 bytes are read, one more is `no=2` alone (P1). A sheet cannot be that long, but an input can: behind it 1, in a long number 2.
#[test]
fn longest_inputs() {
    let number = |length: usize| {
        let mut input = b"guide=1\nsubjects=".to_vec();
        input.resize(length - 1, b'9');
        input.push(b'\n');
        input
    };
    let end = sheet::text(&with_48_types()).len();
    let behind = format!("no=1 at={end}\n").into_bytes();
    for start in [plain, limited] {
        let answer = |input: &[u8]| {
            same(start, input, &mut Seen::default(), "long input");
            proved(start, input)
        };
        assert_eq!(answer(&padded(MAX_INPUT - 1)), behind);
        assert_eq!(answer(&padded(MAX_INPUT)), behind);
        assert_eq!(answer(&number(MAX_INPUT)), b"no=2 at=8\n");
        for length in [MAX_INPUT + 1, MAX_INPUT + 2, 2 * MAX_INPUT, 1 << 20] {
            assert_eq!(answer(&padded(length)), b"no=2\n", "{length}");
            assert_eq!(answer(&number(length)), b"no=2\n", "{length}");
        }
        assert_eq!(answer(b""), b"no=1 at=0\n");
    }
}

/// Input that comes in pieces is read to its end.
#[test]
fn input_in_pieces() {
    let input = sheet::text(&with_48_types());
    let long = padded(MAX_INPUT + 1);
    for (input, piece) in [
        (&input, 700),
        (&input, 4096),
        (&long, 5000),
        (&long, MAX_INPUT),
    ] {
        let output = feed(plain(&built("pairs")), |stdin| {
            for part in input.chunks(piece) {
                stdin.write_all(part)?;
                stdin.flush()?;
                std::thread::sleep(Duration::from_millis(3));
            }
            Ok(())
        });
        assert_eq!(printed(output), pairs::run(input), "pieces of {piece}");
    }
}

/// The worst sheet: 48 types, 16 methods, 31 categories, and from a pair of two types every pair is reached.
#[test]
fn the_worst_sheet() {
    let mut input = vec![0; MAX_INPUT];
    let length = entry::write(&worst(48, 31), &mut input).expect("it fits");
    input.truncate(length);
    let mut seen = Seen::default();
    same(limited, &input, &mut seen, "worst sheet");
    assert_eq!(seen.pairs, 1);
    assert_eq!(ending(&proved(limited, &input), " 1 1 1 1"), 48 * 48);
}

/// How many lines of an output end with these answers.
fn ending(output: &[u8], answers: &str) -> usize {
    let lines = output.split(|byte| *byte == b'\n');
    lines
        .filter(|line| line.ends_with(answers.as_bytes()))
        .count()
}

/// The largest sheet, with 31 categories: its types differ only in category and own, and each category is below all that follow.
#[test]
fn the_largest_sheet() {
    let input = sheet::text(&largest());
    let mut seen = Seen::default();
    for start in [plain, limited] {
        same(start, &input, &mut seen, "largest sheet");
    }
    assert_eq!((seen.pairs, seen.refused), (2, [0; 4]));
    let output = proved(limited, &input);
    // category of T ≤ that of S: 16 categories have two types and 16 one, so 80 of 2304 pairs in the same, and half of the rest
    let ordered = 80 + (2304 - 80) / 2;
    // not a subtype: T is own (0 or 1) and S is not
    let strict_only = (48 - 2) + (46 - 1);
    assert_eq!(ending(&output, " 0 1 1 1"), strict_only);
    assert_eq!(ending(&output, " 1 1 1 1"), ordered - strict_only);
    assert_eq!(ending(&output, " 0 0 1 1"), 2304 - ordered);
}
