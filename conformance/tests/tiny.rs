//! Every tiny sheet: what the program `tiny` (crates/tiny/out/tiny, built by `rt ci` or `tools/prove tiny`) prints and what its C function writes is the
//! reference's, and each sheet goes through the reader, the writer and the programs `pairs` and `script`.

use conformance::process::{built, limited, plain, printed, run};
use conformance::scripts::proved;
use conformance::{counts, layout, read, write, Loaded};
use pilgonca::raw::{self, TINY_BYTES, TINY_SHEETS};
use reference::raw::{RawTable, BROADER_LENGTH, TYPES_LENGTH};
use reference::tiny::{is_tiny, printed as all, split, tables, texts, write as ours};
use reference::{pairs, script, sheet};
use std::collections::BTreeSet;
use std::fs::{create_dir, read_dir, remove_dir_all, File};
use std::path::Path;
use std::process::Command;

/// What stands in a buffer and in a length before.
const MARK: u8 = 0xa7;
const UNSET: usize = 0x5a5a;

/// What the program prints, however much stack it has.
fn program() -> Vec<u8> {
    let [free, held] = [plain, limited].map(|start| printed(run(start(&built("tiny")), b"")));
    assert!(free == held);
    free
}

/// The lines up to each `end=sheet`, taken apart by hand.
fn pieces(text: &[u8]) -> Vec<Vec<u8>> {
    let (mut found, mut piece) = (Vec::new(), Vec::new());
    for line in text.split_inclusive(|byte| *byte == b'\n') {
        piece.extend_from_slice(line);
        if line == b"end=sheet\n" {
            found.push(std::mem::take(&mut piece));
        }
    }
    assert_eq!(piece, b"", "behind the last sheet");
    found
}

#[test]
fn the_program_prints_them_all() {
    let text = program();
    assert!(text == all(), "{}", String::from_utf8_lossy(&text));
    assert_eq!(text.len(), TINY_BYTES);
    let found = pieces(&text);
    assert_eq!(found.len(), TINY_SHEETS);
    assert_eq!(found, texts());
    assert!(split(&text).into_iter().eq(found.iter()));
    let apart: BTreeSet<&Vec<u8>> = found.iter().collect();
    assert_eq!(apart.len(), TINY_SHEETS);
    // 14 have one method, and are in front
    let one = |text: &Vec<u8>| text.starts_with(b"guide=1\nsubjects=1\nmethods=1\n");
    let (first, others) = found.split_at(14);
    assert!(first.iter().all(one) && !others.iter().any(one));
}

/// It reads nothing (P21): the same is printed whatever its standard input is, also where there is none.
#[test]
fn the_program_reads_nothing() {
    let text = all();
    let tiny = || Command::new(built("tiny"));
    for file in ["/", "/dev/zero", "/dev/null"] {
        let output = tiny().stdin(File::open(file).unwrap()).output();
        assert!(printed(output.unwrap()) == text, "{file}");
    }
    assert!(printed(run(tiny(), b"guide=2\n")) == text);
    let mut closed = Command::new("/bin/sh");
    closed.args(["-c", "exec \"$0\" <&-"]).arg(built("tiny"));
    assert!(printed(closed.output().unwrap()) == text);
}

/// The table that the proved reader stores.
fn reading(text: &[u8]) -> RawTable {
    let mut loaded = Loaded {
        types: [MARK; TYPES_LENGTH],
        links: [MARK; BROADER_LENGTH],
        counts: [UNSET; 5],
        at: UNSET,
    };
    let code = read(text, &mut loaded);
    assert_eq!((code, loaded.at), (0, 0), "{}", shown(text));
    loaded.table()
}

fn shown(text: &[u8]) -> String {
    String::from_utf8_lossy(text).into_owned()
}

/// Each piece is read as the reference reads it, into the table that it was made of, and written back as the same bytes.
#[test]
fn each_is_read_and_written_back() {
    let sheets = pieces(&program());
    for (text, table) in sheets.iter().zip(tables()) {
        assert_eq!(sheet::read(text).as_ref(), Ok(&table), "{}", shown(text));
        assert!(is_tiny(&table), "{}", shown(text));
        let raw = reading(text);
        assert!(raw == layout::plain(&table), "{}", shown(text));
        let (mut buffer, mut length) = (vec![MARK; text.len()], UNSET);
        let code = write(&raw, counts(&raw), &mut buffer, &mut length);
        assert_eq!((code, length), (0, text.len()));
        assert_eq!(shown(&buffer), shown(text));
    }
}

/// Each piece through the program `pairs`, and alone, as a sheet without requests (P15), through `script`.
#[test]
fn each_goes_through_the_programs() {
    for text in pieces(&program()) {
        let found = printed(run(plain(&built("pairs")), &text));
        assert_eq!(shown(&found), shown(&pairs::run(&text)), "{}", shown(&text));
        // one type: a line for the pair of it with itself
        assert_eq!(found, b"0 0 1 1 1 1\n", "{}", shown(&text));
        assert_eq!(proved(&text), script::run(&text), "{}", shown(&text));
    }
}

/// The C function in buffers of every length that matters: what is too short stays as it was, and so does the length; bytes behind the text stay.
#[test]
fn the_function_in_buffers_of_every_length() {
    let text = all();
    let whole = text.len();
    for size in [0, 1, 105, whole / 2, whole - 1] {
        let (mut buffer, mut length) = (vec![MARK; size], UNSET);
        assert_eq!(raw::tiny(&mut buffer, &mut length), 4, "{size}");
        assert_eq!(length, UNSET, "{size}");
        assert!(buffer.iter().all(|byte| *byte == MARK), "{size}");
        assert_eq!(ours(&mut buffer), Err(4), "{size}");
    }
    for size in [whole, whole + 1, whole + 37, 2 * whole, 1 << 20] {
        let (mut buffer, mut length) = (vec![MARK; size], UNSET);
        assert_eq!(raw::tiny(&mut buffer, &mut length), 0, "{size}");
        assert_eq!(length, whole, "{size}");
        assert!(buffer[..whole] == text, "{size}");
        assert!(buffer[whole..].iter().all(|byte| *byte == MARK), "{size}");
        let mut wanted = vec![MARK; size];
        assert_eq!(ours(&mut wanted), Ok(whole), "{size}");
        assert!(buffer == wanted, "{size}");
    }
}

/// The line of the guide that makes a file of each: run as it stands there, in a folder of its own, with the program in the place of ./run.
#[test]
fn the_guide_takes_them_apart() {
    let guide = include_str!("../../docs/GUIDE.md");
    let mut lines = guide.lines();
    let line = lines.find_map(|line| line.strip_prefix("    ./run tiny |"));
    let line = line.expect("a line that takes them apart");
    let folder = Path::new(env!("CARGO_TARGET_TMPDIR")).join("tiny-apart");
    if folder.exists() {
        remove_dir_all(&folder).unwrap();
    }
    create_dir(&folder).unwrap();
    let mut shell = Command::new("/bin/sh");
    shell
        .args(["-c", &format!("\"$0\" | {line}")])
        .arg(built("tiny").canonicalize().unwrap());
    let output = shell.current_dir(&folder).output().unwrap();
    assert_eq!(printed(output), b"");
    let found = read_dir(&folder).unwrap().count();
    assert_eq!(found, TINY_SHEETS);
    for (number, text) in texts().iter().enumerate() {
        let name = format!("tiny-{number:03}.sheet");
        assert_eq!(&std::fs::read(folder.join(&name)).unwrap(), text, "{name}");
    }
}

/// The package gives the same, whole and in pieces.
#[test]
fn the_package_gives_them() {
    assert!(pilgonca::tiny() == all());
    assert_eq!(pilgonca::tiny_sheets(), texts());
}
