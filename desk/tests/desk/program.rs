//! The program itself: what it prints, its exit status, and that nothing makes it panic.

use crate::doors::{ARRIVALS, MARKS};
use crate::files::{
    accepted, desk, failed, is_message, no, read, refused, run, tiny_in_turn, told, with_file,
    NAMES, SCRIPT, SHEET,
};
use reference::generators::{generate, Profile};
use reference::tiny;
use std::fs::File;
use std::io::Write;
use std::process::Stdio;

/// Words that desk does not understand.
const WRONG: [&[&str]; 46] = [
    &["chek"],
    &["check"],
    &["check", "a", "b"],
    &["compare", SHEET, "1"],
    &["check", SHEET, "--svg", "x"],
    &["run", SCRIPT, "--plain"],
    &["pairs", SHEET, "--svg"],
    &["pairs", SHEET, "--plan"],
    &["check", SHEET, "--names"],
    &["check", "--names", NAMES, "--names", NAMES, SHEET],
    &["explain"],
    &["audit"],
    &["audit", SCRIPT, "--subject"],
    &["audit", SCRIPT, "--method", "1", "--method", "2"],
    &["run", SCRIPT, "--calls"],
    &["powers", SHEET, SHEET],
    &["diff", SHEET],
    &["check", SHEET, "-x"],
    &["check", SHEET, "--json=yes"],
    &["check", SHEET, "--names", NAMES, "--no-names"],
    &["check", SHEET, "--names", NAMES, "--names=x"],
    &["explain", "8", "--json"],
    &["fix", SHEET, "--json"],
    &["check", SHEET, "--out", "x"],
    &["pairs", SHEET, "--plain", "--json"],
    &["pairs", SHEET, "--svg", "-", "--json"],
    &["check", "--", SHEET, "--no-names"],
    &["tiny", "1", "2"],
    &["tiny", "--plain"],
    &["tiny", "--names", NAMES],
    &["tiny", "--list=1"],
    &["tiny", "--list", "--json"],
    &["tiny", "--out", "x", "--json"],
    &["tiny", "--out", "x", "--list"],
    &["check", SHEET, "--list"],
    &["doors", MARKS],
    &["doors", MARKS, ARRIVALS],
    &["doors", MARKS, ARRIVALS, ARRIVALS, "--within", "5"],
    &["doors", MARKS, ARRIVALS, "--within"],
    &["doors", MARKS, ARRIVALS, "--within", "5", "--within", "5"],
    &["doors", MARKS, ARRIVALS, "--within", "5", "--column"],
    &["doors", MARKS, ARRIVALS, "--within", "5", "--names", NAMES],
    &[
        "doors", MARKS, ARRIVALS, "--within", "5", "--list", "--json",
    ],
    &["doors", "-", "-", "--within", "5"],
    &["check", SHEET, "--within", "5"],
    &["diff", SHEET, SHEET, "--marks-column=1"],
];

/// Words that ask for help, some of them among wrong ones.
const HELP: [&[&str]; 7] = [
    &[],
    &["help"],
    &["--help"],
    &["-h"],
    &["check", "--help"],
    &["chek", "-h"],
    &["pairs", SHEET, "--svg", "--help"],
];

#[test]
fn wrong_words_are_told_apart_from_bad_input() {
    for words in WRONG {
        let (status, out, error) = run(words);
        assert_eq!((status, out.as_str()), (2, ""), "{words:?}");
        assert!(
            error.starts_with("desk: ") && error.lines().count() == 1,
            "{words:?}: {error}"
        );
        assert!(
            error.ends_with("; desk --help says what there is\n"),
            "{words:?}: {error}"
        );
    }
    for words in HELP {
        assert!(accepted(words).contains("desk explain N"), "{words:?}");
    }
}

#[test]
fn files_that_cannot_be_read_or_written() {
    for command in ["check", "fix", "pairs", "run", "audit", "powers"] {
        for path in ["no/such/file", "examples", "/"] {
            let error = failed(&[command, path], 3);
            assert!(error.contains(path), "{error}");
            failed(&[command, SHEET, "--names", path], 3);
        }
        failed(&[command, "/dev/zero"], 3);
        assert!(refused(&[command, "/dev/null"]).contains("the file ends here"));
    }
    for path in ["no/such/file", "examples", "/dev/zero"] {
        for files in [[path, ARRIVALS], [MARKS, path]] {
            let error = failed(&["doors", files[0], files[1], "--within=5"], 3);
            assert!(error.contains(path), "{error}");
        }
    }
    for words in [
        ["pairs", SHEET, "--svg"],
        ["run", SCRIPT, "--svg"],
        ["fix", SHEET, "--out"],
        ["tiny", "7", "--out"],
    ] {
        let words = [&words[..], &["no/such/folder/x"]].concat();
        assert!(failed(&words, 3).contains("cannot write"));
    }
}

/// Damaged sheets, and bytes that never were one.
fn any_bytes() -> Vec<Vec<u8>> {
    let mut texts: Vec<Vec<u8>> = (0..40)
        .map(|seed| generate(seed, Profile::Damaged))
        .collect();
    let odd: [&[u8]; 6] = [
        b"",
        b"\n",
        b"\xff\xfe\0",
        b"guide=1\r\n",
        b"guide=1\nsubjects=\xc3\xa9\n",
        &[b'9'; 40_000],
    ];
    texts.extend(odd.map(<[u8]>::to_vec));
    texts.push([b"guide=", "3D".repeat(200_000).as_bytes()].concat());
    texts
}

/// Every command that takes a file is answered, and says what is wrong where something is.
fn is_answered(path: &str) {
    let with_names = ["check", SHEET, "--names", path];
    for words in [
        &["check", path][..],
        &["pairs", path],
        &["fix", path],
        &["run", path],
        &["audit", path],
        &["powers", path],
        &with_names,
    ] {
        let (status, _, error) = run(words);
        let is_fix = words[0] == "fix";
        let message = error.lines().next().is_some_and(is_message);
        assert_eq!(status == 1 || is_fix, message, "{words:?}: {error}");
        assert!(
            status < 2 && !error.contains("panicked"),
            "{words:?}: {error}"
        );
    }
    for words in [
        &["compare", path, "0", "1"][..],
        &["doors", path, ARRIVALS, "--within=5", "--column=1"],
        &["doors", MARKS, path, "--within=5"],
    ] {
        let (status, _, error) = run(words);
        let message = error.lines().next().is_some_and(is_message);
        assert_eq!(message, status > 1, "{words:?}: {error}");
        assert!(!error.contains("panicked"), "{words:?}: {error}");
    }
}

#[test]
fn any_bytes_get_an_answer() {
    for (command, text) in tiny_in_turn() {
        with_file("any-tiny", &text, |path| {
            accepted(&[command, path]);
        });
    }
    for text in any_bytes() {
        with_file("any", &text, is_answered);
    }
}

/// Runs desk with a standard output that nobody reads.
fn unread(words: &[&str]) -> (i32, String, String) {
    let mut command = desk(words);
    command.stdout(Stdio::piped()).stderr(Stdio::piped());
    let mut child = command.spawn().expect("desk runs");
    drop(child.stdout.take());
    told(child.wait_with_output().expect("it ends"))
}

#[test]
fn a_reader_may_go_away() {
    for words in [
        &["pairs", "examples/types-48.sheet", "--plain"][..],
        &["explain", "1"],
        &["tiny"],
    ] {
        assert_eq!(
            unread(words),
            (0, String::new(), String::new()),
            "{words:?}"
        );
    }
    let (status, _, error) = unread(&["run", "examples/refused-01.script"]);
    assert_eq!(status, 1);
    assert!(
        error.contains("a sign stands in front of 0") && !error.contains("cannot print"),
        "{error}"
    );
    let mut child = desk(&["check", "no/such/file"])
        .stderr(Stdio::piped())
        .spawn()
        .expect("desk runs");
    drop(child.stderr.take());
    assert_eq!(child.wait().expect("it ends").code(), Some(3));
}

#[test]
fn what_cannot_be_printed_is_told() {
    let full = File::options()
        .write(true)
        .open("/dev/full")
        .expect("a device");
    let output = desk(&["help"]).stdout(full).output().expect("desk runs");
    let (status, _, error) = told(output);
    assert_eq!(status, 3);
    assert!(error.contains("cannot print"), "{error}");
}

#[test]
fn standard_input_is_a_file() {
    let mut child = desk(&["run", "-"])
        .stdin(Stdio::piped())
        .stdout(Stdio::piped())
        .spawn()
        .expect("desk runs");
    let mut input = child.stdin.take().expect("a pipe");
    input.write_all(&read(SCRIPT)).expect("it reads");
    drop(input);
    let (status, out, _) = told(child.wait_with_output().expect("it ends"));
    assert_eq!((status, out), (0, accepted(&["run", SCRIPT, "--no-names"])));
}

#[test]
fn no_colours_in_a_pipe() {
    for words in [
        &["check", SHEET][..],
        &["pairs", SHEET],
        &["run", SCRIPT],
        &["audit", SCRIPT],
        &["powers", SHEET],
        &["diff", SHEET, "examples/guide.sheet"],
        &["run", "examples/refused-01.script"],
        &["tiny", "--list"],
        &["doors", MARKS, ARRIVALS, "--within=1000"],
        &["doors", SHEET, ARRIVALS, "--within=1000"],
    ] {
        let (_, out, error) = run(words);
        assert!(
            !out.contains('\x1b') && !error.contains('\x1b'),
            "{words:?}"
        );
    }
}

#[test]
fn plain_pairs_are_those_of_the_program() {
    let mut texts = tiny::texts();
    texts.extend([
        read(SHEET),
        read("examples/types-48.sheet"),
        vec![b'x'; 32_769],
    ]);
    texts.extend((0..30).map(|seed| generate(seed, Profile::Damaged)));
    for text in texts {
        with_file("plain", &text, |path| {
            let (status, out, _) = run(&["pairs", "--plain", path]);
            assert_eq!(out.as_bytes(), reference::pairs::run(&text));
            assert_eq!(status == 1, out.starts_with("no="));
        });
    }
}

#[test]
fn the_matrix_and_a_comparison() {
    let matrix = accepted(&["pairs", SHEET, "--names", NAMES]);
    for row in [
        "3 forwarder (ref)  . # + # # -",
        "5 marker (ref)     . # - o # #",
        "4 whole log (own)  . * * * * *",
    ] {
        assert!(matrix.contains(row), "{row}: {matrix}");
    }
    let numbers = accepted(&["compare", SHEET, "2", "3", "--no-names"]);
    assert!(
        numbers.starts_with("from  S is type 2\nto    T is type 3\n")
            && numbers.contains("subtype  no")
            && numbers.contains("strict   yes"),
        "{numbers}"
    );
    let names = accepted(&["compare", SHEET, "2", "forwarder"]);
    assert!(
        names.starts_with("from  S is type 2 (reader)\nto    T is type 3 (forwarder)\n"),
        "{names}"
    );
    let own = accepted(&["compare", SHEET, "2", "4"]);
    assert!(own.contains("for the owner of its object alone"), "{own}");
    let mixed = no(&["compare", SHEET, "2", "0"]);
    assert!(mixed.contains("never becomes"), "{mixed}");
    let hidden = no(&["compare", SHEET, "reader", "marker"]);
    assert!(
        hidden.contains("type 2 (reader) cannot become type 5 (marker): refused with 8"),
        "{hidden}"
    );
    for (unknown, words) in [("6", ["6", "0"]), ("-1", ["0", "-1"])] {
        let error = failed(&["compare", SHEET, words[0], words[1]], 2);
        let why = format!("refused with 7: there is no type {unknown}: the sheet has types 0 to 5");
        assert!(error.contains(&why), "{error}");
    }
    let unnamed = failed(&["compare", SHEET, "log", "0", "--no-names"], 2);
    assert!(unnamed.contains("no type is named \"log\""), "{unnamed}");
}

#[test]
fn every_refusal_is_explained() {
    for number in (1..=19).chain([22]) {
        let text = accepted(&["explain", &number.to_string()]);
        assert!(text.starts_with(&format!("{number}: ")), "{text}");
        assert!(
            text.contains("When: ") && text.contains("To do: "),
            "{text}"
        );
    }
    // 20 and 21 are not given
    for number in ["0", "20", "21", "23", "-1", "four", "99999999999999999999"] {
        let due = format!("desk: {number:?} is no refusal: they have the numbers 1 to 19, 22\n");
        assert_eq!(failed(&["explain", number], 2), due);
    }
}

#[test]
fn a_script_that_is_too_long() {
    let long = [read(SCRIPT), b"do=new 0 1 4\n".repeat(3000)].concat();
    with_file("long", &long, |path| {
        for command in ["run", "audit"] {
            assert!(refused(&[command, path]).contains("refused with 2"));
        }
    });
}

#[test]
fn a_run_and_its_audit() {
    let out = accepted(&["run", SCRIPT, "--names", NAMES]);
    for part in [
        "do=move 1 1 2 3  ->  got=2 1",
        "subject 2 (printer) holds cell 2 as type 3 (forwarder): it leads to place 1, an adapter in front of place 0 that lets through read",
        "refused with 8: a reference of type 2 (reader) cannot become type 5 (marker): of method 1 (mark) type 5 (marker) says avail and type 2 (reader) says denied",
        "6 requests: 4 accepted, 2 refused. At the end: 4 cells, 1 object, 1 adapter, 0 calls.",
    ] {
        assert!(out.contains(part), "{part}: {out}");
    }
    let audit = accepted(&["audit", "examples/two-adapters.script"]);
    assert!(
        audit.contains("subject 1 to subject 2 as type 4 > subject 2 to itself as type 5"),
        "{audit}"
    );
    let ended = run(&["run", "examples/refused-01.script"]);
    assert_eq!(ended.0, 1);
    assert!(
        ended.1.contains("got=1 0") && ended.2.contains("a sign stands in front of 0"),
        "{ended:?}"
    );
}
