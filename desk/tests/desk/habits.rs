//! Options as people's hands know them, names beside a sheet, places that editors jump to, and terminals.

use crate::doors::{ARRIVALS, MARKS};
use crate::files::{accepted, desk, failed, place, read, refused, run, told, with_file};
use crate::files::{root, CALLED, NAMES, SCRIPT, SHEET};
use crate::saved::STATE;
use std::fs;
use std::process::Command;

#[test]
fn help_fits_a_terminal_and_says_what_there_is() {
    let help = accepted(&["--help"]);
    for line in help.lines() {
        assert!(line.chars().count() <= 80, "{line}");
    }
    let commands = [
        "check", "fix", "pairs", "compare", "run", "audit", "powers", "diff", "tiny", "doors",
        "explain",
    ];
    for command in commands {
        assert!(help.contains(&format!("  desk {command} ")), "{command}");
    }
    for part in [
        "--names",
        "X.names beside X.sheet,\n                              X.script or X.state is found; --no-names",
        "--json",
        "--svg",
        "--plain",
        "--out",
        "--subject S --method M",
        "--calls",
        "--list",
        "--within MS",
        "--column C",
        "--marks-column, --arrivals-column",
        "--version",
        "NO_COLOR",
        "0 yes or accepted, 1 no or refused, 2 words that desk does not\nunderstand, 3 what cannot be read or written",
        "refused input is 3 too",
    ] {
        assert!(help.contains(part), "{part}");
    }
}

/// Who types ./run desk cannot type desk.
#[test]
fn messages_name_the_program_as_it_was_called() {
    let flat = |(_, out, error): (i32, String, String)| {
        let words: Vec<String> = [out, error].map(|text| text.replace('\n', " ")).into();
        let words = words.concat();
        words.split_whitespace().collect::<Vec<&str>>().join(" ")
    };
    let said = |words: &[&str], part: &str| {
        let output = desk(words).env(CALLED, "./run desk").output();
        let text = flat(told(output.expect("desk runs")));
        assert!(text.contains(part), "{words:?}: {text}");
        text
    };
    let crlf = String::from_utf8(read(SHEET)).expect("ASCII");
    let zero = "examples/refused-leading-zero.sheet";
    with_file("called", crlf.replace('\n', "\r\n").as_bytes(), |path| {
        let fix = format!("./run desk fix {path} prints what was meant");
        let messages: [(&[&str], &str); 19] = [
            (&["chek"], "; ./run desk --help says what there is"),
            (&["check"], "./run desk check takes one sheet"),
            (&["fix"], "./run desk fix takes one sheet or script"),
            (&["run"], "./run desk run takes one script;"),
            (
                &["audit"],
                "./run desk audit takes one script or saved state",
            ),
            (&["compare", SHEET], "./run desk compare takes a sheet"),
            (&["diff", SHEET], "./run desk diff takes two sheets"),
            (&["tiny", "1", "2"], "./run desk tiny takes the number"),
            (&["doors", MARKS], "./run desk doors takes two files"),
            (
                &["doors", "examples/visit.doors", MARKS, "--within=5"],
                "./run desk doors takes a file of marks and one of arrivals",
            ),
            (&["run", SCRIPT, "--plain"], "is for ./run desk pairs"),
            (&["check", path], &fix),
            (&["fix", zero], "./run desk fix cannot mend that"),
            (
                &["check", SCRIPT],
                "for ./run desk run and ./run desk audit",
            ),
            (&["check", STATE], "which ./run desk audit takes"),
            (&["run", STATE], "which ./run desk audit takes"),
            (
                &["explain", "1"],
                "./run desk check SHEET and ./run desk run SCRIPT",
            ),
            (&["explain", "8"], "./run desk pairs SHEET what can"),
            (&["explain", "10"], "./run desk audit SCRIPT shows"),
        ];
        for (words, part) in messages {
            let text = said(words, part).replace("./run desk", "desk");
            assert_eq!(text, flat(run(words)), "{words:?}");
        }
    });
    let help = said(&["help"], "Here desk stands for ./run desk.");
    assert!(help.contains("desk fix SHEET or SCRIPT "), "{help}");
    assert!(
        help.contains("(0 FROM can become TO, also where that has a condition)"),
        "{help}"
    );
    assert!(help.starts_with(&flat(run(&["help"]))), "{help}");
}

#[test]
fn the_version_is_the_projects() {
    let version = format!("desk {}\n", env!("CARGO_PKG_VERSION"));
    for words in [&["--version"][..], &["-V"], &["check", SHEET, "--version"]] {
        assert_eq!(accepted(words), version);
    }
}

#[test]
fn options_may_have_their_word_behind_an_equals_sign() {
    let named = accepted(&["check", "examples/case-p.sheet", "--names", NAMES]);
    let joined = format!("--names={NAMES}");
    assert_eq!(accepted(&["check", &joined, SHEET]), named);
    let asked = ["audit", SCRIPT, "--subject=printer", "--method=mark"];
    let (status, out, _) = run(&asked);
    assert_eq!(status, 1);
    assert!(out.contains("Could subject 2 (printer) have called method 1 (mark)? no"));
}

/// A folder of this test run alone.
fn folder(name: &str) -> std::path::PathBuf {
    let path = std::path::PathBuf::from(env!("CARGO_TARGET_TMPDIR"));
    let path = path.join(format!("{}-{name}", std::process::id()));
    fs::create_dir_all(&path).expect("a folder");
    path
}

#[test]
fn behind_two_dashes_no_word_is_an_option() {
    let folder = folder("dashes");
    fs::copy(root().join(SHEET), folder.join("--help")).expect("a copy");
    let mut command = desk(&["check", "--", "--help"]);
    let (status, out, _) = told(command.current_dir(&folder).output().expect("desk runs"));
    assert_eq!(status, 0);
    assert!(out.starts_with("--help: accepted"), "{out}");
    fs::remove_dir_all(folder).expect("it is there");
}

#[test]
fn names_beside_a_sheet_are_found() {
    for file in [SHEET, SCRIPT] {
        let command = if file == SHEET { "check" } else { "run" };
        let named = accepted(&[command, file, "--names", NAMES]);
        assert!(named.contains("forwarder"), "{named}");
        assert_eq!(accepted(&[command, file]), named);
        let bare = accepted(&[command, file, "--no-names"]);
        assert!(!bare.contains("forwarder"), "{bare}");
    }
    let (status, out, _) = run(&["diff", "examples/guide.sheet", SHEET]);
    assert_eq!(status, 1);
    assert!(out.contains("(reader)"), "{out}");
    let folder = folder("beside");
    fs::copy(root().join(STATE), folder.join("x.state")).expect("a copy");
    fs::copy(root().join(NAMES), folder.join("x.names")).expect("a copy");
    let state = folder.join("x.state");
    let named = accepted(&["audit", state.to_str().expect("UTF-8")]);
    assert_eq!(named, accepted(&["audit", STATE, "--names", NAMES]));
    assert!(named.contains("(printer)"), "{named}");
    fs::copy(root().join(SHEET), folder.join("x.sheet")).expect("a copy");
    fs::write(folder.join("x.names"), "method 9 burn\n").expect("a file");
    let sheet = folder.join("x.sheet");
    let error = refused(&["check", sheet.to_str().expect("UTF-8")]);
    let why =
        "x.names (found beside the file; --no-names leaves it out), line 1: there is no method 9";
    assert!(error.contains(why), "{error}");
    fs::remove_dir_all(folder).expect("it is there");
}

#[test]
fn a_picture_goes_to_standard_output_alone() {
    for words in [["pairs", SHEET], ["run", SCRIPT]] {
        let out = accepted(&[&words[..], &["--svg", "-"]].concat());
        assert!(out.starts_with("<svg ") && out.ends_with("</svg>\n"));
        with_file("drawn", b"", |path| {
            accepted(&[&words[..], &["--svg", path]].concat());
            assert_eq!(fs::read_to_string(path).expect("a file"), out);
        });
    }
}

#[test]
fn editors_can_jump_to_what_is_refused() {
    let places = [
        ("check", "examples/refused-leading-zero.sheet", 23, 6),
        ("pairs", "examples/refused-broader-not-below.sheet", 6, 7),
        ("check", "examples/refused-own-in-signature.sheet", 0, 0),
        ("run", "examples/refused-01.script", 0, 0),
    ];
    for (command, file, line, column) in places {
        let (status, _, error) = run(&[command, file]);
        let found = place(error.lines().next().unwrap_or("")).expect("a place");
        assert_eq!((status, found.0), (1, file));
        assert!(line == 0 || found == (file, line, column), "{error}");
        let text = read(file);
        let at = text.split(|byte| *byte == b'\n').nth(found.1 - 1);
        let at = String::from_utf8_lossy(at.expect("a line")).into_owned();
        assert!(error.contains(&format!("line {} | {at}\n", found.1)));
        let mark = error
            .lines()
            .find(|line| line.contains(" | ") && line.contains('^'));
        let (_, mark) = mark
            .and_then(|mark| mark.split_once(" | "))
            .expect("a mark");
        assert_eq!(mark.find('^').map(|at| at + 1), Some(found.2), "{error}");
    }
}

#[test]
fn statuses_are_told_apart() {
    let damaged = "examples/refused-leading-zero.sheet";
    accepted(&["check", SHEET]);
    refused(&["check", damaged]);
    failed(&["chek"], 2);
    failed(&["check", "no/such/file"], 3);
    // a question
    accepted(&["compare", SHEET, "3", "2"]);
    failed(&["compare", damaged, "3", "2"], 3);
    failed(&["compare", SHEET, "reader", "nobody"], 2);
    failed(&["audit", SCRIPT, "--subject", "nobody"], 2);
    failed(&["compare", "no/such/file", "3", "2"], 3);
    failed(&["diff", SHEET, damaged], 3);
    failed(&["doors", damaged, ARRIVALS, "--within=5"], 3);
    failed(&["doors", MARKS, ARRIVALS, "--within=5 s"], 2);
    failed(&["doors", MARKS, ARRIVALS, "--within=5", "--column=9"], 2);
    failed(&["doors", MARKS, "no/such/file", "--within=5"], 3);
}

/// What desk prints on a terminal, with these words set in its environment.
fn on_a_terminal(words: &str, set: &[(&str, &str)]) -> String {
    let python = "import os, pty, sys; sys.exit(pty.spawn(sys.argv[1:]) >> 8)";
    let mut command = Command::new("python3");
    command.args(["-c", python, env!("CARGO_BIN_EXE_desk")]);
    command.args(words.split(' ')).current_dir(root());
    command.env("TERM", "xterm").env_remove("NO_COLOR");
    command.envs(set.iter().copied());
    let output = command.output().expect("python3 runs");
    String::from_utf8(output.stdout).expect("UTF-8")
}

#[test]
fn colours_are_for_terminals_that_show_them() {
    let words = "check examples/case-p.sheet";
    assert!(on_a_terminal(words, &[]).contains("\x1b[32maccepted\x1b[0m"));
    for set in [("TERM", "dumb"), ("TERM", ""), ("NO_COLOR", "1")] {
        let out = on_a_terminal(words, &[set]);
        assert!(
            out.contains("accepted") && !out.contains('\x1b'),
            "{set:?}: {out}"
        );
    }
}
