//! What mail and editors do to a sheet is named, and desk fix writes the sheet that was meant: the same bytes, or nothing.

use crate::damage::damaged;
use crate::files::{accepted, place, read, run, with_file, NAMES, SCRIPT, SHEET};
use desk::scripts::requests::split;
use pilgonca::Sheet;
use reference::generators::{generate, Profile};
use reference::tiny::texts;
use std::fs;

fn lines(text: &[u8], change: impl Fn(&[u8]) -> Vec<u8>) -> Vec<u8> {
    let lines = text.split_inclusive(|byte| *byte == b'\n');
    lines.flat_map(change).collect()
}

fn crlf(text: &[u8]) -> Vec<u8> {
    lines(text, |line| [&line[..line.len() - 1], b"\r\n"].concat())
}

fn quoted(text: &[u8]) -> Vec<u8> {
    lines(text, |line| [b"> ", line].concat())
}

fn quoted_printable(text: &[u8]) -> Vec<u8> {
    let text = String::from_utf8(text.to_vec()).expect("ASCII");
    text.replace('=', "=3D").into_bytes()
}

fn utf16(text: &[u8], mark: bool, pair: fn(u16) -> [u8; 2]) -> Vec<u8> {
    let mark = mark.then_some(0xfeff).into_iter();
    let units = mark.chain(text.iter().map(|byte| u16::from(*byte)));
    units.flat_map(pair).collect()
}

fn marked(text: &[u8]) -> Vec<u8> {
    [b"\xef\xbb\xbf", text].concat()
}

/// What becomes of a text, what is said of it, and what desk fix says that it changed.
type Spoiling = (fn(&[u8]) -> Vec<u8>, &'static str, &'static str);

const SPOILT: [Spoiling; 13] = [
    (
        marked,
        "a byte order mark (BOM) stands in front",
        "the byte order mark taken away",
    ),
    (crlf, "the line ends with CR LF", "CR LF at the end of"),
    (
        |text| utf16(text, true, u16::to_le_bytes),
        "the file is UTF-16",
        "UTF-16 turned into ASCII",
    ),
    (
        |text| utf16(text, true, u16::to_be_bytes),
        "the file is UTF-16",
        "UTF-16 turned into ASCII",
    ),
    (
        |text| utf16(text, false, u16::to_le_bytes),
        "the file is UTF-16",
        "UTF-16 turned into ASCII",
    ),
    (
        |text| utf16(text, false, u16::to_be_bytes),
        "the file is UTF-16",
        "UTF-16 turned into ASCII",
    ),
    (
        quoted,
        "the mark of quoted mail, >, stands in front",
        "> taken away in front of",
    ),
    (
        quoted_printable,
        "=3D stands in the place of =",
        "=3D turned into =",
    ),
    (
        |text| lines(text, |line| [&line[..line.len() - 1], b"  \n"].concat()),
        "2 spaces stand at the end",
        "spaces taken away",
    ),
    (
        |text| lines(text, |line| [line, b"\n"].concat()),
        "the line is empty",
        "blank lines taken away",
    ),
    (
        |text| text[..text.len() - 1].to_vec(),
        "the file ends in this line, without LF behind it",
        "LF put at the end",
    ),
    (
        |text| marked(&crlf(&quoted(&quoted_printable(text)))),
        "a byte order mark",
        "and =3D turned into =",
    ),
    (
        |text| utf16(&crlf(text), true, u16::to_le_bytes),
        "the file is UTF-16",
        "turned into LF",
    ),
];

#[test]
fn what_spoilt_a_sheet_is_named_and_mended() {
    for file in [SHEET, "examples/categories.sheet"] {
        let meant = read(file);
        for (index, (spoil, named, changed)) in SPOILT.iter().enumerate() {
            with_file(&format!("spoilt-{index}"), &spoil(&meant), |path| {
                let (status, _, error) = run(&["check", path]);
                assert_eq!(status, 1);
                assert!(
                    error.contains(&format!("wrong: {named}")),
                    "{named}: {error}"
                );
                assert!(
                    place(error.lines().next().unwrap_or("")).is_some(),
                    "{error}"
                );
                let hint =
                    format!("desk fix {path} prints what was meant; --out FILE writes it there.");
                assert!(error.replace("\n  ", " ").contains(&hint), "{error}");
                let (status, out, error) = run(&["fix", path]);
                assert_eq!((status, out.as_bytes()), (0, &meant[..]), "{named}");
                assert!(
                    error.starts_with("desk: ") && error.contains(changed),
                    "{error}"
                );
            });
        }
    }
}

#[test]
fn a_file_is_written_only_where_the_core_accepts_it() {
    with_file("meant", b"before\n", |out| {
        let written = || fs::read(out).expect("it is there");
        let leading_zero = crlf(&read("examples/refused-leading-zero.sheet"));
        with_file("zero", &leading_zero, |path| {
            let (status, printed, error) = run(&["fix", path, "--out", out]);
            assert_eq!((status, printed.as_str()), (1, ""));
            assert!(
                error.contains(":23:6: the sheet is refused with 1"),
                "{error}"
            );
            assert!(error.contains("desk fix cannot mend that"), "{error}");
            assert!(error.contains("wrong: a zero stands in front"), "{error}");
            let (_, _, checked) = run(&["check", path]);
            assert!(!checked.contains("desk fix"), "{checked}");
        });
        assert_eq!(written(), b"before\n");
        with_file("mail", &quoted(&read(SHEET)), |path| {
            let told = accepted(&["fix", path, "--out", out]);
            assert!(told.contains("> taken away in front of 44 lines"), "{told}");
        });
        assert_eq!(written(), read(SHEET));
    });
    let (status, out, error) = run(&["fix", SHEET]);
    assert_eq!((status, out.as_bytes()), (0, &read(SHEET)[..]));
    assert!(error.contains("nothing is changed"), "{error}");
}

#[test]
fn scripts_are_mended_too() {
    let meant = read(SCRIPT);
    for spoil in [crlf, quoted, quoted_printable, marked] {
        with_file("script", &spoil(&meant), |path| {
            let (status, out, error) = run(&["fix", path]);
            assert_eq!((status, out.as_bytes()), (0, &meant[..]), "{error}");
        });
    }
    let cut = [&meant[..], b"do=mvoe 0 0 1 2\n"].concat();
    with_file("script", &crlf(&cut), |path| {
        let (status, out, error) = run(&["fix", path]);
        assert_eq!((status, out.as_str()), (1, ""));
        assert!(error.contains("there is no such request"), "{error}");
    });
    let long = [&meant[..], &b"do=new 0 1 4\n".repeat(3000)].concat();
    for text in [long.clone(), crlf(&long)] {
        with_file("long", &text, |path| {
            let (status, out, error) = run(&["fix", path]);
            assert_eq!((status, out.as_str()), (1, ""));
            assert!(
                error.contains("refused with 2: a script has at most"),
                "{error}"
            );
        });
    }
}

/// What mail did to the requests alone is named too.
#[test]
fn what_spoilt_a_request_is_named() {
    let script = read(SCRIPT);
    let (sheet, requests) = split(&script);
    let spoilt: [Spoiling; 3] = [
        (
            quoted,
            "> do=new 0 1 4",
            "the mark of quoted mail, >, stands in front",
        ),
        (
            quoted_printable,
            "do=3Dnew 0 1 4",
            "=3D stands in the place of =",
        ),
        (
            |text| [b"\n", text].concat(),
            "",
            "the line is empty, where a request is due",
        ),
    ];
    for (spoil, shown, named) in spoilt {
        with_file("mailed", &[sheet, &spoil(requests)].concat(), |path| {
            for command in ["run", "audit"] {
                let (status, _, error) = run(&[command, path]);
                assert_eq!(status, 1);
                let line = format!("line 45 | {shown}");
                let line = format!("{}\n", line.trim_end());
                assert!(error.contains(&line), "{error}");
                assert!(error.contains(&format!("wrong: {named}")), "{error}");
                let hint = format!("desk fix {path} prints what was meant;");
                assert!(error.replace("\n  ", " ").contains(&hint), "{error}");
            }
            let (status, out, _) = run(&["fix", path]);
            assert_eq!((status, out.as_bytes()), (0, &script[..]));
        });
    }
    let (_, _, error) = run(&["run", "examples/refused-01.script"]);
    assert!(!error.contains("desk fix"), "{error}");
}

/// Whatever was damaged: what is written is accepted, and what is accepted is written as it is.
#[test]
fn nothing_is_written_that_is_refused() {
    let mut counts = [0; 3];
    let text = read("examples/guide.sheet");
    let few = damaged(&text).step_by(211);
    let generated = (0..40).map(|seed| generate(seed, Profile::Damaged));
    for text in texts().into_iter().chain(few).chain(generated) {
        with_file("any", &text, |path| {
            let (status, out, _) = run(&["fix", path, "--names", NAMES]);
            let kind = match (status, Sheet::read(&text)) {
                (0, Ok(_)) => {
                    assert_eq!(out.as_bytes(), text);
                    0
                }
                (0, Err(_)) => 1,
                (status, read) => {
                    assert_eq!((status, out.as_str()), (1, ""));
                    assert!(read.is_err());
                    2
                }
            };
            let sheet = out.split_inclusive("end=sheet\n").next().unwrap_or("");
            assert!(status == 1 || Sheet::read(sheet.as_bytes()).is_ok());
            counts[kind] += 1;
        });
    }
    assert!(counts.iter().all(|count| *count > 0), "{counts:?}");
}
