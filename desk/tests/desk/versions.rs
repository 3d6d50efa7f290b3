//! `desk powers` and `desk diff`.

use crate::files::{accepted, read, run, with_file, NAMES, SHEET};
use desk::scripts::requests::split;
use reference::generators::{generate, Profile};
use reference::tiny::texts;

#[test]
fn powers_of_case_p() {
    let out = accepted(&["powers", SHEET, "--names", NAMES]);
    let forwarder =
        "type 3 (forwarder)\n  leads to objects of  1 log\n  can call             read\n  \
        can come to call     mark (as 5 marker)\n  never                erase\n";
    assert!(out.contains(forwarder), "{out}");
    let reader = "  can call             read\n  can come to call     nothing\n  never                mark, erase\n";
    assert!(out.contains(reader), "{out}");
    assert!(
        out.contains("type 4 (whole log), own: only the owner holds it\n"),
        "{out}"
    );
}

/// Case P with another line in place of one of a type's.
fn changed(type_: usize, method: usize, line: &str) -> Vec<u8> {
    let text = String::from_utf8(read(SHEET)).expect("ASCII");
    let mut lines: Vec<&str> = text.lines().collect();
    let at = lines
        .iter()
        .position(|line| *line == format!("type={type_}"));
    // behind type=, rep=, cat= and own=
    lines[at.expect("a type") + 4 + method] = line;
    (lines.join("\n") + "\n").into_bytes()
}

fn differs(old: &[u8], new: &[u8]) -> (i32, String) {
    let mut found = (0, String::new());
    with_file("old", old, |old| {
        with_file("new", new, |new| {
            let (status, out, error) = run(&["diff", old, new, "--names", NAMES]);
            assert_eq!(error, "");
            found = (status, out);
        });
    });
    found
}

#[test]
fn a_new_version_is_told_by_what_it_gives_and_takes() {
    let (old, new) = (read(SHEET), changed(2, 1, "m=optional(0)-"));
    assert_eq!(
        differs(&old, &old),
        (0, "The two sheets say the same.\n".to_string())
    );
    let (status, given) = differs(&old, &new);
    assert_eq!(status, 1);
    for part in [
        "type 2 (reader)\n  ~ method 1 (mark): denied before, optional (takes 0 number, answers nothing) now\n",
        "  + its holder can come to call mark alone (as 5 marker); before: can never call mark\n",
        "  + can become 5 marker now\n",
        "In all: gives 2, takes 0, changes 1 besides.",
    ] {
        assert!(given.contains(part), "{part}: {given}");
    }
    let (status, taken) = differs(&new, &old);
    assert_eq!(status, 1);
    assert!(taken.contains("  - its holder can never call mark; before: can come to call mark alone (as 5 marker)\n"), "{taken}");
    assert!(
        taken.contains("  - can no longer become 5 marker\n"),
        "{taken}"
    );
    assert!(taken.contains("gives 0, takes 2"), "{taken}");
}

#[test]
fn types_come_and_go() {
    let old = read(SHEET);
    let text = String::from_utf8(old.clone()).expect("ASCII");
    let new = text
        .replace("types=6", "types=7")
        .replace("subjects=3", "subjects=4");
    let new = new.replace(
        "end=sheet",
        "type=6\nrep=ref\ncat=0\nown=no\nm=denied\nm=denied\nm=avail()-\nend=sheet",
    );
    let (status, out) = differs(&old, new.as_bytes());
    assert_eq!(status, 1);
    for part in [
        "  ~ 3 subjects before, 4 now\n  ~ 6 types before, 7 now\n",
        "type 6\n  ~ new: ref\n  + a reference of this type can be had now\n  + its holder can call erase; before: can never call erase\n",
    ] {
        assert!(out.contains(part), "{part}: {out}");
    }
    let (_, out) = differs(new.as_bytes(), &old);
    assert!(
        out.contains(
            "type 6\n  ~ gone; it was ref\n  - no reference of this type can be had any more\n"
        ),
        "{out}"
    );
}

/// Any two sheets get an answer, and a sheet and itself the one that is due.
#[test]
fn any_sheets_can_be_compared() {
    // each tiny sheet with the next, and the last with the first
    let tiny = texts();
    let next = tiny.clone().into_iter().cycle().skip(1);
    let tiny = tiny.into_iter().zip(next);
    let medium = (0..12).map(|seed| {
        let text = |seed| split(&generate(seed, Profile::Medium)).0.to_vec();
        (text(seed), text(seed + 100))
    });
    for (one, other) in tiny.chain(medium) {
        let [one, other] = [&one, &other];
        with_file("one", one, |one| {
            with_file("other", other, |other| {
                assert_eq!(run(&["diff", one, one]).0, 0);
                let (status, out, error) = run(&["diff", one, other]);
                assert_eq!((status, error.as_str()), (1, ""), "{out}");
                accepted(&["powers", one]);
            });
        });
    }
    for words in [
        &["diff", SHEET][..],
        &["diff", SHEET, SHEET, SHEET],
        &["powers"],
        &["diff", SHEET, SHEET, "--calls"],
    ] {
        assert_eq!(run(words).0, 2, "{words:?}");
    }
    // no answer is not the answer no
    for words in [
        ["no/such/file", SHEET],
        [SHEET, "examples/refused-no-end.sheet"],
    ] {
        assert_eq!(run(&["diff", words[0], words[1]]).0, 3, "{words:?}");
    }
}
