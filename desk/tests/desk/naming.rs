//! Names are read from a file, and a line that can't be used is told with its number.

use crate::files::{accepted, refused, with_file, SHEET};

/// The fourth line of a file, and what is said of it; nothing where it can be used.
const LINES: [(&str, &str); 15] = [
    ("module 1 x", "\"module\" can have no name"),
    ("method", "it takes a kind, a number and a name"),
    ("method 1", "it takes a kind, a number and a name"),
    ("method x y", "\"x\" is no number of a method"),
    ("method 16 x", "they go from 0 to 15"),
    ("category 0 x", "they go from 1 to 31"),
    ("type 48 x", "they go from 0 to 47"),
    ("subject -1 x", "is no number of a subject"),
    ("method 0 mark", "method 1 is named mark already, on line 2"),
    ("method 1 x", "method 1 has a name already, on line 2"),
    ("method 0 17", "the name 17 is a number"),
    ("method 0 a\tb", "a control character"),
    (
        "method 3 x",
        "there is no method 3: the sheet has numbers from 0 to 2 for that",
    ),
    ("category 1 x", "there is no category 1: the sheet has none"),
    ("method 0 \u{e9}", ""),
];

#[test]
fn names_that_cannot_be_used() {
    for (line, why) in LINES {
        let text = format!("# comment\nmethod 1 mark\n\n{line}\n");
        with_file("names", text.as_bytes(), |path| {
            let words = ["check", SHEET, "--names", path];
            if why.is_empty() {
                assert!(accepted(&words).contains("0 \u{e9}"));
                return;
            }
            let error = refused(&words);
            assert!(
                error.contains(", line 4: ") && error.contains(why),
                "{line}: {error}"
            );
        });
    }
    with_file("bytes", b"method 1 \xff\n", |path| {
        assert!(refused(&["check", SHEET, "--names", path]).contains(", line 1: not UTF-8"));
    });
}
