//! The audit as a referee reads it: who can call, who can come to, who was told of nothing more; the calls; and a status that answers.

use crate::files::{accepted, read, run, with_file, NAMES, SCRIPT, SHEET};
use crate::json::Value;
use crate::pictures::sixteen;
use desk::scripts::requests::split;
use pilgonca::Visit;
use reference::generators::{generate, on_tiny, Profile};

/// Case P, where the printer was lent the log as a type in which mark is optional.
pub const OPTIONAL: &str = "examples/optional.script";

#[test]
fn what_is_optional_can_be_come_to() {
    let out = accepted(&["audit", OPTIONAL, "--names", NAMES]);
    for part in [
        "subject 2 (printer)  cell 1    can come to call alone: to itself as 5 marker",
        "subject 2 (printer)  cell 2    can call",
        "cell 2    desk made it as 4 whole log > desk to printer as 3 forwarder > printer to itself as 5 marker",
        "Nothing is ever taken away",
    ] {
        assert!(out.contains(part), "{part}: {out}");
    }
    assert!(!out.contains("hand on"), "{out}");
}

/// Three methods: one that is called, one that may come to be, and one that no type but the class lets be called.
const ONLY: &str = "guide=1\nsubjects=2\nmethods=1\ncats=0\ntypes=3\ntype=0\nrep=w32\ncat=0\ntype=1\nrep=ref\ncat=0\nown=no\nm=avail(0)-\n\
    type=2\nrep=ref\ncat=0\nown=no\nm=optional(0)-\nend=sheet\ndo=new 0 1 2\ndo=move 0 0 1 2\n";

#[test]
fn three_things_are_told_apart() {
    // type 1, the class, can be had from type 2 by both
    with_file("come", ONLY.as_bytes(), |path| {
        let out = accepted(&["audit", path]);
        assert_eq!(
            out.matches("can come to call alone: to itself as type 1")
                .count(),
            2,
            "{out}"
        );
    });
    // with another method that type 2 hides and the class has, the class cannot be had
    let only = ONLY
        .replace("methods=1", "methods=2")
        .replace("m=avail(0)-\n", "m=avail(0)-\nm=avail()-\n");
    let only = only.replace("m=optional(0)-\n", "m=optional(0)-\nm=denied\n");
    with_file("only", only.as_bytes(), |path| {
        let out = accepted(&["audit", path]);
        assert_eq!(
            out.matches("offers: no type that the reference can be handed on as lets it be called")
                .count(),
            2,
            "{out}"
        );
        assert!(out.contains("method 1: nobody"), "{out}");
        let (status, _, _) = run(&["audit", path, "--method", "0"]);
        assert_eq!(status, 1);
    });
}

/// The owner can take back what its cell hides.
#[test]
fn an_owner_comes_to_what_its_cell_hides() {
    let script = [split(&read(SCRIPT)).0, b"do=new 0 1 2\ndo=move 0 0 1 2\n"].concat();
    with_file("owner", &script, |path| {
        let out = accepted(&["audit", path, "--names", NAMES, "--method", "mark"]);
        assert!(
            out.contains(
                "subject 0 (desk)     cell 0    can come to call alone: to itself as 4 whole log"
            ),
            "{out}"
        );
        assert!(!out.contains("subject 1 (tour)     cell 1"), "{out}");
    });
}

/// Where no type has own, what an adapter took away does not come back for the owner either, and that is settled at once.
#[test]
fn an_owner_without_own_types_comes_to_no_more() {
    let mut script = sixteen() + "do=new 0 1 1\n";
    for hidden in 0..8 {
        let (cell, [denies, shows]) = (2 * hidden, [2 + 2 * hidden, 3 + 2 * hidden]);
        script += &format!(
            "do=move 0 {cell} 0 {denies}\ndo=move 0 {} 0 {shows}\n",
            cell + 1
        );
    }
    with_file("no-own", script.as_bytes(), |path| {
        let out = accepted(&["audit", path, "--method", "0"]);
        let told = out.lines().filter(|line| line.contains("subject 0  cell "));
        let told: Vec<&str> = told.collect();
        assert_eq!(told.len(), 1, "{out}");
        assert!(told[0].ends_with("cell 0    can call"), "{out}");
    });
}

#[test]
fn calls_are_listed() {
    let out = accepted(&["audit", OPTIONAL, "--names", NAMES]);
    for part in [
        "call 0    subject 2 (printer) called method 1 (mark) of the object at place 0 through cell 2 with 7, line 48",
        "types behind it: 5 marker > 1 log",
        "not answered",
        "answered by subject 0 (desk) with 12, line 50",
    ] {
        assert!(out.contains(part), "{part}: {out}");
    }
    assert!(accepted(&["audit", SCRIPT]).contains("\nCalls: none\n"));
    let none: [(&[&str], &str); 3] = [
        (&["--method", "erase"], "Calls of method 2 (erase): none\n"),
        (&["--subject", "1"], "Calls by subject 1 (tour): none\n"),
        (
            &["--subject", "0", "--method", "1", "--calls"],
            "Calls by subject 0 (desk) of method 1 (mark): none\n",
        ),
    ];
    for (words, title) in none {
        let (_, out, _) = ask(words);
        assert!(out.contains(title), "{words:?}: {out}");
    }
    let through = accepted(&["audit", "examples/two-adapters.script"]);
    assert!(
        through.contains("types behind it: type 5 > [permits method 0 and method 1; from "),
        "{through}"
    );
    assert!(
        through.contains("which became the caller's cell 6"),
        "{through}"
    );
}

/// What is asked of OPTIONAL, the status, and the answer.
pub const ASKED: [(&[&str], i32, &str); 7] = [
    (
        &["--subject", "printer", "--method", "mark"],
        0,
        "Could subject 2 (printer) have called method 1 (mark)? yes",
    ),
    (
        &["--subject", "printer", "--method", "erase"],
        1,
        "Could subject 2 (printer) have called method 2 (erase)? no",
    ),
    (
        &["--subject", "tour"],
        1,
        "Could subject 1 (tour) have called anything? no",
    ),
    (
        &["--method", "2"],
        0,
        "Could anybody have called method 2 (erase)? yes",
    ),
    (
        &["--subject", "2", "--method", "1", "--calls"],
        0,
        "Did subject 2 (printer) call method 1 (mark)? yes",
    ),
    (
        &["--subject", "0", "--method", "1", "--calls"],
        1,
        "Did subject 0 (desk) call method 1 (mark)? no",
    ),
    (&["--calls"], 0, "Did anybody call anything? yes"),
];

fn ask(words: &[&str]) -> (i32, String, String) {
    run(&[&["audit", OPTIONAL, "--names", NAMES], words].concat())
}

#[test]
fn the_status_answers() {
    for (words, status, answer) in ASKED {
        let (found, out, error) = ask(words);
        assert_eq!((found, error.as_str()), (status, ""), "{words:?}: {out}");
        assert!(out.ends_with(&format!("{answer}\n")), "{words:?}: {out}");
    }
    let (_, narrow, _) = ask(&["--subject", "tour", "--method", "mark"]);
    assert!(
        narrow.contains("method 1 (mark): not subject 1 (tour)"),
        "{narrow}"
    );
    assert!(
        !narrow.contains("cell 1") && !narrow.contains("call 0"),
        "{narrow}"
    );
    let (_, _, error) = ask(&["--subject", "Printer"]);
    let named = "no subject is named \"Printer\" (the names: desk, tour and printer)";
    assert!(error.contains(named), "{error}");
    for words in [
        &["--subject", "3"][..],
        &["--method", "-1"],
        &["--subject", "nobody"],
    ] {
        let (status, out, error) = ask(words);
        assert_eq!((status, out.as_str()), (2, ""), "{words:?}");
        assert!(error.starts_with("desk: "), "{error}");
    }
}

/// A sheet is a script without requests: no, and it is said why.
#[test]
fn a_sheet_alone_is_told() {
    let none = "There are no requests: this is a sheet alone, and nobody was given a reference.\n";
    for (words, status) in [
        (&["--subject", "2", "--method", "1"][..], 1),
        (&["--calls"], 1),
        (&[], 0),
    ] {
        let (found, out, error) = run(&[&["audit", SHEET], words].concat());
        assert_eq!((found, error.as_str()), (status, ""), "{words:?}");
        assert!(out.starts_with(none), "{words:?}: {out}");
    }
    let cut = [&read(SHEET)[..], b"do=\n"].concat();
    with_file("sheet-cut", &cut, |path| {
        assert!(!run(&["audit", path]).1.contains(none));
    });
    assert!(!accepted(&["audit", SCRIPT]).contains(none));
}

/// What there was room for once is told as that, and is a yes: the question is about the whole visit.
#[test]
fn what_there_was_room_for_counts() {
    let fill = b"do=move 0 0 0 4\n".repeat(254);
    let script = [
        split(&read(OPTIONAL)).0,
        b"do=new 0 1 4\ndo=move 0 0 2 3\n",
        &fill,
    ]
    .concat();
    with_file("room", &script, |path| {
        let mark = [
            "audit",
            path,
            "--names",
            NAMES,
            "--subject",
            "printer",
            "--method",
            "mark",
        ];
        let out = accepted(&mark);
        let once = "could come to call alone, to itself as 5 marker, while there was room; now no cell is free";
        let out = out.replace("\n                                   ", " ");
        assert!(out.contains(once) && out.contains("(mark)? yes"), "{out}");
    });
}

/// An owner's cells hide mark, and there is no room to take the object back: that is not what `offers` means.
#[test]
fn no_room_is_not_told_as_offered() {
    let requests = [&b"do=new 0 1 2\n"[..], &b"do=move 0 0 0 2\n".repeat(255)].concat();
    let script = [split(&read(SCRIPT)).0, &requests].concat();
    with_file("full.script", &script, |script| {
        with_file("full.state", b"", |state| {
            accepted(&["run", script, "--save", state]);
            let out = accepted(&["audit", state, "--names", NAMES]);
            let found =
                "no room: no way to call it was found, and no cell is free for further ones";
            assert_eq!(out.matches(found).count(), 2 * 256, "{out}");
            assert!(!out.contains("offers:"), "{out}");
            assert!(out.contains("\n  no room           no way to call it was found"));
        });
    });
}

/// What the documents said of optional, and what holds.
#[test]
fn the_documents_say_what_holds_of_optional() {
    let guide = String::from_utf8(read("docs/GUIDE.md")).expect("UTF-8");
    let background = String::from_utf8(read("docs/BACKGROUND.md")).expect("UTF-8");
    for text in [&guide, &background] {
        for wrong in [
            "the module cannot use it",
            "is\nthe right to pass on without the right to use",
            "hands a reference on without using the method",
            "optional` is for handing on",
            "`optional` at least, all the way",
            "it cannot be called |",
            "no type of the sheet lets it be called",
        ] {
            assert!(!text.contains(wrong), "{wrong}");
        }
    }
    assert!(guide.contains("Whoever holds a reference that offers a method may come to call it."));
    let flat = guide.replace('\n', " ");
    for right in [
        "no type that the reference can be handed on as lets it be called, the audit says `offers`",
        "(a yes with a condition, such as `for the owner of its object alone, if ..`, is 0 too)",
        "`never` for `offers` in an audit",
    ] {
        assert!(flat.contains(right), "{right}");
    }
    assert!(background.contains("may come to call it"));
    let eight = accepted(&["explain", "8"]);
    assert!(eight.contains("come to call it"), "{eight}");
}

/// A question that cannot be answered is not answered with no.
#[test]
fn no_answer_is_not_no() {
    let mark = ["--subject", "2", "--method", "1"];
    let ask = |path: &str| run(&[&["audit", path], &mark[..]].concat());
    assert_eq!(ask("no/such/file").0, 3);
    let names = ["audit", OPTIONAL, "--names", "no/such/file", "--calls"];
    assert_eq!(run(&names).0, 3);
    assert_eq!(ask("examples/refused-leading-zero.sheet").0, 3);
    let optional = read(OPTIONAL);
    with_file("late", &[&optional[..], b"do=\n"].concat(), |path| {
        assert_eq!(ask(path).0, 0)
    });
    let early = [split(&optional).0, b"do=\ndo=new 0 1 4\n"].concat();
    with_file("early", &early, |path| {
        for (calls, question) in [
            (&[][..], "Could subject 2 have called method 1?"),
            (&["--calls"], "Did subject 2 call method 1?"),
        ] {
            let words = [&["audit", path], &mark[..], calls].concat();
            let (status, out, _) = run(&words);
            let answer = format!("{question} not up to line 45, where the script is cut short\n");
            assert!(status == 3 && out.ends_with(&answer), "{status}: {out}");
            let (status, out, _) = run(&[&words[..], &["--json"]].concat());
            let document = Value::read(&out);
            let answer = document.get("result").get("question").get("answer");
            assert_eq!((status, answer), (3, &Value::Null), "{out}");
        }
    });
}

#[test]
fn a_script_that_is_cut_short_says_so_in_the_report() {
    let cut = [read(OPTIONAL), b"do=move 2 2 1\ndo=new 0 1 4\n".to_vec()].concat();
    let line = format!("The script is cut short: line {} is no request", 51);
    with_file("cut", &cut, |path| {
        for command in ["run", "audit"] {
            let (status, out, error) = run(&[command, path]);
            assert_eq!(status, 1);
            assert!(
                out.contains(&line) && error.contains("refused with 1"),
                "{out}{error}"
            );
        }
        let (_, out, _) = run(&["audit", path, "--calls"]);
        assert!(out.contains(&line), "{out}");
        let (_, out, _) = run(&["audit", path]);
        assert!(out.contains("so this covers the visit up to line 51.\n"));
        assert!(!out.contains("the whole visit"), "{out}");
    });
    for command in ["run", "audit"] {
        assert!(!accepted(&[command, OPTIONAL]).contains("cut short"));
    }
}

/// The numbers of types that a text names: in words, or in JSON.
fn numbered(text: &str) -> Vec<i64> {
    let marks = ["type ", "\"type\":{\"number\":", "\"class\":{\"number\":"];
    let found = marks.iter().flat_map(|mark| text.split(mark).skip(1));
    let found = found.filter_map(|rest| {
        let digits = rest.split(|letter: char| !letter.is_ascii_digit()).next()?;
        digits.parse().ok()
    });
    found.collect()
}

/// No derived type is told by its number alone.
#[test]
fn derived_types_are_told_in_words() {
    let commands: [&[&str]; 5] = [
        &["audit"],
        &["audit", "--json"],
        &["run"],
        &["run", "--json"],
        &["run", "--svg=-"],
    ];
    let mut told = [0; 5];
    // each tiny sheet by one of them in turn, and others by all
    let tiny = (0..).zip(on_tiny(0)).map(|(number, input)| {
        let command = number % commands.len();
        (command..command + 1, input)
    });
    let others = (0..40).map(|seed| (0..5, generate(seed, Profile::Medium)));
    for (chosen, input) in tiny.chain(others) {
        let Ok(visit) = Visit::load(split(&input).0) else {
            continue;
        };
        let last = visit.sheet().sheet_types() as i64;
        with_file("derived", &input, |path| {
            for (command, told) in commands[chosen.clone()].iter().zip(&mut told[chosen]) {
                let (_, out, _) = run(&[command, &[path][..]].concat());
                *told += out.matches("[permits ").count();
                *told += out.matches("type that permits ").count();
                // what a request names is told as it was written
                let requests = String::from_utf8_lossy(&input);
                for number in numbered(&out).into_iter().filter(|number| *number >= last) {
                    let written = requests.contains(&format!(" {number}"));
                    let is_run = matches!(command, ["run"] | ["run", "--json"]);
                    assert!(written && is_run, "{requests}{command:?}: type {number}");
                }
            }
        });
    }
    println!("{told:?} derived types told");
    assert!(told.iter().all(|count| *count > 20), "{told:?}");
}

#[test]
fn a_sheet_alone_is_a_script_without_requests() {
    assert!(accepted(&["audit", SHEET]).contains("No object was made."));
}
