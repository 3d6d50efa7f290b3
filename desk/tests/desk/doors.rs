//! `desk doors`: files of times in every form, what is told of those that are not, the core's counts against another way of counting, and which entries stay
//! unpaired.

use crate::files::{accepted, desk, failed, no, read, run, told, with_file};
use crate::json::Value;
use crate::pairing::{can_be_paired, most_pairs, Lists};
use std::io::Write;
use std::process::Stdio;

pub const MARKS: &str = "examples/marks.csv";
pub const ARRIVALS: &str = "examples/arrivals.list";

/// The words for two files, with a tolerance.
fn words<'a>(marks: &'a str, arrivals: &'a str, more: &[&'a str]) -> Vec<&'a str> {
    [&["doors", marks, arrivals][..], more].concat()
}

/// The document of two files, whatever the answer is.
fn document(marks: &str, arrivals: &str, more: &[&str]) -> Value {
    let words = words(marks, arrivals, &[more, &["--json"]].concat());
    let (status, out, error) = run(&words);
    assert!(status < 2 && error.is_empty(), "{words:?}: {error}");
    Value::read(&out)
}

/// The unpaired entries of one of the lists: number, line and time.
fn unpaired(document: &Value, list: &str) -> Vec<[i64; 3]> {
    let entries = document.get("result").get(list).get("unpaired").list();
    let each = |entry: &Value| ["number", "line", "time"].map(|name| entry.get(name).number());
    entries.iter().map(each).collect()
}

/// Every time of a text, with its line: held against nothing, all are unpaired.
fn times(text: &str, more: &[&str]) -> Vec<(i64, i64)> {
    let mut found = Vec::new();
    with_file("times", text.as_bytes(), |path| {
        let document = document(path, "/dev/null", &[&["--within=0"], more].concat());
        let entries = unpaired(&document, "marks");
        let result = document.get("result");
        assert_eq!(
            result.get("marks").get("times").number(),
            entries.len() as i64
        );
        assert_eq!(result.get("unpaired_marks").number(), entries.len() as i64);
        assert!(entries
            .iter()
            .zip(0..)
            .all(|([number, ..], index)| *number == index));
        found.extend(entries.iter().map(|[_, line, time]| (*line, *time)));
    });
    found
}

#[test]
fn the_example_in_words() {
    let out = no(&words(MARKS, ARRIVALS, &["--within", "1000"]));
    for part in [
        "marks     6 times of examples/marks.csv, column 2 (time_ms)\n",
        "arrivals  5 times of examples/arrivals.list\n",
        "within    1000 ms\n",
        "  pairs              4\n  unpaired marks     2\n  unpaired arrivals  1\n",
        "  mark 4  line 6  61200 ms  every arrival near it is in another pair\n",
        "  mark 5  line 7  90500 ms  no arrival is within 1000 ms\n",
        "  arrival 4  line 5  75000 ms  no mark is within 1000 ms\n",
        "no pairing within 1000 ms has more pairs",
        "\nDoes an arrival account for every mark? no\n",
    ] {
        assert!(out.contains(part), "{part}: {out}");
    }
    assert!(out.lines().all(|line| line.len() <= 110), "{out}");
    let all = accepted(&words(ARRIVALS, MARKS, &["--within=60000"]));
    for part in ["  unpaired marks     0\n", "every mark? yes\n"] {
        assert!(all.contains(part), "{part}: {all}");
    }
    assert!(!all.contains("Unpaired marks") && all.contains("Unpaired arrivals"));
    let none = accepted(&words("/dev/null", "/dev/null", &["--within=0"]));
    assert!(
        !none.contains("Unpaired") && !none.contains("An entry"),
        "{none}"
    );
}

/// visit.doors is the same for the program `doors`.
#[test]
fn the_examples_have_the_same_times() {
    let text = String::from_utf8(read("examples/visit.doors")).expect("ASCII");
    let lines: Vec<&str> = text.lines().collect();
    let numbers = |line: &str| -> Vec<i64> {
        line.split(' ')
            .map(|word| word.parse().expect("a time"))
            .collect()
    };
    for (file, line) in [(MARKS, lines[1]), (ARRIVALS, lines[2])] {
        let text = String::from_utf8(read(file)).expect("ASCII");
        let found: Vec<i64> = times(&text, &[])
            .into_iter()
            .map(|(_, time)| time)
            .collect();
        assert_eq!(found, numbers(line), "{file}");
    }
    assert_eq!((lines[0], lines.len()), ("within=1000", 3));
}

#[test]
fn lists_have_blanks_commas_and_line_ends() {
    let three = [(1, 10), (1, 20), (1, 30)];
    for text in [
        "10 20 30",
        "10,20,30\n",
        "10, 20,  30\n",
        " 10\t20,30,\r\n",
        "\u{feff}10 20 30\n",
    ] {
        assert_eq!(times(text, &[]), three, "{text:?}");
    }
    let lines = [(1, 10), (2, 20), (4, 30)];
    for text in [
        "10\n20\n\n30",
        "10\r\n20\r\n\r\n30\r\n",
        "\"10\"\n\"20\"\n\n\"30\"\n",
        "10\n20,\n \n30\n",
    ] {
        assert_eq!(times(text, &[]), lines, "{text:?}");
    }
    assert_eq!(times("10,20\n30\n", &[]), [(1, 10), (1, 20), (2, 30)]);
    assert_eq!(times("0\n4294967295\n", &[]), [(1, 0), (2, 4_294_967_295)]);
    for text in [
        "",
        "\n",
        " \r\n\r\n",
        "\u{feff}",
        ",,\n",
        "time_ms\n",
        "a,time\n",
    ] {
        assert_eq!(times(text, &[]), [], "{text:?}");
    }
}

#[test]
fn tables_have_their_times_in_a_column() {
    let two = [(2, 10), (3, 20)];
    for text in [
        "time\n10\n20\n",
        "at\n10\n20\n",
        "door,time\na,10\nb,20\n",
        "Door;MS\r\na;10\r\nb;20\r\n",
        "\u{feff}\"Time_Ms\",door\n\"10\",\"a, b\"\n 20 ,c\n,\n",
        "note,time\n\"say \"\"so\"\", or\",10\n,20\n",
        "\"a;b,c\";time\n1,5;10\n2,5;20\n",
    ] {
        assert_eq!(times(text, &[]), two, "{text:?}");
    }
    // a cell that goes over a line's end
    assert_eq!(
        times("note,ms\n\"two\nlines\",10\nx,20\n", &[]),
        [(3, 10), (4, 20)]
    );
}

#[test]
fn a_column_is_chosen_by_name_or_number() {
    let table = "time,count,Time\n1,10,100\n2,20,200\n";
    let numbered = "1,10,100\n2,20,200\n";
    for (text, column, first) in [
        (table, "count", 10),
        (table, "COUNT", 10),
        (table, "Time", 100),
        (table, "3", 100),
        (numbered, "1", 1),
        (numbered, "2", 10),
    ] {
        let found = times(text, &["--column", column]);
        assert_eq!((found.len(), found[0].1), (2, first), "{text:?} {column}");
        assert_eq!(times(text, &["--marks-column", column]), found);
        let other = ["--arrivals-column", "9", "--marks-column", column];
        assert_eq!(times(text, &other), found);
        assert_eq!(
            times(text, &["--column=9", "--marks-column", column]),
            found
        );
    }
    // a first line whose cell is a time is no header, whatever its other cells are
    assert_eq!(
        times("10,door a\n20,door b\n", &["--column=1"]),
        [(1, 10), (2, 20)]
    );
    // a file with one column needs no choice
    for column in ["--column=time", "--column=2"] {
        assert_eq!(times("10\n20\n", &[column]), [(1, 10), (2, 20)]);
        assert_eq!(times("at\n10\n20\n", &[column]), [(2, 10), (3, 20)]);
    }
    assert_eq!(times("10,20\n", &["--column=time"]), [(1, 10), (1, 20)]);
}

const ASKS: &str = "--column says which column has the times, by its name or number";

/// A text, the column that is asked for, and what is told: why, and the columns that there are.
const COLUMNS: [(&str, Option<&str>, &str, &str); 10] = [
    ("door,at\na,10\n", None, ASKS, "1 (door) and 2 (at)"),
    (
        "door,at\na,10\n",
        Some("when"),
        "no column is named \"when\"",
        "1 (door) and 2 (at)",
    ),
    (
        "door,at\na,10\n",
        Some("3"),
        "there is no column 3",
        "1 (door) and 2 (at)",
    ),
    (
        "door;at\na;10\n",
        Some("0"),
        "there is no column 0",
        "1 (door) and 2 (at)",
    ),
    ("ms,time\n1,2\n", None, ASKS, "1 (ms) and 2 (time)"),
    (
        "a,a,\n1,2,3\n",
        Some("a"),
        "2 columns are named \"a\"",
        "1 (a), 2 (a) and 3",
    ),
    ("A,a,b\n1,2,3\n", Some("B"), "", ""),
    ("7,10\n8,20\n", None, ASKS, "1 (7) and 2 (10)"),
    ("7;10\n", None, ASKS, "1 (7) and 2 (10)"),
    (
        "7,10\n8,20\n",
        Some("at"),
        "no column is named \"at\"",
        "1 (7) and 2 (10)",
    ),
];

#[test]
fn an_unknown_column_is_told_with_those_there_are() {
    for (text, column, why, columns) in COLUMNS {
        with_file("columns", text.as_bytes(), |path| {
            let column = column.map(|column| format!("--column={column}"));
            let mut words = words(path, "/dev/null", &["--within=0"]);
            words.extend(column.as_deref());
            if why.is_empty() {
                no(&words);
                return;
            }
            let due = format!("desk: {path}: {why}; line 1 has the columns {columns}\n");
            assert_eq!(failed(&words, 2), due);
        });
    }
}

/// Lines with equally many numbers, and blanks or more commas in some: --column does not make them a table.
const EQUALLY_MANY: [(&str, usize); 9] = [
    ("0 100\n100 200\n200 300\n", 2),
    ("0\t100\n150\t200\n", 2),
    ("7 10\n8 20\n", 2),
    ("7 \t10\r\n\r\n 8 20 \r\n", 2),
    ("7 10,\n8 20", 2),
    ("7,10\n8 20\n", 2),
    ("7 10\n8,20\n", 2),
    ("7,10,\n8,20\n", 2),
    ("1 2 3\n4,5 6\n", 3),
];

/// One line of numbers is a list, and so are several that have not equally many, unless a column is asked for by number: then it is not plain what it is.
#[test]
fn what_may_be_a_list_or_a_table_is_not_read() {
    for text in ["7,10\n", "7,10\n8\n", "7 10\n", "7\t10\n8\n", "7,\n8\n"] {
        with_file("list-or-table", text.as_bytes(), |path| {
            let words = words(path, "/dev/null", &["--within=0", "--column=2"]);
            let why = "this may be a list of times, or a table with the times in column 2";
            let error = failed(&words, 2);
            assert!(
                error.contains(&format!("{path}: {why}: put each time")),
                "{error}"
            );
        });
    }
    for (text, count) in EQUALLY_MANY {
        with_file("equally-many", text.as_bytes(), |path| {
            for more in [&[][..], &["--column=2"], &["--column=time"]] {
                let words = words(path, "/dev/null", &[&["--within=0"], more].concat());
                let error = failed(&words, 3);
                let wrong = format!("\n  wrong: each line has {count} numbers: this may be a list of times, or a table");
                assert!(error.starts_with(&format!("{path}:1:1: ")), "{error}");
                assert!(error.contains(&wrong), "{text:?}: {error}");
            }
        });
    }
    let three = [(1, 7), (1, 8), (2, 9)];
    for text in ["7 8\n9\n", "7\t8\n9", "7,8\n9\n", "7, 8,\r\n9,\r\n"] {
        assert_eq!(times(text, &[]), three, "{text:?}");
    }
}

/// A text that is no list, where it is told, and what is wrong there.
const FAULTS: [(&str, usize, usize, &str); 26] = [
    (
        "10\n2O\n",
        2,
        1,
        "letters stand behind the number, as a unit does",
    ),
    ("10 ms\n20 ms\n", 1, 4, "this is no number"),
    (
        "time\n10 ms\n",
        2,
        1,
        "the number has more in it than digits",
    ),
    (
        "10ms\n",
        1,
        1,
        "letters stand behind the number, as a unit does",
    ),
    ("10, 20, x\n", 1, 1, ""),
    ("10\n20,x\n", 2, 4, "this is no number"),
    ("-5\n", 1, 1, "a sign stands in front of the number"),
    ("5,+6\n", 1, 3, "a sign stands in front of the number"),
    ("10\n020\n", 2, 1, "a zero stands in front of the number"),
    ("1,000\n", 1, 3, "a zero stands in front of the number"),
    ("\"1,000\"\n", 1, 1, "the number has more in it than digits"),
    ("1.5\n", 1, 1, "the number has more in it than digits"),
    (".5\n", 1, 1, "this is no number"),
    (
        "1\u{a0}000\n",
        1,
        1,
        "the number has more in it than digits",
    ),
    ("\"10 20\"\n", 1, 1, "the number has more in it than digits"),
    ("\"10\"5\n", 1, 1, "the number has more in it than digits"),
    (
        "10\n12:30:00\n",
        2,
        1,
        "this reads like a date or a time of day, and desk reads neither",
    ),
    (
        "2026-11-17\n",
        1,
        1,
        "this reads like a date or a time of day, and desk reads neither",
    ),
    (
        "time,a\n17/11/2026,b\n",
        2,
        1,
        "this reads like a date or a time of day, and desk reads neither",
    ),
    (
        "door,time\na,10\nb,\n",
        3,
        3,
        "the cell is empty, and a time is due in it",
    ),
    (
        "door,time\r\na,\r\n",
        2,
        3,
        "the cell is empty, and a time is due in it",
    ),
    (
        "door,time\na,10\nb,c,20\n",
        3,
        1,
        "the line has 3 cells, and line 1 has 2",
    ),
    (
        "door,time\n10\n",
        2,
        1,
        "the line has 1 cell, and line 1 has 2",
    ),
    (
        "time\n\"10\n20\n",
        2,
        1,
        "the cell begins with a quote, and no quote ends it",
    ),
    (
        "within=5\n10\n20\n",
        1,
        1,
        "this is an input of the program doors, which has both lists in it",
    ),
    (
        "1\0\n\0",
        1,
        1,
        "the file is UTF-16: it has two bytes for each character",
    ),
];

#[test]
fn what_is_no_time_is_told_with_its_line() {
    for (text, line, column, wrong) in FAULTS {
        with_file("faults", text.as_bytes(), |path| {
            for (files, what) in [
                ([path, "/dev/null"], "marks"),
                (["/dev/null", path], "arrivals"),
            ] {
                let words = words(files[0], files[1], &["--within=0"]);
                if wrong.is_empty() {
                    // a name stands among its columns, so they are to be chosen from
                    assert!(failed(&words, 2).contains("3 (x)"));
                    continue;
                }
                let error = failed(&words, 3);
                let head = format!("{path}:{line}:{column}: the list of {what} cannot be read\n");
                assert!(error.starts_with(&head), "{text:?}: {error}");
                assert!(
                    error.contains(&format!("\n  wrong: {wrong}\n  right: ")),
                    "{text:?}: {error}"
                );
                assert!(
                    error.contains(&format!("\n  line {line} | ")),
                    "{text:?}: {error}"
                );
            }
        });
    }
}

/// A list of so many times, a line each.
fn lines(count: usize) -> String {
    (0..count).map(|time| format!("{time}\n")).collect()
}

/// A list that the core refuses: the place and the reason are told, of marks and of arrivals alike.
fn is_unfit(text: &str, line: usize, column: usize, wrong: &str) {
    with_file("unfit", text.as_bytes(), |path| {
        for (files, what) in [
            ([path, "/dev/null"], "mark"),
            (["/dev/null", path], "arrival"),
        ] {
            let error = failed(&words(files[0], files[1], &["--within=0"]), 3);
            let due = format!("{path}:{line}:{column}: the list of {what}s is refused with 22\n");
            assert!(error.starts_with(&due), "{error}");
            let flat = error.replace("\n         ", " ");
            let wrong = wrong.replace("ENTRY", what);
            assert!(
                flat.contains(&format!("\n  wrong: {wrong}\n  right: ")),
                "{wrong}: {error}"
            );
        }
    });
}

#[test]
fn what_the_core_refuses_is_told_with_its_reason() {
    let falls = |time: u64, last: u64, index: usize, line: usize| {
        format!("the time falls: {time} stands behind {last}, which is ENTRY {index}, line {line}")
    };
    is_unfit("10\n30\n20\n5\n", 3, 1, &falls(20, 30, 1, 2));
    is_unfit("time,a\n\n7,b\n6,c\n", 4, 1, &falls(6, 7, 0, 3));
    is_unfit("10 20 19", 1, 7, &falls(19, 20, 1, 1));
    let above = "the time is out of range: it is above 4294967295";
    is_unfit("1\n4294967296\n", 2, 1, above);
    is_unfit("a,ms\nx,18446744073709551616\ny,1\n", 2, 3, above);
    is_unfit("123456789012345678901234567890 5", 1, 1, above);
    for count in [1025, 1030] {
        let wrong = format!(
            "the list is too long: {count} ENTRYs, and from here on they are more than 1024"
        );
        is_unfit(&lines(count), 1025, 1, &wrong);
        is_unfit(&format!("ms\r\n{}", lines(count)), 1026, 1, &wrong);
    }
}

#[test]
fn equal_times_and_full_lists_are_accepted() {
    assert_eq!(times("5 5 5", &[]).len(), 3);
    assert_eq!(times(&lines(1024), &[]).len(), 1024);
    with_file("full", lines(1024).as_bytes(), |path| {
        let document = document(path, path, &["--within=60000"]);
        assert_eq!(document.get("result").get("pairs").number(), 1024);
    });
}

#[test]
fn a_tolerance_is_digits_alone() {
    let files = [MARKS, ARRIVALS];
    let missing = failed(&words(files[0], files[1], &[]), 2);
    assert!(
        missing
            .starts_with("desk: --within is missing: milliseconds in digits alone, 0 to 60000, "),
        "{missing}"
    );
    for word in [
        "-5", "1s", "1000ms", "1000 ms", "+5", "007", "1.5", "", "x", "1,000",
    ] {
        let within = format!("--within={word}");
        let error = failed(&words(files[0], files[1], &[&within]), 2);
        let right = format!("--within takes milliseconds in digits alone, 0 to 60000, as --within 1000 for a second, and not {word:?}");
        assert!(error.contains(&right), "{error}");
    }
    for word in ["60001", "18446744073709551615", "99999999999999999999999"] {
        let error = failed(&words(files[0], files[1], &["--within", word]), 2);
        assert_eq!(
            error,
            "desk: refused with 22: --within is above 60000, the largest tolerance\n"
        );
    }
}

#[test]
fn the_status_answers() {
    let both = |marks: &str, arrivals: &str| run(&words(marks, arrivals, &["--within=1000"])).0;
    assert_eq!(both(MARKS, ARRIVALS), 1);
    assert_eq!(both("/dev/null", ARRIVALS), 0);
    assert_eq!(both(MARKS, MARKS), 0);
    assert_eq!(both("no/such/file", ARRIVALS), 3);
    assert_eq!(both(MARKS, "examples"), 3);
    assert_eq!(both(MARKS, "examples/case-p.sheet"), 3);
    assert_eq!(both("examples/optional.state", ARRIVALS), 3);
    assert_eq!(both("-", "-"), 2);
}

#[test]
fn a_list_may_be_standard_input() {
    for (files, file) in [(["-", ARRIVALS], MARKS), ([MARKS, "-"], ARRIVALS)] {
        let mut command = desk(&words(files[0], files[1], &["--within=1000"]));
        command.stdin(Stdio::piped()).stdout(Stdio::piped());
        let mut child = command.spawn().expect("desk runs");
        let mut input = child.stdin.take().expect("a pipe");
        input.write_all(&read(file)).expect("it reads");
        drop(input);
        let (status, out, _) = told(child.wait_with_output().expect("it ends"));
        let due = no(&words(MARKS, ARRIVALS, &["--within=1000"]));
        assert_eq!((status, out), (1, due.replace(file, "standard input")));
    }
}

#[test]
fn long_lists_of_unpaired_entries_are_cut() {
    for (count, more) in [(20, None), (21, Some(1)), (300, Some(280))] {
        with_file("many", lines(count).as_bytes(), |path| {
            let words = words(path, "/dev/null", &["--within=0"]);
            let out = no(&words);
            let named = |text: &str| {
                text.lines()
                    .filter(|line| line.starts_with("  mark "))
                    .count()
            };
            assert_eq!(named(&out), 20);
            let said = more.map(|more| format!("  and {more} more; --list names them all\n"));
            match said {
                Some(said) => assert!(out.contains(&said), "{out}"),
                None => assert!(!out.contains(" more;"), "{out}"),
            }
            let all = no(&[&words[..], &["--list"]].concat());
            assert_eq!((named(&all), all.contains(" more;")), (count, false));
        });
    }
}

/// The lists of a document without its unpaired entries, or with one of them put back.
fn paired(lists: &Lists, document: &Value) -> Lists {
    let without = |times: &[u64], name: &str| {
        let left: Vec<i64> = unpaired(document, name)
            .iter()
            .map(|[number, ..]| *number)
            .collect();
        let kept = times
            .iter()
            .zip(0..)
            .filter(|(_, number)| !left.contains(number));
        kept.map(|(time, _)| *time).collect()
    };
    Lists {
        marks: without(&lists.marks, "marks"),
        arrivals: without(&lists.arrivals, "arrivals"),
        within: lists.within,
    }
}

/// The counts, the entries that are named, and what is said of each, for two lists.
fn is_right(lists: &Lists) {
    let text = |times: &[u64]| {
        times
            .iter()
            .map(|time| format!("{time}\n"))
            .collect::<String>()
    };
    with_file("marks", text(&lists.marks).as_bytes(), |marks| {
        with_file("arrivals", text(&lists.arrivals).as_bytes(), |arrivals| {
            let document = document(marks, arrivals, &[&format!("--within={}", lists.within)]);
            let result = document.get("result");
            let counts = ["pairs", "unpaired_marks", "unpaired_arrivals"]
                .map(|name| result.get(name).number() as usize);
            let pairs = most_pairs(lists);
            assert_eq!(
                counts,
                [
                    pairs,
                    lists.marks.len() - pairs,
                    lists.arrivals.len() - pairs
                ],
                "{lists:?}"
            );
            // those that are not named are a pairing, whole
            let rest = paired(lists, &document);
            assert_eq!(
                [rest.marks.len(), rest.arrivals.len(), most_pairs(&rest)],
                [pairs; 3],
                "{lists:?}"
            );
            each_is_right(lists, &document);
        });
    });
}

/// Of each unpaired entry: where it stands, and whether another pairing has it.
fn each_is_right(lists: &Lists, document: &Value) {
    for (name, lists) in [("marks", lists.clone()), ("arrivals", lists.turned())] {
        let list = document.get("result").get(name);
        for entry in list.get("unpaired").list() {
            let number = entry.get("number").number();
            let time = lists.marks[number as usize];
            assert_eq!(entry.get("line").number(), number + 1);
            assert_eq!(entry.get("time").number(), time as i64);
            let others = can_be_paired(number as usize, &lists);
            assert_eq!(entry.get("near"), &Value::Bool(others), "{lists:?}");
        }
    }
}

#[test]
fn counts_and_entries_are_those_of_a_largest_pairing() {
    for seed in 0..300 {
        is_right(&Lists::small(seed));
    }
    for seed in 0..3 {
        is_right(&Lists::long(seed));
    }
}
