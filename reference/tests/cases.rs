//! Case P, the proved cases and the run cases of 01.

use reference::book::Book;
use reference::coverage;
use reference::requests::Request;
use reference::script;
use reference::sheet;
use reference::state::State;

const SHEET_P: &str = "guide=1\nsubjects=3\nmethods=3\ncats=0\ntypes=6\n\
type=0\nrep=w32\ncat=0\n\
type=1\nrep=ref\ncat=0\nown=no\nm=avail()0\nm=avail(0)-\nm=avail()-\n\
type=2\nrep=ref\ncat=0\nown=no\nm=avail()0\nm=denied\nm=denied\n\
type=3\nrep=ref\ncat=0\nown=no\nm=avail()0\nm=optional(0)-\nm=denied\n\
type=4\nrep=ref\ncat=0\nown=yes\nm=avail()0\nm=avail(0)-\nm=avail()-\n\
type=5\nrep=ref\ncat=0\nown=no\nm=denied\nm=avail(0)-\nm=denied\n\
end=sheet\n";

const LIST_P: &str = "do=new 0 1 4\ndo=move 0 0 1 2\ndo=move 1 1 2 3\n\
do=move 1 1 2 5\ndo=move 2 2 1 4\ndo=move 2 2 0 4\n";

const FIRST_THREE: &str = "do=new 0 1 4\ndo=move 0 0 1 2\ndo=move 1 1 2 3\n";

fn run(sheet: &str, list: &str) -> String {
    let input = format!("{sheet}{list}");
    String::from_utf8(script::run(input.as_bytes())).unwrap()
}

fn p(list: &str) -> String {
    run(SHEET_P, list)
}

fn last(output: &str) -> &str {
    output.lines().last().unwrap()
}

#[test]
fn case_p() {
    assert_eq!(
        p(LIST_P),
        "got=0 0\ngot=1 0\ngot=2 1\nno=8\nno=9\ngot=3 0\n"
    );
}

#[test]
fn case_p_types() {
    let after = |list: &str| {
        let input = format!("{SHEET_P}{list}");
        script::run_whole(input.as_bytes())
            .model
            .unwrap()
            .state
            .table
            .types
            .len()
    };
    assert_eq!(after("do=new 0 1 4\ndo=move 0 0 1 2\n"), 6);
    assert_eq!(after(FIRST_THREE), 8);
    assert_eq!(after(LIST_P), 8);
    assert_eq!(after(&format!("{FIRST_THREE}do=move 2 2 2 5\n")), 8);
}

#[test]
fn case_p_demand_3() {
    let input = format!("{SHEET_P}{LIST_P}");
    let run = script::run_whole(input.as_bytes());
    let table = sheet::read(SHEET_P.as_bytes()).unwrap();
    let book = Book::of_run(&table, &run.requests, &run.results).unwrap();
    book.check_exactly(&run.model.unwrap().state).unwrap();
    assert_eq!(book.pages[2].trail, [4, 2, 3]);
    assert_eq!(book.pages[2].closed, [7]);
    assert_eq!(book.pages[3].trail, [4]);
    assert!(book.pages[3].closed.is_empty());
}

#[test]
fn proved_cases() {
    assert_eq!(
        last(&p(&format!("{FIRST_THREE}do=move 2 2 2 5\n"))),
        "no=10"
    );
    assert_eq!(p("do=new 0 2 2\n"), "no=7\n");
    // Erase called on cell 1, mark on cell 2.
    assert_eq!(last(&p(&format!("{FIRST_THREE}do=call 1 1 2\n"))), "no=14");
    assert_eq!(
        last(&p(&format!("{FIRST_THREE}do=call 2 2 1 5\n"))),
        "no=14"
    );
    assert_eq!(
        last(&p(&format!("{FIRST_THREE}do=call 2 2 0\n"))),
        "got=0 1"
    );
}

#[test]
fn place_128_and_129() {
    let list = "do=new 0 1 4\n".repeat(129);
    let output = p(&list);
    assert_eq!(output.lines().nth(127), Some("got=127 127"));
    assert_eq!(output.lines().nth(128), Some("no=12"));
    // With 127 objects an adapter is made, and no second one.
    let list = format!(
        "{}do=move 0 0 1 2\ndo=move 1 127 2 3\n",
        "do=new 0 1 4\n".repeat(127)
    );
    assert_eq!(last(&p(&list)), "got=128 127");
    let list = format!("{list}do=move 1 127 2 3\n");
    assert_eq!(last(&p(&list)), "no=12");
}

#[test]
fn an_adapter_meets_12_behind_the_last_object() {
    // Type 1 optional where the class 0 has unavail cannot wrap; an adapter is
    // made for a class that gives more than the cell type's unavail.
    let sheet = "guide=1\nsubjects=1\nmethods=1\ncats=0\ntypes=2\n\
        type=0\nrep=ref\ncat=0\nown=no\nm=avail()-\n\
        type=1\nrep=ref\ncat=0\nown=no\nm=unavail\nend=sheet\n";
    let list = format!(
        "do=new 0 0 1\n{}do=new 0 0 1\n",
        "do=new 0 0 0\n".repeat(125)
    );
    let output = run(sheet, &list);
    assert_eq!(output.lines().next(), Some("got=0 1"));
    assert_eq!(last(&output), "no=12");
    assert_eq!(output.lines().count(), 127);
}

#[test]
fn cell_256_and_257() {
    let list = format!("do=new 0 1 4\n{}", "do=move 0 0 1 2\n".repeat(256));
    let output = p(&list);
    assert_eq!(output.lines().nth(255), Some("got=255 0"));
    assert_eq!(output.lines().nth(256), Some("no=13"));
}

/// Subject 0 holds cell 0, subject 1 cell 1, and 0 has made its 32 calls (Q9).
fn thirty_two() -> String {
    let calls = "do=call 0 0 0\n".repeat(32);
    format!("do=new 0 1 4\ndo=move 0 0 1 2\n{calls}")
}

#[test]
fn call_32_and_33_of_one_subject() {
    let list = thirty_two();
    let output = p(&list);
    assert_eq!(output.lines().nth(32), Some("got=30 0"));
    assert_eq!(output.lines().nth(33), Some("got=31 0"));
    let then = |rest: &str| last(&p(&format!("{list}{rest}"))).to_string();
    assert_eq!(then("do=call 0 0 0\n"), "no=18");
    // another is served as before, up to its own limit
    assert_eq!(then("do=call 0 0 0\ndo=call 1 1 0\n"), "got=32 0");
    let others = "do=call 1 1 0\n".repeat(32);
    assert_eq!(then(&others), "got=63 0");
    assert_eq!(then(&format!("{others}do=call 1 1 0\n")), "no=18");
    assert_eq!(then(&format!("{others}do=call 0 0 0\n")), "no=18");
}

/// C1 to C5 come before C7, and C7 before what crosses.
#[test]
fn order_around_18() {
    let list = thirty_two();
    let then = |rest: &str| last(&p(&format!("{list}{rest}"))).to_string();
    assert_eq!(then("do=call 3 0 0\n"), "no=5");
    assert_eq!(then("do=call 0 1 0\n"), "no=6");
    assert_eq!(then("do=call 0 0 3\n"), "no=14");
    assert_eq!(then("do=call 0 0 0 1\n"), "no=15");
    assert_eq!(then("do=call 0 0 1\n"), "no=15");
    assert_eq!(then("do=call 0 0 1 2147483648\n"), "no=18");
}

/// Answers give no call back, and what else a subject asks for takes none (Q9).
#[test]
fn only_calls_of_the_subject_count() {
    let list = thirty_two();
    let answers: String = (0..32)
        .map(|call| format!("do=answer 0 {call} 7\n"))
        .collect();
    let all = format!("{list}{answers}do=call 0 0 0\n");
    assert_eq!(last(&p(&all)), "no=18");
    // to move, to get and to give answers go on
    assert_eq!(last(&p(&format!("{all}do=move 0 0 1 2\n"))), "got=2 0");
    let asked = format!("{all}do=call 1 1 0\ndo=answer 0 32 9\n");
    assert_eq!(last(&p(&asked)), "got=9");
    // refused calls do not count, whatever they are refused with
    let refused = "do=call 0 9 0\ndo=call 0 0 9\ndo=call 0 0 0 9\ndo=call 0 0 1 2147483648\n";
    let list = format!("do=new 0 1 4\n{}", refused.repeat(40));
    let calls = "do=call 0 0 0\n";
    assert_eq!(last(&p(&format!("{list}{}", calls.repeat(32)))), "got=31 0");
    assert_eq!(last(&p(&format!("{list}{}", calls.repeat(33)))), "no=18");
}

/// All that can be called: sixteen subjects, 32 calls each, by turns and one behind the other.
#[test]
fn call_512_of_sixteen_subjects() {
    let sheet = SHEET_P.replace("subjects=3", "subjects=16");
    let cells: String = (0..16).map(|one| format!("do=new {one} 1 4\n")).collect();
    let call = |one: usize| format!("do=call {one} {one} 0\n");
    let turns: String = (0..512).map(|number| call(number % 16)).collect();
    let blocks: String = (0..512).map(|number| call(number / 32)).collect();
    for list in [turns, blocks] {
        let output = run(&sheet, &format!("{cells}{list}"));
        let expected: String = (0..512).map(|number| format!("got={number} 0\n")).collect();
        assert!(output.ends_with(&expected));
        for one in 0..16 {
            let more = format!("{cells}{list}{}", call(one));
            assert_eq!(last(&run(&sheet, &more)), "no=18");
        }
    }
}

#[test]
fn w32_at_both_ends() {
    let mark =
        |value: &str| last(&p(&format!("do=new 0 1 4\ndo=call 0 0 1 {value}\n"))).to_string();
    assert_eq!(mark("2147483647"), "got=0 0");
    assert_eq!(mark("-2147483648"), "got=0 0");
    assert_eq!(mark("2147483648"), "no=16");
    assert_eq!(mark("-2147483649"), "no=16");
    let read = |value: &str| {
        last(&p(&format!(
            "do=new 0 1 4\ndo=call 0 0 0\ndo=answer 0 0 {value}\n"
        )))
        .to_string()
    };
    assert_eq!(read("2147483647"), "got=2147483647");
    assert_eq!(read("-2147483648"), "got=-2147483648");
    assert_eq!(read("2147483648"), "no=16");
    assert_eq!(read("-2147483649"), "no=16");
    assert_eq!(read("-"), "no=15");
}

#[test]
fn broader_equal_to_k() {
    let sheet = "guide=1\nsubjects=1\nmethods=1\ncats=2\nunder=0\nunder=2\ntypes=1\n\
        type=0\nrep=w32\ncat=0\nend=sheet\n";
    assert_eq!(sheet::read(sheet.as_bytes()), Err((3, 44)));
    assert_eq!(run(sheet, "do=new 0 0 0\n"), "no=3\n");
    let below = sheet.replace("under=2", "under=1");
    assert!(sheet::read(below.as_bytes()).is_ok());
    let above = sheet.replace("under=2", "under=3");
    assert_eq!(sheet::read(above.as_bytes()), Err((2, 44)));
}

#[test]
fn witnesses_of_the_readings() {
    let sheet = "guide=1\nsubjects=1\nmethods=1\ncats=0\ntypes=2\n\
        type=0\nrep=ref\ncat=0\nown=no\nm=avail()1\n\
        type=1\nrep=ref\ncat=0\nown=no\nm=optional()0\nend=sheet\n";
    assert_eq!(run(sheet, "do=new 0 0 1\n"), "no=10\n");
    let sheet = "guide=1\nsubjects=1\nmethods=1\ncats=1\nunder=0\ntypes=2\n\
        type=0\nrep=ref\ncat=1\nown=no\nm=denied\n\
        type=1\nrep=ref\ncat=0\nown=no\nm=unavail\nend=sheet\n";
    assert_eq!(run(sheet, "do=new 0 1 0\n"), "no=10\n");
}

#[test]
fn answers_and_their_order() {
    let list = format!("{FIRST_THREE}do=call 2 2 0\n");
    let then = |rest: &str| last(&p(&format!("{list}{rest}"))).to_string();
    assert_eq!(then("do=answer 0 0 7\n"), "got=7");
    assert_eq!(then("do=answer 0 0 7\ndo=answer 0 0 -\n"), "no=17");
    assert_eq!(then("do=answer 1 0 7\n"), "no=6");
    assert_eq!(then("do=answer 3 0 7\n"), "no=5");
    assert_eq!(then("do=answer 0 1 7\n"), "no=6");
    assert_eq!(then("do=answer 0 -1 7\n"), "no=6");
}

#[test]
fn script_forms() {
    for bad in [
        "do=new 0 1\n",
        "do=new 0 1 4 \n",
        "do=new  0 1 4\n",
        "do=new 0 1 4",
        "do=new 00 1 4\n",
        "do=new -0 1 4\n",
        "do=new +0 1 4\n",
        "do=new 9223372036854775808 1 4\n",
        "do=new -9223372036854775809 1 4\n",
        "do=new 0 1 -\n",
        "do=call 0 0 1 -\n",
        "do=call 0 0 0 1 2 3 4 5\n",
        "do=call 0 0\n",
        "do=answer 0 0\n",
        "do=answer 0 0 1 2\n",
        "do=drop 0\n",
        "\n",
        "#\n",
        "do=new 0 1 4\r\n",
        "guide=1\n",
        "do=\n",
    ] {
        let output = p(&format!("do=new 0 1 4\n{bad}do=new 0 1 4\n"));
        let cut = if bad.ends_with('\n') {
            &output
        } else {
            "got=0 0\nno=1\n"
        };
        assert_eq!(cut, "got=0 0\nno=1\n", "{bad:?}");
    }
    assert_eq!(p("do=new 9223372036854775807 1 4\n"), "no=5\n");
    assert_eq!(p("do=new -9223372036854775808 1 4\n"), "no=5\n");
    assert_eq!(p("do=new 0 1 4"), "no=1\n");
    assert_eq!(p(""), "");
    assert_eq!(run("", ""), "no=1\n");
    // P7, C4: three and four arguments are right in form, where none is due too.
    assert_eq!(last(&p("do=new 0 1 4\ndo=call 0 0 0 1 2 3\n")), "no=15");
    assert_eq!(last(&p("do=new 0 1 4\ndo=call 0 0 0 1 2 3 4\n")), "no=15");
}

/// A class (2) whose method 0 takes four references as type 4, which shows method 1 alone; behind
/// type 3 it is come to through an adapter. Type 5 shows nothing, type 6 has no method 2.
const FOUR: &str = "guide=1\nsubjects=2\nmethods=3\ncats=0\ntypes=7\n\
type=0\nrep=w32\ncat=0\n\
type=1\nrep=ref\ncat=0\nown=no\nm=unavail\nm=avail()0\nm=avail()-\n\
type=2\nrep=ref\ncat=0\nown=no\nm=avail(4,4,4,4)-\nm=avail()0\nm=avail()-\n\
type=3\nrep=ref\ncat=0\nown=no\nm=avail(4,4,4,4)-\nm=denied\nm=unavail\n\
type=4\nrep=ref\ncat=0\nown=no\nm=denied\nm=avail()0\nm=denied\n\
type=5\nrep=ref\ncat=0\nown=no\nm=denied\nm=denied\nm=denied\n\
type=6\nrep=ref\ncat=0\nown=no\nm=denied\nm=avail()0\nm=unavail\n\
end=sheet\n";

/// Cells 0 and 1 are subject 0's: the called one of type 3, behind an adapter, and an object of
/// type 1. Cell 2 is of type 5, cell 3 is subject 1's.
const FOUR_CELLS: &str = "do=new 0 2 3\ndo=new 0 1 1\ndo=move 0 1 0 5\ndo=move 0 1 1 4\n";

/// Four references through an adapter (C10, C11, C17), and each refused at each position in turn.
#[test]
fn four_references_through_an_adapter() {
    let after = |list: &str| run(FOUR, &format!("{FOUR_CELLS}{list}"));
    let setup = "got=0 1\ngot=1 2\ngot=2 2\ngot=3 2\n";
    assert_eq!(after(""), setup);
    // four cells come of it, in order, and the next object's is the one behind them
    let done = after("do=call 0 0 0 1 1 1 1\ndo=new 0 1 1\n");
    assert_eq!(done, format!("{setup}got=0 1\ngot=8 3\n"));
    for position in 0..4 {
        // type 5 does not show method 1 (8); cell 3 is another's, cell 9 is none (15)
        for (cell, number) in [("2", 8), ("3", 15), ("9", 15), ("-1", 15)] {
            let mut list = ["1"; 4];
            list[position] = cell;
            let call = format!("do=call 0 0 0 {}\ndo=new 0 1 1\n", list.join(" "));
            // nothing stays of the arguments in front of it (C20)
            let expected = format!("{setup}no={number}\ngot=4 3\n");
            assert_eq!(after(&call), expected, "{position} {cell}");
        }
    }
    // three and five
    assert_eq!(last(&after("do=call 0 0 0 1 1 1\n")), "no=15");
    assert_eq!(last(&after("do=call 0 0 0 1 1 1 1 1\n")), "no=1");
}

/// 13 at each position: so many cells are left that the arguments in front of it fit (C17).
#[test]
fn cells_full_at_each_position() {
    let with_left = |left: usize| {
        let moves = "do=move 0 1 0 1\n".repeat(256 - 4 - left);
        let list = format!("{FOUR_CELLS}{moves}do=call 0 0 0 1 1 1 1\n");
        last(&run(FOUR, &list)).to_string()
    };
    for left in 0..4 {
        assert_eq!(with_left(left), "no=13", "{left}");
    }
    assert_eq!(with_left(4), "got=0 1");
}

/// 16 at each position, and numbers at both ends of w32 at all of them (C14).
#[test]
fn four_numbers() {
    let sheet = "guide=1\nsubjects=1\nmethods=1\ncats=0\ntypes=3\ntype=0\nrep=w32\ncat=0\n\
        type=1\nrep=w64\ncat=0\n\
        type=2\nrep=ref\ncat=0\nown=no\nm=avail(0,0,0,0)-\nend=sheet\n";
    let called = |list: &[&str]| {
        let call = format!("do=new 0 2 2\ndo=call 0 0 0 {}\n", list.join(" "));
        last(&run(sheet, &call)).to_string()
    };
    let ends = ["2147483647", "-2147483648", "2147483647", "-2147483648"];
    assert_eq!(called(&ends), "got=0 0");
    for position in 0..4 {
        for beyond in ["2147483648", "-2147483649"] {
            let mut list = ends;
            list[position] = beyond;
            assert_eq!(called(&list), "no=16", "{position}");
        }
    }
}

/// The book over four arguments (L11): each has a page, with the trail of its own position.
#[test]
fn the_book_has_a_page_for_each_argument() {
    let sheet = FOUR.replace("avail(4,4,4,4)-", "avail(4,5,4,6)-");
    let list = "do=new 0 2 2\ndo=new 0 1 1\ndo=call 0 0 0 1 1 1 1\n";
    let run = script::run_whole(format!("{sheet}{list}").as_bytes());
    assert_eq!(run.output, b"got=0 0\ngot=1 1\ngot=0 0\n");
    let table = sheet::read(sheet.as_bytes()).unwrap();
    let book = Book::of_run(&table, &run.requests, &run.results).unwrap();
    book.check_exactly(&run.model.unwrap().state).unwrap();
    let last = |cell: usize| book.pages[cell].last_trail();
    assert_eq!((2..6).map(last).collect::<Vec<_>>(), [4, 5, 4, 6]);
    // type 6 has method 2 as unavail: for the fourth alone an adapter is made
    let adapters = |cell: usize| book.pages[cell].closed.len();
    assert_eq!((2..6).map(adapters).collect::<Vec<_>>(), [0, 0, 0, 1]);
}

#[test]
fn longest_input() {
    let mut input = SHEET_P.to_string();
    while input.len() + 13 <= 32_768 - 20 {
        input.push_str("do=new 9 1 4\n");
    }
    let left = 32_768 - input.len() - "do=new 9 1 \n".len();
    input.push_str(&format!("do=new 9 1 {}\n", "7".repeat(left)));
    assert_eq!(input.len(), 32_768);
    assert!(script::run(input.as_bytes()).ends_with(b"no=5\nno=1\n") || left <= 19);
    input.push('\n');
    assert_eq!(script::run(input.as_bytes()), b"no=2\n");
    assert_eq!(script::run(&[b'x'; 32_769]), b"no=2\n");
    assert_eq!(reference::pairs::run(&[b'x'; 32_769]), b"no=2\n");
}

#[test]
fn request_lines_round_trip() {
    for line in [
        "do=new 0 -1 2",
        "do=move 1 2 3 4",
        "do=call 1 2 3 -4 5",
        "do=call 1 2 3 -4 5 6 -7",
        "do=answer 1 2 -",
        "do=answer 1 2 -9",
    ] {
        let request: Request = script::parse(line.as_bytes()).unwrap();
        assert_eq!(script::line(&request), format!("{line}\n"));
    }
}

/// Accepted calls are counted by their arguments, and by the references among them.
#[test]
fn calls_are_counted_by_arguments_and_references() {
    let script = script::read(include_bytes!("../../examples/route.script")).unwrap();
    let seen = coverage::serve(State::of_sheet(script.table), &script.requests);
    assert_eq!(seen.accepted["call"], 3);
    assert_eq!(seen.arguments, [(0, 1), (1, 1), (4, 1)].into());
    assert_eq!(seen.references, [(0, 2), (3, 1)].into());
    let mut twice = seen.clone();
    twice.add(&seen);
    assert_eq!((twice.arguments[&4], twice.references[&3]), (2, 2));
    assert!(twice
        .text()
        .contains("calls accepted by references: 0:4 3:2\n"));
}
