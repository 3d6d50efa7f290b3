//! What the doc tests have no room for: the guide's sheet, the longest text, full states, references as answers, bytes that were kept, lists of times at
//! their limits.

use pilgonca::{
    doors, raw, Answered, Call, Cell, Doors, Held, Method, MethodInfo, Place, PlaceKind, Refusal,
    Sheet, Subject, Type, Visit, EXAMPLE,
};
use std::error::Error;
use std::fmt::Write;

const DESK: Subject = Subject(0);

/// The example is the first sheet of the guide.
#[test]
fn the_example_is_the_guides() {
    let guide = include_str!("../../docs/GUIDE.md");
    let (_, behind) = guide.split_once("```sheet\n").expect("a sheet");
    let (sheet, _) = behind.split_once("```\n").expect("its end");
    assert_eq!(sheet.as_bytes(), EXAMPLE);
}

/// What the guide says of memory.
#[test]
fn the_guide_has_the_sizes() {
    let guide = include_str!("../../docs/GUIDE.md");
    assert_eq!(size_of::<raw::State>(), 19_744);
    assert_eq!(size_of::<raw::Table>(), 16_520);
    assert!(guide.contains("| 19,744:") && guide.contains("| 16,520 |"));
}

/// Whoever opens README sees what the core needs: platform, state, stack, code (tests/install.rs measures it), and no heap; and what there is for others.
#[test]
fn the_first_screen_says_what_it_needs() {
    let screen: Vec<&str> = include_str!("../../README.md").lines().take(24).collect();
    assert!(screen.iter().all(|line| line.chars().count() <= 80));
    let screen = screen.join(" ");
    let state = format!("{} KB", size_of::<raw::State>().div_ceil(1000));
    for words in [
        "x86-64 Linux",
        &state,
        "no heap",
        "176 KB of stack",
        "47 KB of code",
        "142 KB",
        "no other processor yet",
        "an emulator (qemu-x86_64, not tried)",
        "`reference/`: the same rules in plain Rust",
        "docs/HOSTILE.md",
    ] {
        assert!(screen.contains(words), "{words}");
    }
}

/// What the core cannot see stands wherever an integrator looks: who gives the subject, and which cells arguments become.
#[test]
fn the_pages_say_who_asks_and_what_arguments_become() {
    let header = include_str!("../../include/pilgonca.h");
    let guide = include_str!("../../docs/GUIDE.md");
    let manual = include_str!("../../docs/pilgonca.3");
    let hostile = include_str!("../../docs/HOSTILE.md");
    for page in [header, guide, manual, hostile] {
        assert!(page.contains("irmware gives") && page.contains("subject"));
    }
    assert!(header.contains("become the next cells of the owner of what is called, in their order"));
    assert!(guide.contains("the next ones, in the order of the arguments"));
}

/// A sheet with every limit reached and the longest lines that there can be.
fn longest() -> String {
    let mut text = String::from("guide=1\nsubjects=16\nmethods=16\ncats=31\n");
    for category in 1..=31 {
        let broader: i32 = category - 1;
        writeln!(text, "under={},{broader}", broader.max(1) - 1).expect("a string");
    }
    text.push_str("types=48\n");
    for number in 0..48 {
        let method = "m=optional(46,46,46,46)46\n".repeat(16);
        let own = if number == 46 { "no" } else { "yes" };
        write!(text, "type={number}\nrep=ref\ncat=31\nown={own}\n{method}").expect("a string");
    }
    text + "end=sheet\n"
}

#[test]
fn the_longest_text_is_written() {
    let text = longest();
    let sheet = Sheet::read(text.as_bytes()).expect("a sheet");
    assert!(sheet.write() == text.as_bytes());
    // what the bound counts too much: numbers of one digit (of 10 types, of 11 first and 10 second broader categories), and a byte of own=no
    assert_eq!(text.len() + 10 + 11 + 10 + 1, raw::MAX_TEXT);
    assert_eq!((sheet.subjects(), sheet.methods()), (16, 16));
    assert_eq!((sheet.categories(), sheet.sheet_types()), (31, 48));
    assert_eq!(sheet.broader(31), [29, 30]);
    assert_eq!(sheet.types().count(), 48);
    let last = sheet.types().last().expect("a type");
    assert!((last.number, last.category, last.own) == (Type(47), 31, true));
    assert!(
        matches!(&last.methods[15], MethodInfo::Optional(s) if s.arguments.len() == raw::MAX_ARGUMENTS)
    );
}

/// Every tiny sheet through the package: read and written, compared, loaded, saved, and a first request, which is served where the type is a class.
#[test]
fn every_tiny_sheet_is_served() {
    let sheets = pilgonca::tiny_sheets();
    assert_eq!(sheets.len(), raw::TINY_SHEETS);
    let mut classes = 0;
    for text in sheets {
        let sheet = Sheet::read(&text).expect("a sheet");
        assert_eq!((sheet.write(), sheet.subjects()), (text.clone(), 1));
        assert_eq!((sheet.categories(), sheet.sheet_types()), (0, 1));
        let only = sheet.type_info(Type(0)).expect("a type");
        assert_eq!(only.methods.len(), sheet.methods());
        let itself = sheet.compare(Type(0), Type(0)).expect("a type");
        assert_eq!(sheet.pairs().at(Type(0), Type(0)), itself);
        assert!(itself.subtype && itself.strict && itself.loose && itself.free);
        let mut visit = Visit::load(&text).expect("a sheet");
        let made = visit.new_object(DESK, Type(0), Type(0));
        let (cell, place) = (Cell(0), Place(0));
        match only.is_class() {
            true => assert_eq!(made, Ok(Held { cell, place })),
            false => assert_eq!(made, Err(Refusal::UnknownType)),
        }
        classes += usize::from(only.is_class());
        let saved = visit.save();
        let back = Visit::from_saved(&saved).expect("a saved state");
        assert_eq!(back.save(), saved);
        assert_eq!(pilgonca::script(&text), b"");
    }
    // own=no, and of each method unavail or avail with one of four signatures
    assert_eq!(classes, 5 + 5 * 5);
}

/// Requests until they are refused; the last refusal.
fn until_refused<Got>(mut request: impl FnMut() -> Result<Got, Refusal>) -> (usize, Refusal) {
    let mut accepted = 0;
    loop {
        match request() {
            Ok(_) => accepted += 1,
            Err(refusal) => return (accepted, refusal),
        }
    }
}

#[test]
fn a_full_state_is_told_to_its_end() {
    let sheet = std::str::from_utf8(EXAMPLE).expect("ASCII");
    let sheet = sheet.replace("subjects=2\n", "subjects=16\n");
    let mut visit = Visit::load(sheet.as_bytes()).expect("a sheet");
    let made = until_refused(|| visit.new_object(DESK, Type(1), Type(1)));
    assert_eq!(made, (128, Refusal::PlacesFull));
    // by turns, so that the last 16 cells are one of each subject
    let mut receivers = (0..16).cycle().map(Subject);
    let mut receiver = || receivers.next().expect("there is always one");
    let moved = until_refused(|| visit.move_reference(DESK, Cell(127), receiver(), Type(2)));
    assert_eq!(moved, (128, Refusal::CellsFull));
    for (subject, cell) in (0..16).zip(240..) {
        let called = until_refused(|| visit.call(Subject(subject), Cell(cell), Method(0), &[]));
        assert_eq!(called, (32, Refusal::CallsFull));
    }
    visit.answer(DESK, Call(511), Some(-7)).expect("answered");

    let cell = visit.cells().last().expect("a cell");
    assert_eq!((cell.number, cell.holder), (Cell(255), Subject(15)));
    assert_eq!((cell.type_, cell.place.0), (Type(2), 127));
    let place = visit.places().last().expect("a place");
    let (class, owner) = (Type(1), DESK);
    assert_eq!(place.kind, PlaceKind::Object { class, owner });
    assert_eq!(visit.base_of(place.number), Some(place.number));
    let call = visit.calls().last().expect("a call");
    assert_eq!((call.number, call.cell), (Call(511), Cell(255)));
    assert_eq!(call.caller, Subject(15));
    let answered = visit.calls().filter(|call| call.answered).count();
    assert!(call.answered && answered == 1);
}

/// Method 0 answers with a reference of type 1, which passes as it is.
const GIVER: &[u8] =
    b"guide=1\nsubjects=2\nmethods=1\ncats=0\ntypes=1\ntype=0\nrep=ref\ncat=0\nown=no\nm=avail()0\nend=sheet\n";

#[test]
fn an_answer_may_be_a_reference() {
    let mut visit = Visit::load(GIVER).expect("a sheet");
    let held = visit.new_object(DESK, Type(0), Type(0)).expect("made");
    let lent = visit.move_reference(DESK, held.cell, Subject(1), Type(0));
    let called = visit.call(Subject(1), lent.expect("lent").cell, Method(0), &[]);
    let answered = visit.answer(DESK, called.expect("called").call, Some(held.cell.0));
    let Ok(Answered::Reference(got)) = answered else {
        panic!("{answered:?}")
    };
    assert_eq!((got.cell, got.place), (Cell(2), held.place));
    assert_eq!(visit.offers(got.cell, &[Method(0); 9]), Ok(true));
    assert_eq!(visit.offers(Cell(-1), &[]), Ok(false));
}

/// Two subjects. Method 0 of class 2 takes arguments of these types: 0 is a number, 1 a class.
fn taker(arguments: &str) -> String {
    let class = "rep=ref\ncat=0\nown=no\n";
    let number = "type=0\nrep=w32\ncat=0\n";
    format!(
        "guide=1\nsubjects=2\nmethods=1\ncats=0\ntypes=3\n{number}type=1\n{class}m=unavail\ntype=2\n{class}m=avail({arguments})-\nend=sheet\n"
    )
}

/// Lists of so many arguments, each a reference (1) or a number (0), in every way.
fn lists(length: usize) -> impl Iterator<Item = Vec<bool>> {
    (0..1 << length).map(move |bits: usize| (0..length).map(|at| bits >> at & 1 == 1).collect())
}

/// References among the arguments become the next cells, the owner's, in the order of the arguments (C10, C12, C17), and the call says which.
#[test]
fn a_call_says_what_its_arguments_became() {
    let mut met = [0; raw::MAX_ARGUMENTS + 1];
    for references in (0..=raw::MAX_ARGUMENTS).flat_map(lists) {
        became(&references);
        met[references.len()] += 1;
    }
    assert_eq!(met, [1, 2, 4, 8, 16]);
}

/// A call with these arguments: references where it says so.
fn became(references: &[bool]) {
    let caller = Subject(1);
    let types = references.iter().map(|one| if *one { "1" } else { "0" });
    let types = types.collect::<Vec<_>>().join(",");
    let mut visit = Visit::load(taker(&types).as_bytes()).expect("a sheet");
    let taker = visit.new_object(DESK, Type(2), Type(2)).expect("made");
    let lent = visit.move_reference(DESK, taker.cell, caller, Type(2));
    let made = references.iter().map(|_| {
        let given = visit.new_object(caller, Type(1), Type(1));
        given.expect("made")
    });
    // the last one made is the first argument; cells are numbers too
    let mut given: Vec<Held> = made.collect();
    given.reverse();
    let values: Vec<i64> = given.iter().map(|held| held.cell.0).collect();
    let next = visit.cells().count() as i64;
    let called = visit.call(caller, lent.expect("lent").cell, Method(0), &values);
    let became = called.expect("called").arguments;
    let places: Vec<Place> = became.iter().map(|held| held.place).collect();
    let due = given.iter().zip(references).filter(|(_, one)| **one);
    let due: Vec<Place> = due.map(|(held, _)| held.place).collect();
    assert_eq!(places, due, "{types}");
    for (held, number) in became.iter().zip(next..) {
        assert_eq!(held.cell, Cell(number), "{types}");
        assert_eq!(visit.cell_info(held.cell).expect("a cell").holder, DESK);
    }
    assert_eq!(visit.cells().count() as i64, next + due.len() as i64);
}

/// A request that is refused leaves every byte; one on a state that is unsound is refused.
#[test]
fn kept_bytes_come_back() {
    let mut visit = Visit::load(EXAMPLE).expect("a sheet");
    visit.new_object(DESK, Type(1), Type(2)).expect("made");
    let before = visit.state().clone();
    let refused = visit.move_reference(DESK, Cell(0), Subject(1), Type(5));
    assert_eq!(refused, Err(Refusal::Unrelated));
    assert!(*visit.state() == before);
    visit
        .move_reference(DESK, Cell(0), Subject(1), Type(3))
        .expect("adapted");

    let mut again = Visit::from_state(visit.state().clone()).expect("sound");
    assert_eq!(again.sheet().types().count(), 8);
    assert!(again.sheet().compare(Type(7), Type(6)).is_ok());
    let closed = again.places().last().expect("an adapter").kind;
    assert!(matches!(closed, PlaceKind::Adapter { closed, .. } if closed == Type(7)));
    assert_eq!(
        again.move_reference(Subject(1), Cell(1), DESK, Type(5)),
        Err(Refusal::NotStrict)
    );

    let mut damaged = visit.state().clone();
    damaged.counts[5] = usize::MAX;
    assert_eq!(Visit::from_state(damaged).err(), Some(Refusal::OutOfRange));
}

/// The longest lists, the last time and the largest tolerance are accepted.
#[test]
fn times_are_held_at_their_limits() {
    let counted = |pairs, unpaired_marks, unpaired_arrivals| {
        Ok(Doors {
            pairs,
            unpaired_marks,
            unpaired_arrivals,
        })
    };
    let (most, last, tolerance) = (raw::MAX_TIMES, raw::LAST_TIME, raw::MAX_TOLERANCE);
    let ends = vec![last; most];
    assert_eq!(doors(&ends, &ends, 0), counted(most, 0, 0));
    assert_eq!(doors(&ends, &[], tolerance), counted(0, most, 0));
    assert_eq!(doors(&[], &ends, tolerance), counted(0, 0, most));
    assert_eq!(doors(&[], &[], 0), counted(0, 0, 0));
    let early = vec![last - tolerance; most - 1];
    assert_eq!(doors(&early, &ends, tolerance), counted(most - 1, 0, 1));
    assert_eq!(doors(&ends, &early, tolerance), counted(most - 1, 1, 0));
    assert_eq!(
        doors(&early, &ends, tolerance - 1),
        counted(0, most - 1, most)
    );
}

/// One entry, one millisecond or one step down too many, in either list, is 22 and stores nothing (V3).
#[test]
fn unfit_times_store_nothing() {
    let (most, last, tolerance) = (raw::MAX_TIMES, raw::LAST_TIME, raw::MAX_TOLERANCE);
    let mut falls_last = vec![7; most];
    falls_last[most - 1] = 6;
    let unfit = [
        vec![0; most + 1],
        vec![0; 1 << 20],
        vec![0, last + 1],
        vec![u64::MAX; 2],
        vec![1, 0],
        falls_last,
    ];
    let refused = |marks: &[u64], arrivals: &[u64], within: u64| {
        let mut counts = [usize::MAX, 1, 0];
        assert_eq!(raw::doors(marks, arrivals, within, &mut counts), 22);
        assert_eq!(counts, [usize::MAX, 1, 0]);
        let found = doors(marks, arrivals, within);
        assert_eq!(found, Err(Refusal::UnfitTimes));
    };
    for list in &unfit {
        refused(list, &[1], 0);
        refused(&[1], list, 0);
        refused(list, list, tolerance);
    }
    for within in [tolerance + 1, u64::MAX] {
        refused(&[], &[], within);
    }
}

#[test]
fn refusals_have_words() {
    let words: Vec<String> = Refusal::ALL.iter().map(Refusal::to_string).collect();
    let apart: std::collections::BTreeSet<&String> = words.iter().collect();
    assert_eq!(apart.len(), Refusal::ALL.len());
    let refused = Sheet::read(b"guide=1\nsubjects=17\n").expect_err("17 are too many");
    assert_eq!((refused.number(), refused.offset), (2, 8));
    let cause = refused.source().expect("a refusal").to_string();
    assert!(refused.to_string().ends_with(&cause));
}

/// An input of any length has room for its output.
#[test]
fn scripts_of_any_length_are_answered() {
    let request = b"do=new 0 1 1\n";
    let fits = (raw::MAX_SCRIPT - EXAMPLE.len()) / request.len();
    let input = [EXAMPLE, &request.repeat(fits)].concat();
    let lines = pilgonca::script(&input);
    assert_eq!(lines.iter().filter(|byte| **byte == b'\n').count(), fits);
    for longer in [vec![b'x'; raw::MAX_SCRIPT + 1], vec![0; 100_000]] {
        assert_eq!(pilgonca::script(&longer), b"no=2\n");
    }
    assert_eq!(pilgonca::script(b""), b"no=1\n");
}
