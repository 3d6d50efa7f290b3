//! The drivers of requests can fail: each deliberate fault of the reference is found, and so is a core that answers right and
//! stores something wrong, or says wrongly what is offered. The scripts can too: programs that read or print something wrongly
//! are found. So are functions and programs that hold marks against arrivals in a wrong way.

use conformance::calls::{by_the_transcript, ends, run_by_the_transcript, with_every_kind};
use conformance::doors::{limits, ours, Answer, Lists, INPUTS, LAST, MOST, UNSET, WIDEST};
use conformance::requests::{difference, loaded, on_handed_in, on_loaded, on_offers, watch, Core};
use conformance::run_lists;
use conformance::runs;
use conformance::scripts::damaged;
use conformance::tiny_first::{self, Input};
use faults::{named, CheckFault, Fault, ALL, CHECKS};
use reference::chains::{offered, permits, All};
use reference::check;
use reference::coverage::Seen;
use reference::doors;
use reference::entry;
use reference::generators::{doors_input, two_lists, Profile};
use reference::hostile::Hostile;
use reference::raw::RawState;
use reference::refusal::{Refusal, CALLS_FULL, OUT_OF_RANGE};
use reference::requests::{index, Got, Request};
use reference::script::{self, MAX_INPUT};
use reference::state::State;
use reference::table::Table;
use reference::transcript::passes;

/// The reference with a fault.
struct StandIn(Fault);

impl Core for StandIn {
    fn request(&self, state: &mut RawState, request: &Request) -> Result<Got, Refusal> {
        let before = check::state(state).map_err(|_| OUT_OF_RANGE)?;
        let (results, after) = (self.0.run)(before.clone(), std::slice::from_ref(request));
        state.update(&before, &after);
        results[0]
    }

    fn offers(&self, state: &RawState, cell: i64, chain: &[i64]) -> Result<bool, Refusal> {
        entry::offers(state, cell, chain)
    }
}

/// Shows over a list alone: it counts what it refused before.
const OVER_A_LIST: &str = "calls_refused_counted";

/// Each fault is found on some state.
#[test]
fn every_fault_is_found() {
    for fault in ALL.iter().filter(|fault| fault.name != OVER_A_LIST) {
        let core = StandIn(*fault);
        let mut seen = Seen::default();
        let mut differs = |one: Input<Hostile>| on_handed_in(&core, &one.of, &mut seen).is_some();
        let found = tiny_first::crowded_states(0..2000).any(&mut differs)
            || tiny_first::scripts(&[(Profile::Full, 200), (Profile::Long, 200)])
                .any(|script| on_loaded(&core, &script, &mut seen).is_some());
        assert!(found, "{}", fault.name);
    }
}

/// A run by the reference with that fault.
fn counts_refused(
    state: &mut RawState,
    words: &[i64],
    answers: &mut [i64],
) -> Result<usize, Refusal> {
    runs::run_by(named(OVER_A_LIST).run, state, words, answers)
}

/// The one that shows over a list is found in runs, on states at the limits of calls and on loaded sheets.
#[test]
fn refused_calls_that_are_counted_are_found_in_runs() {
    let differs = |list| {
        let met = &mut run_lists::Met::default();
        run_lists::difference(counts_refused, runs::run, &list, met).is_some()
    };
    let scripts = [(Profile::Full, 200)];
    let mut scripts = tiny_first::scripts(&scripts).filter_map(run_lists::on_loaded);
    assert!(scripts.any(differs));
}

/// The faults of whose calls are counted, and up to where.
fn of_calls() -> impl Iterator<Item = Fault> {
    let named = |fault: &&Fault| fault.name.starts_with("call") && fault.name != OVER_A_LIST;
    ALL.iter().filter(named).copied()
}

/// Each is found on states handed in at the limits of calls.
#[test]
fn every_fault_of_the_call_count_is_found_at_its_limits() {
    assert_eq!(of_calls().count(), 11);
    for fault in of_calls() {
        let core = StandIn(fault);
        let mut states = tiny_first::call_limits(0..640);
        let found = states.any(|one| {
            let list = with_every_kind(one.seed, &one.of);
            difference(&core, &list, &mut Seen::default()).is_some()
        });
        assert!(found, "{}", fault.name);
    }
}

/// The reference with a faulty check of what is handed in.
struct Checks(CheckFault);

impl Core for Checks {
    /// Not asked: a count that is wrongly accepted has no room for another record.
    fn request(&self, _: &mut RawState, request: &Request) -> Result<Got, Refusal> {
        panic!("{request:?}");
    }

    fn offers(&self, state: &RawState, cell: i64, chain: &[i64]) -> Result<bool, Refusal> {
        let state = (self.0.check)(state).ok_or(OUT_OF_RANGE)?;
        let Some(cell) = index(cell, state.cells.len()) else {
            return Ok(false);
        };
        let numbers = chain.iter().map(|one| index(*one, state.table.methods));
        let methods: Option<Vec<usize>> = numbers.collect();
        let all = All {
            table: &state.table,
            types: &offered(&state, cell),
        };
        Ok(methods.is_some_and(|methods| all.permit(&methods)))
    }
}

/// Each fault of the check of calls (H1, H17) is found at their limits, by what is offered.
#[test]
fn every_fault_of_the_check_is_found_at_its_limits() {
    for fault in CHECKS {
        let core = Checks(*fault);
        let mut states = tiny_first::call_limits(0..640);
        let found = states.any(|one| on_offers(&core, &one, &mut [0; 3]).is_some());
        assert!(found, "{}", fault.name);
    }
}

/// L28 and L29 alone find what they are for, without the reference's answers beside them, by requests and in runs.
#[test]
fn the_log_is_watched() {
    let scripts: Vec<_> = tiny_first::scripts(&[(Profile::Full, 40)]).collect();
    let lists: Vec<Hostile> = scripts
        .iter()
        .filter_map(|one| Some(loaded(one)?.1))
        .collect();
    // those through cells of others are met on states handed in alone, and these have no transcript
    for fault in of_calls().filter(|fault| !NOT_LOGGED.contains(&fault.name)) {
        let core = StandIn(fault);
        let found = lists
            .iter()
            .any(|one| by_the_transcript(&core, one, &mut 0).is_some());
        assert!(found, "{}", fault.name);
    }
    let found = lists
        .iter()
        .any(|one| run_by_the_transcript(counts_refused, one).is_some());
    assert!(found, "{OVER_A_LIST}");
}

/// Of a loaded sheet a cell is called through by its holder alone; and that 18 comes too early in the row, before 15, is told by no transcript.
const NOT_LOGGED: [&str; 2] = ["calls_of_holder_counted", "calls_full_before_values"];

/// L30 alone finds what it is for: two histories that do not agree on 18.
#[test]
fn two_histories_are_watched() {
    for name in [
        "calls_of_another_counted",
        "calls_of_owner_counted",
        "calls_refused_counted",
    ] {
        let serves = |table: &Table, requests: &[Request]| {
            let state = State::of_sheet(table.clone());
            let (results, _) = (named(name).run)(state, requests);
            results.iter().map(|result| result.err()).collect()
        };
        let differ = |seed| {
            let [one, other] = ends(serves, &two_lists(seed));
            let told =
                one.accepted == other.accepted && passes(one.refusal) && passes(other.refusal);
            told && (one.refusal == Some(CALLS_FULL)) != (other.refusal == Some(CALLS_FULL))
        };
        assert!((0..400).any(differ), "{name}");
    }
}

/// Whether demand 3 finds something on scripts.
fn is_watched(core: &impl Core) -> bool {
    let mut scripts = tiny_first::scripts(&[(Profile::Medium, 400)]);
    scripts.any(|script| watch(core, &script).is_some())
}

/// Demand 3 alone finds what it is for, without the reference's answers beside it.
#[test]
fn demand_3_is_watched() {
    for name in [
        "never_wraps",
        "wraps_first_passes_later",
        "answer_unrestricted",
        "static_type_forgotten",
    ] {
        let core = StandIn(named(name));
        assert!(is_watched(&core), "{name}");
    }
}

/// A change to a state.
type Change = fn(&mut RawState);

/// Answers right, and then spoils the state where it accepts, or where it refuses.
struct Spoils {
    accepted: bool,
    spoil: Change,
}

impl Core for Spoils {
    fn request(&self, state: &mut RawState, request: &Request) -> Result<Got, Refusal> {
        let result = entry::request(state, request);
        if result.is_ok() == self.accepted {
            (self.spoil)(state);
        }
        result
    }

    fn offers(&self, state: &RawState, cell: i64, chain: &[i64]) -> Result<bool, Refusal> {
        entry::offers(state, cell, chain)
    }
}

/// Bytes that a request has to leave: a spare one of a type, a record's, an answered flag, and past the counts those that a
/// refusal leaves.
#[test]
fn every_byte_is_compared() {
    let spoils: [(bool, Change); 7] = [
        (true, |state| state.table.entry_mut(0)[9] ^= 1),
        (true, |state| state.table.broader[0] ^= 1),
        (true, |state| state.cell_mut(0)[1] ^= 1),
        (true, |state| state.call_mut(0)[3] ^= 1),
        (false, |state| state.table.entry_mut(127)[127] ^= 1),
        (false, |state| state.place_mut(127)[2] ^= 1),
        (false, |state| state.calls ^= 1),
    ];
    for (at, (accepted, spoil)) in spoils.into_iter().enumerate() {
        let core = Spoils { accepted, spoil };
        let mut seen = Seen::default();
        let mut states = tiny_first::crowded_states(0..50);
        let found = states.any(|one| on_handed_in(&core, &one.of, &mut seen).is_some());
        assert!(found, "{at}");
    }
}

/// Takes for offered what the cell's type alone permits (0), or what its place's type alone permits (1).
struct OneSided(usize);

impl Core for OneSided {
    fn request(&self, state: &mut RawState, request: &Request) -> Result<Got, Refusal> {
        entry::request(state, request)
    }

    fn offers(&self, state: &RawState, cell: i64, chain: &[i64]) -> Result<bool, Refusal> {
        let state = check::state(state).map_err(|_| OUT_OF_RANGE)?;
        let Some(cell) = index(cell, state.cells.len()) else {
            return Ok(false);
        };
        let numbers = chain.iter().map(|one| index(*one, state.table.methods));
        let methods: Option<Vec<usize>> = numbers.collect();
        let one = offered(&state, cell)[self.0];
        Ok(methods.is_some_and(|methods| permits(&state.table, one, &methods)))
    }
}

#[test]
fn both_sides_of_offers_are_tried() {
    for side in 0..2 {
        let core = OneSided(side);
        let mut states = tiny_first::states(0..200);
        let found = states.any(|one| on_offers(&core, &one, &mut [0; 3]).is_some());
        assert_eq!((found, is_watched(&core)), (true, true), "{side}");
    }
}

/// A program that reads these words as those, in requests.
fn reads(wrong: &'static str, right: &'static str) -> impl Fn(&[u8]) -> Vec<u8> {
    move |input| {
        let (sheet, rest) = script::split(input);
        let rest = String::from_utf8_lossy(rest).replace(wrong, right);
        script::run(&[sheet, rest.as_bytes()].concat())
    }
}

/// A program that leaves out malformed lines.
fn skips(input: &[u8]) -> Vec<u8> {
    let (sheet, rest) = script::split(input);
    let lines = rest.split_inclusive(|byte| *byte == b'\n');
    let right = lines.filter(|line| {
        let line = line.strip_suffix(b"\n");
        line.is_some_and(|line| script::parse(line).is_some())
    });
    script::run(&[sheet, &right.collect::<Vec<_>>().concat()].concat())
}

/// A program that prints the two numbers of a result the other way round.
fn exchanges(input: &[u8]) -> Vec<u8> {
    let text = String::from_utf8(script::run(input)).unwrap();
    let lines = text.lines().map(|line| {
        let numbers = line
            .strip_prefix("got=")
            .and_then(|two| two.split_once(' '));
        numbers.map_or(format!("{line}\n"), |(a, b)| format!("got={b} {a}\n"))
    });
    lines.collect::<String>().into_bytes()
}

/// A program.
type Program = Box<dyn Fn(&[u8]) -> Vec<u8>>;

/// Each wrong program of scripts is found by a script of the gate.
#[test]
fn wrong_programs_are_found() {
    let programs: [(&str, Program); 11] = [
        ("-0", Box::new(reads(" -0", " 0"))),
        ("a leading zero", Box::new(reads(" 01", " 1"))),
        ("+1", Box::new(reads(" +1", " 1"))),
        (
            "past 64 bits",
            Box::new(reads(" 18446744073709551617", " 1")),
        ),
        (
            "past the lowest",
            Box::new(reads(" -9223372036854775809", " 1")),
        ),
        ("two spaces", Box::new(reads("  ", " "))),
        ("a space at the end", Box::new(reads(" \n", "\n"))),
        ("a CR at the end", Box::new(reads("\r\n", "\n"))),
        ("skips a line", Box::new(skips)),
        ("exchanges numbers", Box::new(exchanges)),
        (
            "reads too much",
            Box::new(|input| script::run(&input[..input.len().min(MAX_INPUT)])),
        ),
    ];
    for (name, program) in programs {
        let differs = |input: &[u8]| program(input) != script::run(input);
        let mut scripts = tiny_first::scripts(&[(Profile::Damaged, 1000)]);
        let found = scripts.any(|script| differs(&script.of))
            || (0..2000).any(|seed| differs(&damaged(seed)));
        assert!(found, "{name}");
    }
}

/// A way to hold marks against arrivals: in order, where a test says which of the two is too early.
fn in_order(lists: &Lists, too_early: impl Fn(u64, u64) -> [bool; 2]) -> Answer {
    let [mut mark, mut arrival, mut pairs] = [0; 3];
    let (marks, arrivals) = (&lists.marks, &lists.arrivals);
    while mark < marks.len() && arrival < arrivals.len() {
        let early = too_early(marks[mark], arrivals[arrival]);
        pairs += usize::from(early == [false; 2]);
        mark += usize::from(!early[1]);
        arrival += usize::from(!early[0]);
    }
    (0, [pairs, marks.len() - pairs, arrivals.len() - pairs])
}

/// What V8 does, for lists that are right.
fn right(lists: &Lists) -> Answer {
    let within = lists.within;
    in_order(lists, |mark, arrival| {
        [mark + within < arrival, arrival + within < mark]
    })
}

/// Each mark, in order, takes the free arrival that is nearest to it.
fn nearest(lists: &Lists) -> Answer {
    let mut free = lists.arrivals.clone();
    let mut pairs = 0;
    for mark in &lists.marks {
        let best = (0..free.len()).min_by_key(|at| free[*at].abs_diff(*mark));
        if let Some(best) = best.filter(|best| free[*best].abs_diff(*mark) <= lists.within) {
            free.remove(best);
            pairs += 1;
        }
    }
    (0, [pairs, lists.marks.len() - pairs, free.len()])
}

/// A function that refuses as it should, and is wrong where it accepts.
fn where_it_accepts(lists: &Lists, wrong: fn(&Lists) -> Answer) -> Answer {
    match ours(lists) {
        (0, _) => wrong(lists),
        refused => refused,
    }
}

/// A function that puts what is handed in right first, as far as it goes.
fn changed(lists: &Lists, change: fn(&mut Lists)) -> Answer {
    let mut lists = lists.clone();
    change(&mut lists);
    ours(&lists)
}

/// One that takes what is not in order as it comes.
fn sorted(lists: &mut Lists) {
    lists.marks.sort();
    lists.arrivals.sort();
}

/// A function that holds marks against arrivals.
type Holds = fn(&Lists) -> Answer;

/// Wrong where they accept: what each gets wrong, or takes no notice of.
const WRONG_WAYS: [(&str, Holds); 8] = [
    ("just as far apart as the tolerance", |lists| {
        in_order(lists, |mark, arrival| {
            let far = mark.abs_diff(arrival) >= lists.within.max(1);
            [far && mark < arrival, far && arrival < mark]
        })
    }),
    ("an arrival before its mark", |lists| {
        let within = lists.within;
        in_order(lists, |mark, arrival| {
            [mark + within < arrival, arrival < mark]
        })
    }),
    ("a mark before its arrival", |lists| {
        let within = lists.within;
        in_order(lists, |mark, arrival| {
            [mark < arrival, arrival + within < mark]
        })
    }),
    ("the nearest first", nearest),
    ("equal times are one", |lists| {
        let mut once = lists.clone();
        once.marks.dedup();
        once.arrivals.dedup();
        let (_, [pairs, ..]) = right(&once);
        let left = [&lists.marks, &lists.arrivals].map(|list| list.len() - pairs);
        (0, [pairs, left[0], left[1]])
    }),
    ("the last mark", |lists| {
        let mut other = lists.clone();
        let last = other.marks.pop();
        let (code, [pairs, marks, arrivals]) = right(&other);
        (code, [pairs, marks + usize::from(last.is_some()), arrivals])
    }),
    ("counts exchanged", |lists| {
        let (code, [pairs, marks, arrivals]) = right(lists);
        (code, [pairs, arrivals, marks])
    }),
    ("counts of the entries", |lists| {
        let (code, [pairs, ..]) = right(lists);
        (code, [pairs, lists.marks.len(), lists.arrivals.len()])
    }),
];

/// Each wrong function is found on lists of the gate.
#[test]
fn wrong_ways_to_pair_are_found() {
    let differs = |seed: u64, way: Holds| {
        let lists = Lists::generated(seed);
        where_it_accepts(&lists, way) != ours(&lists)
    };
    for (name, way) in WRONG_WAYS {
        assert!((0..2000).any(|seed| differs(seed, way)), "{name}");
    }
    assert!(!(0..2000).any(|seed| differs(seed, right)));
}

/// Wrong at a limit of V3, or where they refuse.
const WRONG_LIMITS: [(&str, Holds); 14] = [
    ("1,025 entries", |lists| {
        changed(lists, |lists| {
            if lists.marks.len() == MOST + 1 {
                lists.marks.pop();
            }
        })
    }),
    ("many entries", |lists| {
        changed(lists, |lists| lists.arrivals.truncate(MOST))
    }),
    ("1,023 entries", |lists| match lists.marks.len() {
        MOST => (22, UNSET),
        _ => ours(lists),
    }),
    ("times in 32 bits", |lists| {
        changed(lists, |lists| {
            for time in lists.marks.iter_mut().chain(&mut lists.arrivals) {
                *time &= LAST;
            }
        })
    }),
    ("a time above the last", |lists| {
        changed(lists, |lists| {
            for time in &mut lists.marks {
                *time = LAST.min(*time);
            }
        })
    }),
    ("the last time", |lists| {
        if lists.arrivals.contains(&LAST) {
            return (22, UNSET);
        }
        ours(lists)
    }),
    ("60,001", |lists| {
        changed(lists, |lists| {
            lists.within -= u64::from(lists.within == WIDEST + 1)
        })
    }),
    ("a tolerance in 16 bits", |lists| {
        changed(lists, |lists| {
            if lists.within > WIDEST {
                lists.within &= 0xffff;
            }
        })
    }),
    ("60,000", |lists| match lists.within {
        WIDEST => (22, UNSET),
        _ => ours(lists),
    }),
    ("times that fall", |lists| changed(lists, sorted)),
    ("the last step", |lists| {
        changed(lists, |lists| {
            if let [.., before, last] = &mut lists.marks[..] {
                *last = *last.max(before);
            }
        })
    }),
    ("the first step", |lists| {
        changed(lists, |lists| {
            if let [first, second, ..] = &mut lists.arrivals[..] {
                *second = *second.max(first);
            }
        })
    }),
    ("equal times", |lists| {
        let twice = |list: &[u64]| list.windows(2).any(|two| two[0] == two[1]);
        if twice(&lists.marks) {
            return (22, UNSET);
        }
        ours(lists)
    }),
    ("counts where it refuses", |lists| match ours(lists) {
        (0, counts) => (0, counts),
        (code, _) => (code, [0; 3]),
    }),
];

/// Each function that takes what is unfit is found at a limit.
#[test]
fn wrong_limits_are_found() {
    for (name, way) in WRONG_LIMITS {
        let found = limits().iter().any(|(lists, _)| way(lists) != ours(lists));
        assert!(found, "{name}");
    }
}

/// A program that reads these words as those.
fn doors_reads(wrong: &'static str, right: &'static str) -> Program {
    Box::new(move |input| {
        let text = String::from_utf8_lossy(input).replace(wrong, right);
        doors::run(text.as_bytes())
    })
}

/// A program that looks at the tolerance before it looks at the form of the lists.
fn tolerance_first(input: &[u8]) -> Vec<u8> {
    let line = input.split(|byte| *byte == b'\n').next();
    let alone = [line.unwrap_or_default(), b"\n\n\n"].concat();
    match doors::run(&alone) {
        unfit if unfit == b"no=22\n" => unfit,
        _ => doors::run(input),
    }
}

/// A program that leaves out what is behind three lines.
fn three_lines(input: &[u8]) -> Vec<u8> {
    let lines = input.split_inclusive(|byte| *byte == b'\n');
    doors::run(&lines.take(3).collect::<Vec<_>>().concat())
}

/// A program that takes an empty line for malformed.
fn no_empty_line(input: &[u8]) -> Vec<u8> {
    if input.windows(2).any(|two| two == b"\n\n") {
        return b"no=1\n".to_vec();
    }
    doors::run(input)
}

/// Each wrong program is found by an input of the gate.
#[test]
fn wrong_readers_of_lists_are_found() {
    let programs: [(&str, Program); 14] = [
        ("a leading zero", doors_reads("\n01", "\n1")),
        ("00", doors_reads("=00", "=0")),
        ("+1", doors_reads("+1", "1")),
        ("-0", doors_reads("-0", "0")),
        ("two spaces", doors_reads("  ", " ")),
        ("a space at the end", doors_reads(" \n", "\n")),
        ("a space in front", doors_reads("\n ", "\n")),
        ("a CR at the end", doors_reads("\r\n", "\n")),
        ("past 64 bits", doors_reads("18446744073709551616", "0")),
        (
            "no LF at the end",
            Box::new(|input| {
                let end: &[u8] = if input.ends_with(b"\n") { b"" } else { b"\n" };
                doors::run(&[input, end].concat())
            }),
        ),
        ("more than three lines", Box::new(three_lines)),
        ("an empty line", Box::new(no_empty_line)),
        ("the tolerance first", Box::new(tolerance_first)),
        (
            "reads too much",
            Box::new(|input| doors::run(&input[..input.len().min(MAX_INPUT)])),
        ),
    ];
    for (name, program) in programs {
        let differs = |input: &[u8]| program(input) != doors::run(input);
        let found = INPUTS.iter().any(|(input, _)| differs(input.as_bytes()))
            || (0..3000).any(|seed| differs(&doors_input(seed)));
        assert!(found, "{name}");
    }
}
