//! The proved core's run (U) against the reference serving one request after the other: on states handed in, right and wrong, and on
//! those of loaded sheets; words that are no request, and answer lists of every length.

use conformance::run_lists::{difference, on_handed_in, on_loaded, List, Met, Run};
use conformance::runs::{self, decoded, words};
use conformance::served::{counts, run, Proved};
use conformance::tiny_first;
use faults::named;
use pilgonca::raw::TINY_SHEETS;
use reference::generators::Profile;
use reference::raw::RawState;
use reference::refusal::Refusal;
use reference::sheet;
use reference::state::State;
use reference::table::{Key, Kind};

/// Lists of both kinds, those on loaded sheets first.
fn lists(handed_in: u64, sheets: &[(Profile, u64)]) -> impl Iterator<Item = List> {
    let of_sheets = tiny_first::scripts(sheets).filter_map(on_loaded);
    let handed_in = tiny_first::crowded_states(0..handed_in);
    of_sheets.chain(handed_in.map(on_handed_in))
}

/// As many long ones as full ones.
fn sheets(small: u64, medium: u64, big: u64, full: u64) -> [(Profile, u64); 5] {
    [
        (Profile::Small, small),
        (Profile::Medium, medium),
        (Profile::Big, big),
        (Profile::Full, full),
        (Profile::Long, full),
    ]
}

/// No list differs; every refusal of a run is met, and so is every kind of room for answers.
fn compare(lists: impl Iterator<Item = List>) {
    let mut met = Met::default();
    for (at, list) in lists.enumerate() {
        let found = difference(Proved::run, runs::run, &list, &mut met);
        assert_eq!(found, None, "list {at}");
    }
    println!("{met:?}");
    for number in [0, 1, 2].into_iter().chain(5..=19) {
        assert!(met.numbers[number] >= 20, "{number}: {met:?}");
    }
    assert!(met.rooms.iter().all(|count| *count >= 200), "{met:?}");
}

#[test]
fn runs_as_the_reference() {
    compare(lists(6000, &sheets(800, 300, 20, 40)));
}

/// R12 was found here: a derived type handed in with own is used again and comes to stand in a signature. `a_call_meets_9` has it by hand.
#[test]
#[ignore = "long"]
fn hundreds_of_thousands_of_runs() {
    compare(lists(300_000, &sheets(40_000, 10_000, 500, 1000)));
}

/// A state with two known types that have own (Q19): the first request takes them into signatures, and an argument of a later call
/// in the same run meets 9 there (C13).
#[test]
fn a_call_meets_9() {
    let denies = "rep=ref\ncat=0\nown=no\nm=denied\nm=denied\n";
    let sheet = format!(
        "guide=1\nsubjects=2\nmethods=2\ncats=0\ntypes=4\n\
        type=0\nrep=ref\ncat=0\nown=no\nm=avail(1)-\nm=avail()-\ntype=1\n{denies}\
        type=2\nrep=ref\ncat=0\nown=no\nm=avail(3)-\nm=unavail\ntype=3\n{denies}end=sheet\n"
    );
    let mut table = sheet::read(sheet.as_bytes()).expect("a right sheet");
    for (left, right) in [(1, 3), (1, 4)] {
        let mut known = table.types[1].clone();
        known.own = true;
        table.types.push(known);
        let kind = Kind::Sup;
        table.keys.push(Key { kind, left, right });
    }
    let state = RawState::of(&State::of_sheet(table));
    // new 0 0 2, move 0 0 1 2, new 1 0 0, call 1 1 0 2
    let words = [
        0, 3, 0, 0, 2, 1, 4, 0, 0, 1, 2, 0, 3, 1, 0, 0, 2, 4, 1, 1, 0, 2,
    ];
    for run in [runs::run, Proved::run] {
        let (mut state, mut answers) = (state.clone(), [7; 16]);
        assert_eq!(run(&mut state, &words, &mut answers), Ok(4));
        assert_eq!(answers[12..], [9, 0, 0, 0]);
    }
}

/// The encoder's words are read as the requests they are of.
#[test]
fn words_are_read_back() {
    for one in tiny_first::states(0..500).map(|hostile| hostile.of) {
        let all: Vec<i64> = one.requests.iter().flat_map(words).collect();
        let read: Option<Vec<_>> = decoded(&all).into_iter().collect();
        assert_eq!(read, Some(one.requests));
    }
}

/// A count that is right but for its high half is refused with 2, and nothing is stored.
#[test]
fn counts_of_any_size() {
    let right = |list: &List| runs::run(&mut list.state.clone(), &[], &mut []).is_ok();
    let lists = tiny_first::crowded_states(0..u64::MAX).map(on_handed_in);
    for list in lists.filter(right).take(TINY_SHEETS + 40) {
        for (at, high) in (0..8).flat_map(|at| [(at, 1 << 32), (at, 1 << 63)]) {
            let (mut state, mut answers, mut served) = (list.state.clone(), [7; 40], 7);
            let mut far = counts(&state);
            far[at] += high;
            let before = far;
            let code = run(&mut state, &mut far, &list.words, &mut answers, &mut served);
            assert_eq!((code, far, answers, served), (2, before, [7; 40], 7));
            assert!(state == list.state, "a byte is changed");
        }
    }
}

/// A stand-in that runs right, and then spoils what it is lent by how many were served.
macro_rules! spoils {
    (|$state:ident, $answers:ident, $served:ident| $spoil:expr) => {
        |$state, words, $answers| {
            let $served = runs::run($state, words, $answers)?;
            $spoil;
            Ok($served)
        }
    };
}

/// Checks the state at each request, and ends where it no longer passes.
fn checks_each(state: &mut RawState, words: &[i64], answers: &mut [i64]) -> Result<usize, Refusal> {
    let all = decoded(words);
    let mut served = 0;
    for (one, room) in all.iter().zip(answers.chunks_exact_mut(4)) {
        let one = one.as_ref().map_or(vec![9, 0], runs::words);
        served += runs::run(state, &one, room)?;
    }
    Ok(served)
}

/// A word of an answer, a word behind the last, a counted byte, how many, a byte at a refusal, a faulty model, a check too many.
const STAND_INS: [Run; 7] = [
    spoils!(|state, answers, served| answers[..served * 4].iter_mut().for_each(|one| *one ^= 1)),
    spoils!(|state, answers, served| answers[served * 4..].fill(0)),
    spoils!(|state, answers, served| state.table.entry_mut(0)[9] ^= 1),
    |state, words, answers| Ok(runs::run(state, words, answers)? + 1),
    |state, words, answers| {
        let result = runs::run(state, words, answers);
        state.call_mut(511)[3] ^= u8::from(result.is_err());
        result
    },
    |state, words, answers| runs::run_by(named("never_wraps").run, state, words, answers),
    checks_each,
];

/// The comparison can fail.
#[test]
fn stand_ins_are_found() {
    for (at, stand_in) in STAND_INS.into_iter().enumerate() {
        let differs = |list| difference(stand_in, runs::run, &list, &mut Met::default()).is_some();
        let mut lists = tiny_first::crowded_states(0..6000).map(on_handed_in);
        assert!(lists.any(differs), "{at}");
    }
}
