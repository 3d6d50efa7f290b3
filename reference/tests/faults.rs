//! Deliberate faults, each an edit of the model's sources (faults/edits), are
//! each found by the generated inputs. The tiny sheets come first (02 k).

use faults::{named, CheckFault, Fault, ALL, CHECKS};
use reference::book::Book;
use reference::external::difference;
use reference::generators::{tiny_first, two_lists, Profile};
use reference::script::{self, printed};
use reference::serving;
use reference::shrink::shrink;
use reference::state::State;
use reference::transcript::{first_wrong, passes, Transcript};
use reference::{check, dump, hostile};

/// Seeds of each profile tried for each fault.
const SEEDS: u64 = 400;

/// The program with a fault.
fn faulty(fault: Fault, input: &[u8]) -> Vec<u8> {
    match script::read(input) {
        Ok(script) => {
            let state = State::of_sheet(script.table);
            let (results, _) = (fault.run)(state, &script.requests);
            printed(&results, script.malformed)
        }
        Err(_) => script::run(input),
    }
}

fn differs(input: &[u8], fault: Fault) -> bool {
    faulty(fault, input) != script::run(input)
}

/// The first generated input for which the faulty model prints something else.
fn found(fault: Fault) -> Option<Vec<u8>> {
    let mut profiles = [
        Profile::Small,
        Profile::Medium,
        Profile::Long,
        Profile::Full,
    ];
    if fault.name.starts_with("call") {
        // full lists come to the limits of calls
        profiles.reverse();
    }
    inputs(&profiles).find(|input| differs(input, fault))
}

fn inputs(profiles: &[Profile]) -> impl Iterator<Item = Vec<u8>> {
    let of_profile = |profile: &Profile| tiny_first(*profile, 0..SEEDS);
    profiles.iter().flat_map(of_profile).map(|(_, input)| input)
}

/// Whether a fault that loaded sheets cannot meet is found on handed-in states.
fn found_handed_in(fault: Fault) -> bool {
    let generated = (0..3000).map(hostile::generate);
    let mut states = hostile::on_tiny(0).into_iter().chain(generated);
    states.any(|hostile| {
        check::state(&hostile.state).is_ok_and(|state| {
            let right = serving::run(state.clone(), &hostile.requests);
            (fault.run)(state, &hostile.requests).0 != right.0
        })
    })
}

/// Whether a fault that shows in the state alone is found there.
fn found_in_state(fault: Fault) -> bool {
    inputs(&[Profile::Medium]).any(|input| {
        let script = script::read(&input).unwrap();
        let state = State::of_sheet(script.table);
        let right = serving::run(state.clone(), &script.requests);
        (fault.run)(state, &script.requests).1 != right.1
    })
}

#[test]
fn every_fault_is_found() {
    assert!(ALL.len() >= 42, "{}", ALL.len());
    for fault in ALL {
        let found = match fault.name {
            // 19 is met on handed-in states alone
            "later_crossing_keeps_number" => found_handed_in(*fault),
            // a cell is called through by its holder alone (C2), but on handed-in states
            "calls_of_holder_counted" => found_handed_in(*fault),
            // numbers of types are not printed
            "number_after_signatures" => found_in_state(*fault),
            _ => found(*fault).is_some(),
        };
        assert!(found, "{}", fault.name);
    }
}

/// Whether a faulty check answers another way for a state that is handed in.
fn found_by(fault: CheckFault, states: impl Iterator<Item = hostile::Hostile>) -> bool {
    let mut states = states.map(|hostile| hostile.state);
    states.any(|state| (fault.check)(&state) != check::state(&state).ok())
}

/// Both by the states at the limits of calls, and by any.
#[test]
fn every_fault_of_the_check_is_found() {
    assert!(CHECKS.len() >= 9, "{}", CHECKS.len());
    for fault in CHECKS {
        let at_limits = (0..320).map(hostile::at_call_limits);
        assert!(found_by(*fault, at_limits), "{}", fault.name);
        let generated = (0..3000).map(hostile::generate);
        assert!(found_by(*fault, generated), "{}", fault.name);
    }
}

/// The book finds what demand 3 is for, with no right model beside it (L21).
#[test]
fn demand_3_finds_what_it_is_for() {
    for name in [
        "never_wraps",
        "wraps_first_passes_later",
        "answer_unrestricted",
        "static_type_forgotten",
    ] {
        let mut inputs = inputs(&[Profile::Small, Profile::Medium]);
        assert!(inputs.any(|input| is_broken(named(name), &input)), "{name}");
    }
}

fn is_broken(fault: Fault, input: &[u8]) -> bool {
    let script = script::read(input).unwrap();
    let state = State::of_sheet(script.table.clone());
    let (results, state) = (fault.run)(state, &script.requests);
    Book::of_run(&script.table, &script.requests, &results)
        .and_then(|book| book.check(&state))
        .is_err()
}

/// What L28 and L29 say of requests and outcomes finds what they are for, with no right model
/// beside it.
#[test]
fn the_transcript_finds_what_it_is_for() {
    for name in [
        "call_33_accepted",
        "call_32_refused",
        "calls_of_another_counted",
        "calls_of_owner_counted",
        "calls_unanswered_counted",
        "calls_full_by_total",
        "calls_full_by_total_too",
        "calls_full_by_cell",
        "calls_full_after_crossing",
        "calls_refused_counted",
    ] {
        let broken = |input: Vec<u8>| {
            let script = script::read(&input).unwrap();
            let state = State::of_sheet(script.table);
            let (results, state) = (named(name).run)(state, &script.requests);
            let transcript = Transcript::of_run(&script.requests, &results);
            first_wrong(&script.requests, &results).is_some() || !transcript.agrees(&state)
        };
        assert!(inputs(&[Profile::Full]).any(broken), "{name}");
    }
}

/// L30 by itself finds what it is for: two histories from one sheet that do not agree on 18.
#[test]
fn two_histories_find_what_they_are_for() {
    for name in [
        "calls_of_another_counted",
        "calls_of_owner_counted",
        "calls_refused_counted",
    ] {
        let differ = |seed| {
            let two = two_lists(seed);
            let [one, other] = [&two.first, &two.second].map(|list| {
                let state = State::of_sheet(two.table.clone());
                let (results, _) = (named(name).run)(state, list);
                let (last, before) = results.split_last().unwrap();
                let accepted = Transcript::of_run(list, before).accepted(two.subject);
                (accepted, passes(last.err()), last.err() == Some(18))
            });
            (one.0, one.1) == (other.0, true) && other.1 && one.2 != other.2
        };
        assert!((0..400).any(differ), "{name}");
    }
}

/// A fault found is shown by a small input.
#[test]
fn faults_shrink() {
    for (name, most) in [
        ("never_wraps", 260),
        ("unwraps_to_next", 600),
        ("arguments_in_answer_direction", 600),
    ] {
        let input = found(named(name)).unwrap();
        let small = shrink(&input, &mut |input| differs(input, named(name)));
        assert!(differs(&small, named(name)));
        assert!(small.len() <= input.len());
        assert!(small.len() < most, "{}", dump::account(&small));
    }
}

/// Two programs that differ are shown with a small input and what they print.
#[test]
fn a_difference_comes_with_a_small_input() {
    let theirs = |input: &[u8]| faulty(named("wraps_first_passes_later"), input);
    let found = inputs(&[Profile::Medium])
        .find_map(|input| difference(&input, &theirs, &script::run))
        .unwrap();
    assert_ne!(found.theirs, found.ours);
    assert!(found.input.len() < 700, "{found:?}");
}
