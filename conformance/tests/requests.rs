//! The proved core's requests and offers against the reference, whole states compared: on states handed in, right and wrong, and
//! on those of loaded sheets. Demand 3 is watched on what runs. tests/stand_ins.rs shows that the drivers can fail.

use conformance::heavy::{
    turning_arguments, turning_call, turning_climb, turning_last, MOST_TURNS,
};
use conformance::requests::{difference, loaded_anew, on_handed_in, on_loaded, on_offers, watch};
use conformance::served::{counts, offers, request, Proved, StateCounts};
use conformance::tiny_first;
use pilgonca::raw::TINY_SHEETS;
use reference::check;
use reference::coverage::{serve, Seen, OF_ARGUMENTS, OF_REQUESTS};
use reference::entry;
use reference::generators::Profile;
use reference::hostile::{self, Hostile};
use reference::refusal::Refusal;
use reference::requests::Request;
use reference::situations::Situation::{
    AdapterBehindAdapter, FourReferencesThroughSeveral, TypesFullAtLastArgument,
};
use reference::state::State;
use reference::table::MAX_ARGUMENTS;
use std::ops::Range;

/// Every number that a request can meet on a state handed in: 2 and 19 beside those of a loaded sheet.
fn numbers(name: &str) -> Vec<Refusal> {
    let (_, of_sheet) = OF_REQUESTS.iter().find(|(one, _)| *one == name).unwrap();
    let later: &[Refusal] = match name {
        "call" | "answer" => &[19],
        _ => &[],
    };
    [&[2], *of_sheet, later].concat()
}

/// States handed in; every refusal 2 and 5 to 19 is met, by each request that can meet it, and so is acceptance.
fn handed_in(seeds: Range<u64>) {
    let mut seen = Seen::default();
    let mut states = 0;
    for hostile in tiny_first::crowded_states(seeds) {
        let found = on_handed_in(&Proved, &hostile.of, &mut seen);
        assert_eq!(found, None, "{}", hostile.from);
        states += 1;
    }
    println!("{states} states handed in\n{}", seen.text());
    for number in [2].into_iter().chain(5..=19) {
        assert!(seen.number(number) >= 20, "{number}");
    }
    for (name, _) in OF_REQUESTS {
        assert!(seen.accepted[name] >= 200, "{name}");
        for number in numbers(name) {
            let count = seen.refused.get(&(*name, number));
            assert!(count >= Some(&3), "{name} {number}: {count:?}");
        }
    }
}

/// Chains offered, not offered and 2, each so often.
fn chains(seeds: Range<u64>, least: u32) {
    let mut offered = [0; 3];
    for hostile in tiny_first::states(seeds) {
        let found = on_offers(&Proved, &hostile, &mut offered);
        assert_eq!(found, None, "{}", hostile.from);
    }
    println!("chains not offered, offered, refused: {offered:?}");
    assert!(offered.iter().all(|count| *count > least), "{offered:?}");
}

/// Seeds of long scripts.
const LONG: u64 = 150;

/// How many seeds of a kind of script.
type Scripts = [(Profile, u64); 5];

fn scripts(small: u64, medium: u64, big: u64, full: u64, long: u64) -> Scripts {
    [
        (Profile::Small, small),
        (Profile::Medium, medium),
        (Profile::Big, big),
        (Profile::Full, full),
        (Profile::Long, long),
    ]
}

/// Scripts on loaded sheets: every number from 5 to 18 is met, and neither 2 nor 19.
fn loaded(scripts: Scripts) {
    let mut seen = Seen::default();
    for script in tiny_first::scripts(&scripts) {
        let found = on_loaded(&Proved, &script, &mut seen);
        assert_eq!(found, None, "{}", script.from);
    }
    println!("scripts {scripts:?}\n{}", seen.text());
    let never: Vec<Refusal> = (1..=19).filter(|one| seen.number(*one) == 0).collect();
    assert_eq!(never, [1, 2, 3, 4, 19]);
}

/// Demand 3 after scripts on loaded sheets.
fn watched(scripts: Scripts) {
    for script in tiny_first::scripts(&scripts) {
        let found = watch(&Proved, &script);
        assert_eq!(found, None, "{}", script.from);
    }
    println!("demand 3 watched after scripts {scripts:?}");
}

#[test]
fn requests_on_states_handed_in() {
    handed_in(0..8000);
}

#[test]
fn offers_on_states_handed_in() {
    chains(0..4000, 5000);
}

#[test]
fn requests_on_loaded_sheets() {
    loaded(scripts(1500, 500, 20, 40, LONG));
}

/// The long scripts among them meet what they are for: four references through adapters, a table full at the fourth argument, and
/// by each argument every number that one can be refused with.
#[test]
fn long_scripts_meet_every_position() {
    let mut seen = Seen::default();
    for script in tiny_first::scripts(&[(Profile::Long, LONG)]) {
        let (table, list) = conformance::requests::loaded(&script).expect("a script");
        seen.add(&serve(State::of_sheet(table), &list.requests));
    }
    for situation in [FourReferencesThroughSeveral, TypesFullAtLastArgument] {
        assert!(seen.met(situation) > 0, "{situation:?}\n{}", seen.text());
    }
    for number in OF_ARGUMENTS {
        let at = |position| seen.positions.contains_key(&(number, position));
        assert!((0..MAX_ARGUMENTS).all(at), "{number}\n{}", seen.text());
    }
}

/// Made by hand (conformance::heavy): four references that turn at every adapter, at as many as can be, and at one adapter more, where the
/// table becomes full inside the fourth, the only one that turns. The proved core does what the reference does.
#[test]
fn references_that_turn_at_every_adapter() {
    for (table, layers, situation) in [
        (
            turning_arguments(),
            MOST_TURNS,
            FourReferencesThroughSeveral,
        ),
        (turning_last(), MOST_TURNS, FourReferencesThroughSeveral),
        (turning_last(), MOST_TURNS + 1, TypesFullAtLastArgument),
    ] {
        let state = loaded_anew(&table);
        let called = [turning_call(layers, MAX_ARGUMENTS)];
        let requests = [turning_climb(layers).as_slice(), &called].concat();
        let list = Hostile { state, requests };
        let mut seen = Seen::default();
        assert_eq!(difference(&Proved, &list, &mut seen), None, "{situation:?}");
        let refused = seen.refused.values().sum::<u64>();
        assert_eq!(refused, u64::from(situation == TypesFullAtLastArgument));
        let state = check::state(&list.state).expect("a state that is right");
        let met = serve(state, &list.requests);
        assert_eq!(met.met(situation), 1, "{layers}\n{}", met.text());
        assert_eq!(met.met(AdapterBehindAdapter), layers as u64 - 1);
    }
}

#[test]
fn demand_3_on_loaded_sheets() {
    watched(scripts(1500, 400, 10, 10, 20));
}

/// A count that is right but for its high half is refused with 2, by every request and by offers, and every byte stays.
#[test]
fn counts_of_any_size() {
    let found = tiny_first::states(0..u64::MAX).map(|hostile| hostile.of);
    let right = |one: &hostile::Hostile| entry::offers(&one.state, 0, &[]).is_ok();
    for one in found.filter(right).take(TINY_SHEETS + 40) {
        let of_state = counts(&one.state);
        for (at, high) in (0..of_state.len()).flat_map(|at| [(at, 1), (at, 1 << 31)]) {
            let mut far = of_state;
            far[at] += high << 32;
            one.requests
                .iter()
                .for_each(|asked| unfit(&one, far, asked));
            let mut offered = 7;
            let code = offers(&one.state, far, 0, &[], &mut offered);
            assert_eq!((code, offered), (2, 7), "{far:?}");
        }
    }
}

fn unfit(one: &hostile::Hostile, far: StateCounts, asked: &Request) {
    let (mut state, mut counts, mut values) = (one.state.clone(), far, [7; 3]);
    let code = request(&mut state, &mut counts, asked, &mut values);
    assert_eq!((code, counts, values), (2, far, [7; 3]), "{asked:?}");
    assert!(state == one.state, "{asked:?} changes a byte");
}

#[test]
#[ignore = "long"]
fn requests_on_millions_of_states_handed_in() {
    handed_in(0..1_000_000);
}

#[test]
#[ignore = "long"]
fn offers_of_millions_of_chains() {
    chains(0..200_000, 500_000);
}

#[test]
#[ignore = "long"]
fn millions_of_requests_on_loaded_sheets() {
    loaded(scripts(100_000, 40_000, 2000, 3000, 3000));
}

#[test]
#[ignore = "long"]
fn demand_3_on_many_loaded_sheets() {
    watched(scripts(60_000, 20_000, 500, 200, 200));
}
