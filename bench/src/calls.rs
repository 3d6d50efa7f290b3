//! What the calls that were made cost: a call, a move and what is offered on a state with none of them and on one with 511 or 512, through
//! the C functions, and calls in runs.

use crate::measure::{head, ratio, row};
use crate::requests;
use crate::scenes::{after, calling, moving, populated, Scene};
use crate::served::{measure, offers};
use conformance::calls::{all_calls, handed_out, sheet as of_sixteen, ORDERS};
use conformance::runs::{words, ANSWER};
use conformance::served::{counts, set_counts, Proved};
use conformance::states::{of_table, with_511_calls};
use reference::raw::{RawState, RawTable};
use reference::requests::Request;
use reference::sheet;
use std::hint::black_box;

/// A run of the same requests again and again: the same as safe Rust's, and the ratio.
fn run(name: &str, state: &RawState, requests: &[Request]) {
    let words: Vec<i64> = requests.iter().flat_map(words).collect();
    let (mut theirs, mut ours) = (state.clone(), state.clone());
    let [mut their, mut our] = [0, 1].map(|word| vec![word; requests.len() * ANSWER]);
    let served = Proved::run(&mut theirs, &words, &mut their);
    assert_eq!(served, requests::run(&mut ours, &words, &mut our));
    assert_eq!((served, &their), (Ok(requests.len()), &our));
    assert!(theirs == ours, "{name}: the states differ");
    let before = counts(state);
    row(
        &format!("{name}: a request"),
        requests.len() as u32,
        || {
            set_counts(&mut theirs, before);
            let _ = black_box(Proved::run(&mut theirs, black_box(&words), &mut their));
        },
        || {
            set_counts(&mut ours, before);
            let _ = black_box(requests::run(&mut ours, black_box(&words), &mut our));
        },
    );
}

/// The state with as many calls as there can be.
fn with_512_calls(state: &RawState, request: &Request) -> RawState {
    let (state, _) = after(&with_511_calls(state.clone()), request).expect("the last call");
    assert_eq!(state.calls, 512);
    state
}

/// Case P for sixteen subjects, of which subject 0 has cells.
fn case() -> RawState {
    let sheet = sheet::read(of_sixteen().as_bytes()).expect("a sheet");
    populated(of_table(RawTable::of(&sheet)), 8)
}

/// All scenes.
pub fn all() {
    head("calls");
    let none = case();
    let (call, _) = calling(&none, 1).expect("an accepted call");
    let moved = moving(&none, false).expect("an accepted move");
    let (most, full) = (with_511_calls(none.clone()), with_512_calls(&none, &call));
    let states = [
        ("no call", &none),
        ("511 calls", &most),
        ("512 calls", &full),
    ];
    for (what, request) in [("call with 1 argument", &call), ("move", &moved)] {
        for (made, state) in states {
            measure(&Scene {
                name: format!("{what}, Case P, {made} made"),
                state: state.clone(),
                request: request.clone(),
            });
        }
    }
    for (made, state) in states {
        offers(&format!("Case P, {made} made"), state);
    }
    for (made, state) in states {
        let name = format!("a run of one call, Case P, {made} made");
        run(&name, state, std::slice::from_ref(&call));
    }
    checked(&none, &most);
    let mut handed = of_table(none.table.clone());
    for request in handed_out() {
        handed = after(&handed, &request).expect("accepted").0;
    }
    for (name, order) in [("by turns", ORDERS[0]), ("one behind the other", ORDERS[1])] {
        let name = format!("a run of 512 calls of sixteen subjects, {name}");
        run(&name, &handed, &all_calls(order));
    }
}

/// A run of nothing is the check of a state alone.
fn checked(none: &RawState, most: &RawState) {
    for (made, state) in [("no call", none), ("511 calls", most)] {
        let (mut theirs, mut ours) = (state.clone(), state.clone());
        assert_eq!(Proved::run(&mut theirs, &[], &mut []), Ok(0));
        assert_eq!(requests::run(&mut ours, &[], &mut []), Ok(0));
        ratio(
            &format!("a run of nothing, Case P, {made} made"),
            || {
                let _ = black_box(Proved::run(black_box(&mut theirs), &[], &mut []));
            },
            || {
                let _ = black_box(requests::run(black_box(&mut ours), &[], &mut []));
            },
        );
    }
}
