//! Situations of the calls in a handed-in state that are worth meeting (Q9, H1, H17).

use crate::check::Reason;
use crate::raw::RawState;
use crate::state::{State, MAX_CALLS, MAX_CALLS_EACH};

/// A situation of a state's calls, told from what was handed in and what the check says.
pub type Limits = (&'static str, fn(&RawState, &Result<State, Reason>) -> bool);

pub const LIMITS: &[Limits] = &[
    ("31 calls of one caller", |_, checked| {
        most(checked) == MAX_CALLS_EACH - 1
    }),
    ("32 calls of one caller", |_, checked| {
        most(checked) == MAX_CALLS_EACH
    }),
    ("32 calls of one caller, some answered", |_, checked| {
        let full = |state: &State, caller| state.calls_of(caller) == MAX_CALLS_EACH;
        checked.as_ref().is_ok_and(|state| {
            let mut answered = state.calls.iter().filter(|call| call.answered);
            answered.any(|call| full(state, call.caller))
        })
    }),
    ("512 calls, 32 of each of 16 callers", |_, checked| {
        checked
            .as_ref()
            .is_ok_and(|state| state.calls.len() == MAX_CALLS)
    }),
    ("511 calls", |_, checked| {
        checked
            .as_ref()
            .is_ok_and(|state| state.calls.len() == MAX_CALLS - 1)
    }),
    ("33 calls through the cells of one holder", |_, checked| {
        checked.as_ref().is_ok_and(|state| {
            let through = |holder: usize| {
                let holders = state.calls.iter().map(|call| state.cells[call.cell].holder);
                holders.filter(|one| *one == holder).count()
            };
            (0..state.table.subjects).any(|holder| through(holder) > MAX_CALLS_EACH)
        })
    }),
    (
        "32 calls of one caller and another of it past the count",
        |raw, checked| {
            checked.as_ref().is_ok_and(|state| {
                let calls = state.calls.len();
                calls < MAX_CALLS && {
                    let caller = usize::from(raw.call(calls)[0]);
                    caller < state.table.subjects && state.calls_of(caller) == MAX_CALLS_EACH
                }
            })
        },
    ),
    (
        "2: 33 calls of one caller, none answered",
        |raw, checked| {
            too_many(checked) && counts(raw).any(|(all, answered)| (all, answered) == (33, 0))
        },
    ),
    (
        "2: 33 calls of one caller, some answered",
        |raw, checked| {
            too_many(checked) && counts(raw).any(|(all, answered)| all == 33 && answered > 0)
        },
    ),
    ("2: 33 calls of one caller among 512", |raw, checked| {
        too_many(checked) && raw.calls as usize == MAX_CALLS
    }),
    (
        "2: 513 as the count of calls behind 512 right ones",
        |raw, checked| is_count(checked) && raw.calls as usize == MAX_CALLS + 1 && all_full(raw),
    ),
    (
        "2: a count of calls far above 512 behind 512 right ones",
        |raw, checked| is_count(checked) && raw.calls as usize > 2 * MAX_CALLS && all_full(raw),
    ),
];

/// The most calls of one caller in a state that passed.
fn most(checked: &Result<State, Reason>) -> usize {
    let state = checked.as_ref().ok();
    let of_callers = state.map(|state| (0..state.table.subjects).map(|one| state.calls_of(one)));
    of_callers.and_then(Iterator::max).unwrap_or(0)
}

fn too_many(checked: &Result<State, Reason>) -> bool {
    *checked == Err(Reason::TooManyCallsOfOne)
}

fn is_count(checked: &Result<State, Reason>) -> bool {
    *checked == Err(Reason::CallsCount)
}

/// Of each number that may stand for a caller its records, and how many of them are answered.
fn counts(raw: &RawState) -> impl Iterator<Item = (usize, usize)> + '_ {
    let calls = (raw.calls as usize).min(MAX_CALLS);
    (0..=u8::MAX).map(move |caller| {
        let records = (0..calls).map(|number| raw.call(number));
        let of_caller: Vec<&[u8]> = records.filter(|record| record[0] == caller).collect();
        let answered = of_caller.iter().filter(|record| record[3] == 1);
        (of_caller.len(), answered.count())
    })
}

/// Whether each of sixteen callers has 32 of the records.
fn all_full(raw: &RawState) -> bool {
    counts(raw)
        .filter(|(all, _)| *all == MAX_CALLS_EACH)
        .count()
        * MAX_CALLS_EACH
        == MAX_CALLS
}
