//! Each subject's own calls (02 c) over runs: the statements L28 to L31, told from requests and
//! outcomes, and the states at the limits of calls. The tiny sheets come first (02 k).

use reference::check::{self, Reason};
use reference::entry;
use reference::generators::{self, tiny_first, two_lists, Profile};
use reference::hostile::{self, Limit, LIMITS};
use reference::model::Model;
use reference::random::Random;
use reference::raw::RawState;
use reference::refusal::{Refusal, CALLS_FULL};
use reference::requests::{index, Got, Request};
use reference::script;
use reference::serving;
use reference::state::{State, MAX_CALLS, MAX_CALLS_EACH};
use reference::transcript::{first_wrong, passes, Transcript};
use std::collections::BTreeMap;

/// Inputs of every profile that is right.
fn inputs() -> impl Iterator<Item = (String, Vec<u8>)> {
    let profiles = [
        (Profile::Small, 300),
        (Profile::Medium, 200),
        (Profile::Big, 40),
        (Profile::Full, 90),
        (Profile::Long, 60),
    ];
    profiles
        .into_iter()
        .flat_map(|(profile, seeds)| tiny_first(profile, 0..seeds))
}

/// L28, at every state of a run; L29, at every request.
#[test]
fn records_and_18_go_by_the_transcript() {
    let (mut full, mut most) = (0, 0);
    for (name, input) in inputs() {
        let script = script::read(&input).unwrap();
        let mut model = Model::new(State::of_sheet(script.table));
        let mut transcript = Transcript::default();
        for request in &script.requests {
            let result = model.request(request);
            assert!(transcript.allows(request, result.err()), "{name}");
            transcript.add(request, result.is_ok());
            assert!(transcript.agrees(&model.state), "{name}");
            full += usize::from(result == Err(CALLS_FULL));
        }
        most = most.max(model.state.calls.len());
    }
    assert!(full > 500, "{full}");
    assert_eq!(most, MAX_CALLS);
}

/// The same of the transcript by itself: it is not content with anything else.
#[test]
fn the_transcript_tells_18_too_early_and_too_late() {
    let call = |subject| Request::Call {
        subject,
        cell: 0,
        method: 0,
        arguments: Vec::new(),
    };
    let got = |call| -> Result<Got, Refusal> { Ok(Got::Call { call, adapters: 0 }) };
    let requests: Vec<Request> = (0..34).map(|number| call(number / 33)).collect();
    let mut results: Vec<Result<Got, Refusal>> = (0..32).map(got).collect();
    results.extend([Err(18), got(32)]);
    assert_eq!(first_wrong(&requests, &results), None);
    for (at, result) in [
        (32, got(32)),
        (32, Err(13)),
        (31, Err(18)),
        (0, Err(18)),
        (33, Err(18)),
    ] {
        let mut results = results.clone();
        results[at] = result;
        let wrong = first_wrong(&requests, &results);
        assert_eq!(wrong, Some(at), "{at} {result:?}");
    }
    // those that are refused before 18 tell nothing
    for number in [5, 6, 14, 15] {
        let mut results = results.clone();
        results[32] = Err(number);
        assert_eq!(first_wrong(&requests, &results), None);
    }
    let answer = Request::Answer {
        subject: 0,
        call: 0,
        value: None,
    };
    assert!(!Transcript::default().allows(&answer, Some(18)));
}

/// L30: two histories from one sheet, one subject with equally many accepted calls in both.
#[test]
fn two_histories_agree_on_18() {
    let (mut full, mut free, mut apart) = (0, 0, 0);
    for seed in 0..400 {
        let two = two_lists(seed);
        let histories = [&two.first, &two.second].map(|list| {
            let state = State::of_sheet(two.table.clone());
            let (results, state) = serving::run(state, list);
            let (last, before) = results.split_last().unwrap();
            let transcript = Transcript::of_run(list, before);
            assert_eq!(transcript.accepted(two.subject), two.accepted, "{seed}");
            assert!(passes(last.err()), "{seed}");
            (last.err() == Some(CALLS_FULL), state.calls.len())
        });
        let [(one, calls), (other, others)] = histories;
        assert_eq!(one, other, "{seed}");
        assert_eq!(one, two.accepted == MAX_CALLS_EACH, "{seed}");
        full += usize::from(one);
        free += usize::from(!one);
        apart += usize::from(calls.abs_diff(others) > 64);
    }
    assert!(
        full > 100 && free > 100 && apart > 100,
        "{full} {free} {apart}"
    );
}

/// L30, of every pair of states on several runs from one sheet at once: for a subject and a count
/// of its accepted calls there is one answer.
#[test]
fn one_answer_for_a_subject_and_its_count() {
    let mut met = 0;
    for seed in 0..60 {
        let mut random = Random::new(seed);
        let mut plan = generators::FULL[3].clone();
        plan.requests = (150, 250);
        let table = generators::table(&mut random, &plan);
        let mut answers: BTreeMap<(i64, usize), bool> = BTreeMap::new();
        for _ in 0..4 {
            let listed = generators::requests(&mut random, &plan, table.clone());
            let mut model = Model::new(State::of_sheet(table.clone()));
            let mut transcript = Transcript::default();
            for request in &listed.requests {
                let result = model.request(request);
                if let (Request::Call { subject, .. }, true) = (request, passes(result.err())) {
                    let full = result == Err(CALLS_FULL);
                    let key = (*subject, transcript.accepted(*subject));
                    assert_eq!(*answers.entry(key).or_insert(full), full, "{seed}");
                    met += usize::from(full);
                }
                transcript.add(request, result.is_ok());
            }
        }
    }
    assert!(met > 100, "{met}");
}

/// C1 to C5, once more and from the rules.
fn passes_first_tests(state: &State, request: &Request) -> bool {
    let Request::Call {
        subject,
        cell,
        method,
        arguments,
    } = request
    else {
        return false;
    };
    let table = &state.table;
    let Some(subject) = index(*subject, table.subjects) else {
        return false;
    };
    let holds = |operand: i64| {
        index(operand, state.cells.len()).is_some_and(|cell| state.cells[cell].holder == subject)
    };
    if !holds(*cell) {
        return false;
    }
    let type_ = &table.types[state.cells[*cell as usize].type_];
    let Some(state) = index(*method, table.methods).map(|method| &type_.methods[method]) else {
        return false;
    };
    let Some(signature) = state.signature().filter(|_| state.is_avail()) else {
        return false;
    };
    let mut both = arguments.iter().zip(&signature.arguments);
    arguments.len() == signature.arguments.len()
        && both.all(|(operand, named)| !table.types[*named].is_ref() || holds(*operand))
}

/// L31, of a call on a state and its outcome; 18 by the records, which L28 ties to the transcript.
fn assert_told_by_number(state: &State, request: &Request, refusal: Option<Refusal>) {
    let Request::Call { subject, .. } = request else {
        assert_ne!(refusal, Some(CALLS_FULL));
        return;
    };
    let passed = passes_first_tests(state, request);
    assert_eq!(passed, passes(refusal), "{request:?} {refusal:?}");
    let made = state
        .calls
        .iter()
        .filter(|call| call.caller as i64 == *subject);
    let full = passed && made.count() == MAX_CALLS_EACH;
    assert_eq!(full, refusal == Some(CALLS_FULL), "{request:?} {refusal:?}");
}

#[test]
fn the_number_tells_what_was_passed() {
    for (_, input) in inputs() {
        let script = script::read(&input).unwrap();
        let mut model = Model::new(State::of_sheet(script.table));
        for request in &script.requests {
            let before = model.state.clone();
            let result = model.request(request);
            assert_told_by_number(&before, request, result.err());
        }
    }
}

/// The same on states that were handed in.
#[test]
fn the_number_tells_what_was_passed_in_any_state() {
    let generated = (0..1500).map(hostile::generate);
    let limits = (0..640).map(hostile::at_call_limits);
    for hostile in hostile::on_tiny(0)
        .into_iter()
        .chain(generated)
        .chain(limits)
    {
        let Ok(state) = check::state(&hostile.state) else {
            continue;
        };
        let mut model = Model::new(state);
        for request in &hostile.requests {
            let before = model.state.clone();
            let result = model.request(request);
            assert_told_by_number(&before, request, result.err());
        }
    }
}

/// What a state at a limit is: its reason for 2, and the most calls of one caller.
fn of_limit(raw: &RawState) -> (Option<Reason>, usize) {
    let counted = (raw.calls as usize).min(MAX_CALLS);
    let of_caller = |caller: u8| (0..counted).filter(move |one| raw.call(*one)[0] == caller);
    let most = (0..=255).map(|caller| of_caller(caller).count()).max();
    (check::state(raw).err(), most.unwrap())
}

/// H1, H17: each limit is what it says, passes or gets 2, and 2 leaves every byte.
#[test]
fn states_at_the_limits_of_calls() {
    for seed in 0..LIMITS.len() as u64 * 20 {
        let hostile = hostile::at_call_limits(seed);
        let limit = hostile::limit(seed);
        let (reason, most) = of_limit(&hostile.state);
        let due = match limit {
            Limit::Count(_) => Some(Reason::CallsCount),
            Limit::AllWithOneMore => Some(Reason::TooManyCallsOfOne),
            Limit::Of(count) | Limit::Answered(count) if count > MAX_CALLS_EACH => {
                Some(Reason::TooManyCallsOfOne)
            }
            _ => None,
        };
        assert_eq!(reason, due, "{seed} {limit:?}");
        assert_eq!(
            reason == Some(Reason::TooManyCallsOfOne),
            most > MAX_CALLS_EACH
        );
        let (mut full, mut served) = (0, 0);
        let mut raw = hostile.state.clone();
        for request in &hostile.requests {
            let result = entry::request(&mut raw, request);
            assert_eq!(result == Err(2), due.is_some(), "{seed} {limit:?}");
            let call = matches!(request, Request::Call { .. });
            full += usize::from(result == Err(CALLS_FULL));
            served += usize::from(call && result.is_ok());
        }
        assert!(due.is_none() || raw == hostile.state, "{seed}");
        match limit {
            Limit::AllBut(0) => assert!(full >= 2 && served == 0, "{seed}"),
            Limit::Of(MAX_CALLS_EACH) | Limit::Answered(MAX_CALLS_EACH) => {
                assert!(full >= 1 && served >= 1, "{seed} {full} {served}");
            }
            _ => assert!(due.is_some() || served >= 1, "{seed} {limit:?}"),
        }
    }
}
