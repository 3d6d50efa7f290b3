//! Each subject's own calls (02 c): lists that bring sixteen subjects to their limit, requests of every kind for states that are at one, and what a core's
//! outcomes say of its records and of 18 (L28 to L30).

use crate::requests::Core;
use crate::run_lists::Run;
use crate::runs::{words, ANSWER};
use crate::states::made_by;
use reference::check;
use reference::generators::{self, any_request, TwoLists, SMALL};
use reference::hostile::Hostile;
use reference::model::Model;
use reference::random::Random;
use reference::raw::RawState;
use reference::refusal::{Refusal, CALLS_FULL};
use reference::requests::Request;
use reference::state::{State, MAX_CALLS_EACH};
use reference::table::{Table, MAX_SUBJECTS};
use reference::transcript::Transcript;

/// Case P with sixteen subjects.
pub fn sheet() -> String {
    let case = include_str!("../../examples/case-p.sheet");
    case.replace("subjects=3", "subjects=16")
}

/// Subject 0 makes an object and gives each other subject a reference to it: cell k is subject k's.
pub fn handed_out() -> Vec<Request> {
    let new = Request::New {
        subject: 0,
        class: 1,
        type_: 4,
    };
    let moves = (1..MAX_SUBJECTS).map(|receiver| Request::Move {
        subject: 0,
        cell: 0,
        receiver: receiver as i64,
        type_: 2,
    });
    std::iter::once(new).chain(moves).collect()
}

/// A call without arguments by a subject through its cell.
pub fn call_by(subject: usize) -> Request {
    Request::Call {
        subject: subject as i64,
        cell: subject as i64,
        method: 0,
        arguments: Vec::new(),
    }
}

/// Whose the call of a number is where all make 32.
pub type Order = fn(usize) -> usize;

/// By turns, one behind the other, and both from the last subject on.
pub const ORDERS: [Order; 4] = [
    |number| number % MAX_SUBJECTS,
    |number| number / MAX_CALLS_EACH,
    |number| MAX_SUBJECTS - 1 - number % MAX_SUBJECTS,
    |number| MAX_SUBJECTS - 1 - number / MAX_CALLS_EACH,
];

/// As many calls as can be made.
pub fn all_calls(order: Order) -> Vec<Request> {
    let numbers = 0..MAX_SUBJECTS * MAX_CALLS_EACH;
    numbers.map(|number| call_by(order(number))).collect()
}

/// A call by each subject.
pub fn one_of_each() -> Vec<Request> {
    (0..MAX_SUBJECTS).map(call_by).collect()
}

/// A state handed in with its requests, and behind each of them one of every kind, guided by what the state would be without its calls.
pub fn with_every_kind(seed: u64, hostile: &Hostile) -> Hostile {
    let mut random = Random::new(seed ^ 0x0000_ca11_0000_0000);
    let mut without = hostile.state.clone();
    without.calls = 0;
    let mut requests = Vec::new();
    let checked = check::state(&hostile.state).or(check::state(&without));
    for request in &hostile.requests {
        requests.push(request.clone());
        if let Ok(state) = &checked {
            let model = Model::new(state.clone());
            for kind in 0..4 {
                requests.push(of_kind(&mut random, &model, kind));
            }
        }
    }
    Hostile {
        state: hostile.state.clone(),
        requests,
    }
}

/// A request of one of the four kinds: one with a chance to be accepted, or any.
fn of_kind(random: &mut Random, model: &Model, kind: usize) -> Request {
    let mut plan = SMALL;
    plan.weights = [0; 5];
    plan.weights[kind] = 1;
    let is_it = |request: &Request| words(request)[0] == kind as i64;
    let guided = generators::request(random, &plan, model);
    if is_it(&guided) && random.chance(90) {
        return guided;
    }
    loop {
        let request = any_request(random, &model.state);
        if is_it(&request) {
            return request;
        }
    }
}

/// L28: what does not agree between a transcript and the records that stand in the bytes of a state.
fn apart(transcript: &Transcript, state: &RawState) -> Option<String> {
    let differs = |(caller, made): &(usize, usize)| transcript.accepted(*caller as i64) != *made;
    let made = made_by(state).into_iter().enumerate().find(differs);
    made.map(|(caller, made)| {
        let accepted = transcript.accepted(caller as i64);
        format!("{made} records of subject {caller}, which has {accepted} accepted calls")
    })
}

/// L28 and L29 on what runs, from a loaded sheet and told from requests and outcomes alone: the first request behind which the bytes
/// hold other calls than were accepted, or that 18 is not right of. `full` counts what met 18.
pub fn by_the_transcript(core: &impl Core, list: &Hostile, full: &mut usize) -> Option<String> {
    let (mut state, mut transcript) = (list.state.clone(), Transcript::default());
    for (at, request) in list.requests.iter().enumerate() {
        let refusal = core.request(&mut state, request).err();
        if !transcript.allows(request, refusal) {
            return Some(format!(
                "{at}: {request:?} gets {refusal:?} behind {transcript:?}"
            ));
        }
        transcript.add(request, refusal.is_none());
        if let Some(apart) = apart(&transcript, &state) {
            return Some(format!("{at}: {request:?} leaves {apart}"));
        }
        *full += usize::from(refusal == Some(CALLS_FULL));
    }
    None
}

/// The outcomes of requests in one run.
pub fn outcomes(run: Run, state: &mut RawState, requests: &[Request]) -> Outcomes {
    let words: Vec<i64> = requests.iter().flat_map(words).collect();
    let mut answers = vec![0; requests.len() * ANSWER];
    let served = run(state, &words, &mut answers);
    assert_eq!(served, Ok(requests.len()), "a state that is right");
    let numbers = answers.chunks_exact(ANSWER).map(|answer| answer[0]);
    numbers
        .map(|number| (number != 0).then_some(number as Refusal))
        .collect()
}

/// The same of a run as a whole.
pub fn run_by_the_transcript(run: Run, list: &Hostile) -> Option<String> {
    let (mut state, mut transcript) = (list.state.clone(), Transcript::default());
    let outcomes = outcomes(run, &mut state, &list.requests);
    for (at, (request, refusal)) in list.requests.iter().zip(outcomes).enumerate() {
        if !transcript.allows(request, refusal) {
            return Some(format!(
                "{at}: {request:?} gets {refusal:?} behind {transcript:?}"
            ));
        }
        transcript.add(request, refusal.is_none());
    }
    apart(&transcript, &state)
}

/// What serves a list of requests from a loaded sheet, and their outcomes.
pub type Serves = fn(&Table, &[Request]) -> Outcomes;

/// A refusal's number for each request, or none where it is accepted.
pub type Outcomes = Vec<Option<Refusal>>;

/// The state of a loaded sheet.
pub fn of_sheet(table: &Table) -> RawState {
    RawState::of(&State::of_sheet(table.clone()))
}

/// The end of a history, told from requests and outcomes alone: the subject's accepted calls in front of its last one, those of all others, and what
/// the last one met.
#[derive(Clone, Copy, PartialEq, Eq, Debug)]
pub struct End {
    pub accepted: usize,
    pub of_others: usize,
    pub refusal: Option<Refusal>,
}

/// How two histories from one sheet end.
pub fn ends(serves: impl Fn(&Table, &[Request]) -> Outcomes, two: &TwoLists) -> [End; 2] {
    [&two.first, &two.second].map(|list| {
        let outcomes = serves(&two.table, list);
        assert_eq!(outcomes.len(), list.len());
        let (last, before) = outcomes.split_last().expect("a call at the end");
        let mut transcript = Transcript::default();
        for (request, refusal) in list.iter().zip(before) {
            transcript.add(request, refusal.is_none());
        }
        let accepted = transcript.accepted(two.subject);
        let of_all = (0..MAX_SUBJECTS).map(|subject| transcript.accepted(subject as i64));
        End {
            accepted,
            of_others: of_all.sum::<usize>() - accepted,
            refusal: *last,
        }
    })
}
