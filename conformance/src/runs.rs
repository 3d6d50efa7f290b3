//! Runs (U) by docs/SPEC.md and from nothing else but the reference's requests: lists of requests as words, and what a run of any
//! words has to answer and leave.

use reference::check;
use reference::raw::RawState;
use reference::refusal::{Refusal, OUT_OF_RANGE};
use reference::requests::{Got, Request};
use reference::serving;
use reference::state::State;

/// How many words an answer has (U8).
pub const ANSWER: usize = 4;

/// The refusal of what is no request (U6, U7).
pub const NO_REQUEST: Refusal = 1;

/// A code and its operands, their number between them (U2).
pub fn coded(code: i64, operands: &[i64]) -> Vec<i64> {
    [&[code, operands.len() as i64], operands].concat()
}

/// The words of a request (U2 to U5).
pub fn words(request: &Request) -> Vec<i64> {
    match request {
        Request::New {
            subject,
            class,
            type_,
        } => coded(0, &[*subject, *class, *type_]),
        Request::Move {
            subject,
            cell,
            receiver,
            type_,
        } => coded(1, &[*subject, *cell, *receiver, *type_]),
        Request::Call {
            subject,
            cell,
            method,
            arguments,
        } => coded(2, &[&[*subject, *cell, *method], &arguments[..]].concat()),
        Request::Answer {
            subject,
            call,
            value,
        } => {
            let value = value.as_slice();
            coded(3, &[&[*subject, *call], value].concat())
        }
    }
}

/// The request of a code and its operands; none where the code is another or has not so many (U3 to U6).
fn request(code: i64, operands: &[i64]) -> Option<Request> {
    Some(match (code, operands) {
        (0, &[subject, class, type_]) => Request::New {
            subject,
            class,
            type_,
        },
        (1, &[subject, cell, receiver, type_]) => Request::Move {
            subject,
            cell,
            receiver,
            type_,
        },
        (2, [subject, cell, method, arguments @ ..]) => Request::Call {
            subject: *subject,
            cell: *cell,
            method: *method,
            arguments: arguments.to_vec(),
        },
        (3, [subject, call, value @ ..]) if value.len() < 2 => Request::Answer {
            subject: *subject,
            call: *call,
            value: value.first().copied(),
        },
        _ => return None,
    })
}

/// The first request of the words, none where they have not the form of one, and the words behind it: the rest is one where its
/// number of operands is missing, negative or too high (U7).
pub fn first(words: &[i64]) -> (Option<Request>, &[i64]) {
    let [code, number, rest @ ..] = words else {
        return (None, &[]);
    };
    match usize::try_from(*number) {
        Ok(number) if number <= rest.len() => {
            let (operands, behind) = rest.split_at(number);
            (request(*code, operands), behind)
        }
        _ => (None, &[]),
    }
}

/// Every request of the words, in their order.
pub fn decoded(mut words: &[i64]) -> Vec<Option<Request>> {
    let mut all = Vec::new();
    while !words.is_empty() {
        let (one, behind) = first(words);
        all.push(one);
        words = behind;
    }
    all
}

/// The four words of an answer (U8).
pub fn answer(result: Result<Got, Refusal>) -> [i64; ANSWER] {
    match result {
        Err(number) => [number as i64, 0, 0, 0],
        Ok(Got::Nothing) => [0, 0, 0, 0],
        Ok(Got::Number(value)) => [0, 1, value, 0],
        Ok(Got::Cell { cell, place }) => [0, 2, cell as i64, place as i64],
        Ok(Got::Call { call, adapters }) => [0, 2, call as i64, adapters as i64],
    }
}

/// A run by the reference: the state is checked once (U1), each request that has room for its answer is served on what those before
/// it left (U9). The refusal 2 and nothing changed, or how many were served.
pub fn run(state: &mut RawState, words: &[i64], answers: &mut [i64]) -> Result<usize, Refusal> {
    run_by(serving::run, state, words, answers)
}

/// What serves requests one after the other: their results, and the state in the end.
pub type Serve = fn(State, &[Request]) -> (Vec<Result<Got, Refusal>>, State);

/// The same, the requests being served by something else.
pub fn run_by(
    serve: Serve,
    state: &mut RawState,
    words: &[i64],
    answers: &mut [i64],
) -> Result<usize, Refusal> {
    let before = check::state(state).map_err(|_| OUT_OF_RANGE)?;
    let rooms = answers.chunks_exact_mut(ANSWER);
    let asked: Vec<Option<Request>> = decoded(words).into_iter().take(rooms.len()).collect();
    let requests: Vec<Request> = asked.iter().flatten().cloned().collect();
    let (results, after) = serve(before.clone(), &requests);
    let mut results = results.into_iter();
    for (asked, room) in asked.iter().zip(rooms) {
        let result = asked.as_ref().and_then(|_| results.next());
        room.copy_from_slice(&answer(result.unwrap_or(Err(NO_REQUEST))));
    }
    state.update(&before, &after);
    Ok(asked.len())
}
