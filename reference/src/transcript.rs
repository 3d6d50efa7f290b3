//! The transcript of a history (L28), as far as it is needed: whose calls were accepted, told from
//! requests and outcomes alone. It is held against records (L28) and against 18 (L29), without a
//! look at how calls are served.

use crate::refusal::{Refusal, CALLS_FULL, NOT_CALLABLE, NOT_HELD, UNKNOWN_SUBJECT, WRONG_VALUES};
use crate::requests::{Got, Request};
use crate::state::{State, MAX_CALLS_EACH};
use std::collections::BTreeMap;

/// How many calls of each subject were accepted.
#[derive(Clone, PartialEq, Eq, Debug, Default)]
pub struct Transcript {
    accepted: BTreeMap<i64, usize>,
}

impl Transcript {
    /// The transcript of requests and their outcomes, in order.
    pub fn of_run(requests: &[Request], results: &[Result<Got, Refusal>]) -> Transcript {
        let mut transcript = Transcript::default();
        for (request, result) in requests.iter().zip(results) {
            transcript.add(request, result.is_ok());
        }
        transcript
    }

    /// Takes in a request and whether it was accepted.
    pub fn add(&mut self, request: &Request, accepted: bool) {
        if let (Request::Call { subject, .. }, true) = (request, accepted) {
            *self.accepted.entry(*subject).or_default() += 1;
        }
    }

    /// The accepted calls of a subject.
    pub fn accepted(&self, subject: i64) -> usize {
        self.accepted.get(&subject).copied().unwrap_or(0)
    }

    /// L28: of a state, the records of each caller are as many as its accepted calls, and no
    /// subject but those of the table has any.
    pub fn agrees(&self, state: &State) -> bool {
        let mut records: BTreeMap<i64, usize> = BTreeMap::new();
        for call in &state.calls {
            *records.entry(call.caller as i64).or_default() += 1;
        }
        records == self.accepted
    }

    /// L29: of a request behind this transcript and its refusal, if any; 18 is a call's alone.
    pub fn allows(&self, request: &Request, refusal: Option<Refusal>) -> bool {
        let is_full = refusal == Some(CALLS_FULL);
        match request {
            Request::Call { subject, .. } if passes(refusal) => {
                is_full == (self.accepted(*subject) == MAX_CALLS_EACH)
            }
            _ => !is_full,
        }
    }
}

/// Whether the outcome of a call tells that it passed C1 to C5 (L31).
pub fn passes(refusal: Option<Refusal>) -> bool {
    let earlier = [UNKNOWN_SUBJECT, NOT_HELD, NOT_CALLABLE, WRONG_VALUES];
    refusal.is_none_or(|number| !earlier.contains(&number))
}

/// The first request of a run from a loaded sheet that L29 does not hold of.
pub fn first_wrong(requests: &[Request], results: &[Result<Got, Refusal>]) -> Option<usize> {
    let mut transcript = Transcript::default();
    for (number, (request, result)) in requests.iter().zip(results).enumerate() {
        if !transcript.allows(request, result.err()) {
            return Some(number);
        }
        transcript.add(request, result.is_ok());
    }
    None
}
