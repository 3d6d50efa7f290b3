//! Two lists of requests on one sheet, for the statement about two histories (L30).

use super::lists::{request, sure_call};
use super::plans::{Plan, FULL, MEDIUM};
use super::tables::table;
use crate::model::Model;
use crate::random::Random;
use crate::requests::Request;
use crate::state::{State, MAX_CALLS_EACH};
use crate::table::{Table, MAX_SUBJECTS};
use crate::transcript::{passes, Transcript};

/// Two lists on one sheet in which a subject has equally many accepted calls, and which differ at
/// will in all else. The last request of each is a call of that subject that passes C1 to C5, and
/// is not among those calls.
#[derive(Clone, Debug)]
pub struct TwoLists {
    pub table: Table,
    pub subject: i64,
    /// Its accepted calls in front of the last request, in both.
    pub accepted: usize,
    pub first: Vec<Request>,
    pub second: Vec<Request>,
}

/// Two lists from a seed; half of the subjects have made all of their calls.
pub fn two_lists(seed: u64) -> TwoLists {
    let mut random = Random::new(seed ^ 0x0007_3011_5750_0000);
    let all = MAX_CALLS_EACH;
    let accepted = match random.below(8) {
        0 => random.below(all - 1),
        1..=3 => all - 1,
        _ => all,
    };
    loop {
        let mut plan = random.pick(&[MEDIUM, FULL[3].clone()]).clone();
        plan.subjects = (2, MAX_SUBJECTS);
        plan.goal = None;
        let table = table(&mut random, &plan);
        let subject = random.below(table.subjects);
        let mut busy = [0, 30, 250];
        busy.swap(0, random.below(3));
        let mut list = |busy| one(&mut random, &plan, &table, (subject, accepted), busy);
        if let (Some(first), Some(second)) = (list(busy[0]), list(busy[1])) {
            return TwoLists {
                table,
                subject: subject as i64,
                accepted,
                first,
                second,
            };
        }
    }
}

/// One list, with so many requests that are not the subject's calls; none where the sheet does not
/// let the subject make its calls.
fn one(
    random: &mut Random,
    plan: &Plan,
    table: &Table,
    (subject, accepted): (usize, usize),
    busy: usize,
) -> Option<Vec<Request>> {
    let mut list = List {
        model: Model::new(State::of_sheet(table.clone())),
        transcript: Transcript::default(),
        requests: Vec::new(),
        subject: subject as i64,
        accepted,
    };
    for _ in 0..busy {
        let other = random.below(table.subjects);
        let asked = match random.below(3) {
            0 => Some(request(random, plan, &list.model)),
            1 if !list.is_done() => sure_call(random, &list.model, subject),
            _ => sure_call(random, &list.model, other),
        };
        list.add(asked?);
    }
    for _ in 0..2 * MAX_CALLS_EACH {
        if !list.is_done() {
            let asked = sure_call(random, &list.model, subject)?;
            list.add(asked);
        }
    }
    list.end(random)
}

struct List {
    model: Model,
    transcript: Transcript,
    requests: Vec<Request>,
    subject: i64,
    accepted: usize,
}

impl List {
    fn is_done(&self) -> bool {
        self.transcript.accepted(self.subject) == self.accepted
    }

    /// Serves a request, unless it is one accepted call of the subject too many.
    fn add(&mut self, request: Request) {
        let mut model = self.model.clone();
        let result = model.request(&request);
        let mut transcript = self.transcript.clone();
        transcript.add(&request, result.is_ok());
        if transcript.accepted(self.subject) <= self.accepted {
            self.requests.push(request);
            self.model = model;
            self.transcript = transcript;
        }
    }

    /// The list with the call at its end.
    fn end(mut self, random: &mut Random) -> Option<Vec<Request>> {
        for _ in 0..4 {
            let last = sure_call(random, &self.model, self.subject as usize)?;
            let refusal = self.model.clone().request(&last).err();
            if matches!(last, Request::Call { .. }) {
                let right = self.is_done() && passes(refusal);
                self.requests.push(last);
                return right.then_some(self.requests);
            }
            self.add(last);
        }
        None
    }
}
