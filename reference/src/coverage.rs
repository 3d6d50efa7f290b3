//! What requests met: accepted or refused with which number, and situations.

use crate::model::Model;
use crate::refusal::{
    Refusal, ANSWERED_ALREADY, CALLS_FULL, CELLS_FULL, NOT_CALLABLE, NOT_HELD, NOT_OWNER,
    NOT_STRICT, PLACES_FULL, TOO_WIDE, TYPES_FULL, UNKNOWN_SUBJECT, UNKNOWN_TYPE, UNRELATED,
    WRONG_VALUES,
};
use crate::requests::{Got, Request};
use crate::situations::{self, Past, Situation};
use crate::state::State;
use std::collections::BTreeMap;

/// The kinds of request, as they are written in a script.
pub const REQUEST_NAMES: [&str; 4] = ["new", "move", "call", "answer"];

pub fn request_name(request: &Request) -> &'static str {
    match request {
        Request::New { .. } => "new",
        Request::Move { .. } => "move",
        Request::Call { .. } => "call",
        Request::Answer { .. } => "answer",
    }
}

/// Counters of what was met.
#[derive(Clone, Debug, Default)]
pub struct Seen {
    /// Accepted requests by name.
    pub accepted: BTreeMap<&'static str, u64>,
    /// Refused requests by name and number.
    pub refused: BTreeMap<(&'static str, Refusal), u64>,
    pub situations: BTreeMap<Situation, u64>,
    /// Calls refused by an argument, by number and its position.
    pub positions: BTreeMap<(Refusal, usize), u64>,
    /// Accepted calls by how many arguments they have, and by how many of those are references.
    pub arguments: BTreeMap<usize, u64>,
    pub references: BTreeMap<usize, u64>,
}

impl Seen {
    pub fn situation(&mut self, situation: Situation) {
        *self.situations.entry(situation).or_default() += 1;
    }

    pub fn request(&mut self, request: &Request, result: &Result<Got, Refusal>) {
        let name = request_name(request);
        match result {
            Ok(_) => *self.accepted.entry(name).or_default() += 1,
            Err(number) => *self.refused.entry((name, *number)).or_default() += 1,
        }
    }

    /// An accepted call: each of its references became a cell (C17), so that the new cells count them.
    fn called(&mut self, request: &Request, new_cells: usize) {
        if let Request::Call { arguments, .. } = request {
            *self.arguments.entry(arguments.len()).or_default() += 1;
            *self.references.entry(new_cells).or_default() += 1;
        }
    }

    fn refused_at(&mut self, number: Refusal, position: Option<usize>) {
        if let Some(position) = position {
            *self.positions.entry((number, position)).or_default() += 1;
        }
    }

    /// How often a number was met, by any request.
    pub fn number(&self, number: Refusal) -> u64 {
        self.refused
            .iter()
            .filter(|((_, met), _)| *met == number)
            .map(|(_, count)| count)
            .sum()
    }

    pub fn met(&self, situation: Situation) -> u64 {
        self.situations.get(&situation).copied().unwrap_or(0)
    }

    pub fn add(&mut self, other: &Seen) {
        for (name, count) in &other.accepted {
            *self.accepted.entry(name).or_default() += count;
        }
        for (key, count) in &other.refused {
            *self.refused.entry(*key).or_default() += count;
        }
        for (situation, count) in &other.situations {
            *self.situations.entry(*situation).or_default() += count;
        }
        for (key, count) in &other.positions {
            *self.positions.entry(*key).or_default() += count;
        }
        for (key, count) in &other.arguments {
            *self.arguments.entry(*key).or_default() += count;
        }
        for (key, count) in &other.references {
            *self.references.entry(*key).or_default() += count;
        }
    }

    /// The counters as text.
    pub fn text(&self) -> String {
        let mut text = String::new();
        for name in REQUEST_NAMES {
            let accepted = self.accepted.get(name).copied().unwrap_or(0);
            text.push_str(&format!("  {name}: accepted {accepted}; refused"));
            for ((_, number), count) in self.refused.iter().filter(|((one, _), _)| *one == name) {
                text.push_str(&format!(" {number}:{count}"));
            }
            text.push('\n');
        }
        for (what, counts) in [
            ("arguments", &self.arguments),
            ("references", &self.references),
        ] {
            text.push_str(&format!("  calls accepted by {what}:"));
            for (many, count) in counts {
                text.push_str(&format!(" {many}:{count}"));
            }
            text.push('\n');
        }
        for (situation, count) in &self.situations {
            text.push_str(&format!("  {situation:?}: {count}\n"));
        }
        for ((number, position), count) in &self.positions {
            text.push_str(&format!(
                "  call {number} by argument {}: {count}\n",
                position + 1
            ));
        }
        text
    }
}

/// Serves requests on a state, one after the other, and counts what they meet.
pub fn serve(state: State, requests: &[Request]) -> Seen {
    let mut seen = Seen::default();
    let mut model = Model::new(state);
    let mut past = Past::default();
    for request in requests {
        let before = model.state.counts();
        let result = model.request(request);
        seen.request(request, &result);
        match result {
            Ok(_) => seen.called(request, model.state.cells.len() - before.cells),
            Err(number) => seen.refused_at(number, situations::refused_at(&model, request)),
        }
        let now = situations::met(&model, before, request, result);
        for situation in now
            .into_iter()
            .chain(past.met(&model.state, request, result))
        {
            seen.situation(situation);
        }
    }
    seen
}

/// The refusals each request can meet on a loaded sheet. On a state handed in each can meet 2, call and answer also 19.
pub const OF_REQUESTS: &[(&str, &[Refusal])] = &[
    (
        "new",
        &[
            UNKNOWN_SUBJECT,
            UNKNOWN_TYPE,
            UNRELATED,
            NOT_STRICT,
            TYPES_FULL,
            PLACES_FULL,
            CELLS_FULL,
        ],
    ),
    (
        "move",
        &[
            UNKNOWN_SUBJECT,
            NOT_HELD,
            UNKNOWN_TYPE,
            UNRELATED,
            NOT_OWNER,
            NOT_STRICT,
            TYPES_FULL,
            PLACES_FULL,
            CELLS_FULL,
        ],
    ),
    (
        "call",
        &[
            UNKNOWN_SUBJECT,
            NOT_HELD,
            UNRELATED,
            NOT_STRICT,
            TYPES_FULL,
            PLACES_FULL,
            CELLS_FULL,
            NOT_CALLABLE,
            WRONG_VALUES,
            TOO_WIDE,
            CALLS_FULL,
        ],
    ),
    (
        "answer",
        &[
            UNKNOWN_SUBJECT,
            NOT_HELD,
            UNRELATED,
            NOT_STRICT,
            TYPES_FULL,
            PLACES_FULL,
            CELLS_FULL,
            WRONG_VALUES,
            TOO_WIDE,
            ANSWERED_ALREADY,
        ],
    ),
];

/// The refusals that an argument of a call can meet on a loaded sheet, at each position.
pub const OF_ARGUMENTS: [Refusal; 7] = [
    UNRELATED,
    NOT_STRICT,
    TYPES_FULL,
    PLACES_FULL,
    CELLS_FULL,
    WRONG_VALUES,
    TOO_WIDE,
];
