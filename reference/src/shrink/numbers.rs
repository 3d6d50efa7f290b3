//! Fewer requests, with the numbers of the others lowered.

use super::parts::Parts;
use crate::refusal::Refusal;
use crate::requests::{Got, Request};
use crate::script::run_whole;
use crate::state::State;

/// Drops requests as they are.
pub fn cut(parts: &Parts, at: usize, length: usize) -> Parts {
    let mut parts = parts.clone();
    let end = (at + length).min(parts.requests.len());
    parts.requests.drain(at..end);
    parts
}

/// Drops requests and lowers the cell and call numbers that come after what
/// they made.
pub fn renumbered(parts: &Parts, at: usize, length: usize) -> Parts {
    let mut best = parts.clone();
    let end = (at + length).min(best.requests.len());
    for index in (at..end).rev() {
        best = without_one(&best, index);
    }
    best
}

fn without_one(parts: &Parts, index: usize) -> Parts {
    let run = run_whole(&parts.text());
    let mut parts = parts.clone();
    let Some(model) = run.model else {
        return cut(&parts, index, 1);
    };
    let made = made(&run.requests, &run.results, &model.state, index);
    parts.requests.remove(index);
    for request in &mut parts.requests[index..] {
        lower(request, &made, &model.state);
    }
    parts
}

/// The numbers of the first cell and call that a request made, and how many.
struct Made {
    first_cell: usize,
    cells: usize,
    first_call: usize,
    calls: usize,
}

fn made(
    requests: &[Request],
    results: &[Result<Got, Refusal>],
    state: &State,
    index: usize,
) -> Made {
    let (mut cells, mut calls) = (0, 0);
    let mut made = Made {
        first_cell: 0,
        cells: 0,
        first_call: 0,
        calls: 0,
    };
    let served = requests.iter().zip(results);
    for (at, (request, result)) in served.enumerate().take(index + 1) {
        let (first_cell, first_call) = (cells, calls);
        match result {
            Ok(Got::Cell { .. }) => cells += 1,
            Ok(Got::Call { .. }) => {
                calls += 1;
                cells += references(request, state)
                    .iter()
                    .filter(|one| **one)
                    .count();
            }
            _ => {}
        }
        if at == index {
            made = Made {
                first_cell,
                cells: cells - first_cell,
                first_call,
                calls: calls - first_call,
            };
        }
    }
    made
}

/// Which arguments of a call are references, by the type of its cell.
fn references(request: &Request, state: &State) -> Vec<bool> {
    let Request::Call { cell, method, .. } = request else {
        return Vec::new();
    };
    let signature = usize::try_from(*cell)
        .ok()
        .and_then(|cell| state.cells.get(cell))
        .and_then(|cell| {
            let method = usize::try_from(*method).ok()?;
            state.table.types[cell.type_].permits(method)
        });
    signature.map_or(Vec::new(), |signature| {
        signature
            .arguments
            .iter()
            .map(|one| state.table.types[*one].is_ref())
            .collect()
    })
}

fn lower(request: &mut Request, made: &Made, state: &State) {
    let references = references(request, state);
    let cell_number = |number: &mut i64| {
        if *number >= (made.first_cell + made.cells) as i64 {
            *number -= made.cells as i64;
        }
    };
    match request {
        Request::New { .. } => {}
        Request::Move { cell, .. } => cell_number(cell),
        Request::Call {
            cell, arguments, ..
        } => {
            cell_number(cell);
            for (argument, reference) in arguments.iter_mut().zip(references) {
                if reference {
                    cell_number(argument);
                }
            }
        }
        Request::Answer { call, value, .. } => {
            let due = usize::try_from(*call)
                .ok()
                .and_then(|call| state.calls.get(call))
                .and_then(|call| {
                    let type_ = state.cells[call.cell].type_;
                    state.table.types[type_].permits(call.method)?.answer
                });
            if due.is_some_and(|due| state.table.types[due].is_ref()) {
                if let Some(value) = value {
                    cell_number(value);
                }
            }
            if *call >= (made.first_call + made.calls) as i64 {
                *call -= made.calls as i64;
            }
        }
    }
}
