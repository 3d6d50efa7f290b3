//! Scripts that take the most stack and the most time that is known.

use crate::chains::nesting;
use crate::heavy::{
    climb, side, turning_arguments, turning_call, turning_climb, wrapping, MOST_TURNS,
};
use crate::inputs::{avail, largest};
use crate::states::{answer, call, crossed_chain, moved, new, CLASS, NESTED, TOP};
use reference::entry;
use reference::raw::RawTable;
use reference::requests::Request;
use reference::script::{line, MAX_INPUT};
use reference::sheet;
use reference::state::MAX_CALLS_EACH;
use reference::table::{MAX_ARGUMENTS, MAX_METHODS, MAX_SUBJECTS};

/// A sheet and requests, as many of them as fit into an input.
pub fn script<'a>(table: &RawTable, requests: impl IntoIterator<Item = &'a Request>) -> Vec<u8> {
    let mut input = vec![0; MAX_INPUT];
    let length = entry::write(table, &mut input).expect("a sheet that fits");
    input.truncate(length);
    for request in requests {
        let line = line(request);
        if input.len() + line.len() > MAX_INPUT {
            break;
        }
        input.extend_from_slice(line.as_bytes());
    }
    input
}

/// The methods of the class alone, of which one answers a reference and the other also takes four.
const ANSWERS: usize = MAX_METHODS - 2;
const TAKES: usize = MAX_METHODS - 1;

/// A chain of states.rs with a class that can be loaded: it has all of type 0, whose subtype it is, and the two methods.
fn loaded_chain(seed: u64) -> RawTable {
    let mut table = crossed_chain(seed);
    for number in 0..=TOP {
        for method in [ANSWERS, TAKES] {
            table.method_mut(number, method).fill(0);
        }
    }
    let first = table.entry(0).to_vec();
    table.entry_mut(CLASS).copy_from_slice(&first);
    table.method_mut(CLASS, 0)[0] = 2;
    for (method, bytes) in [
        (ANSWERS, [2, 0, 0, 0, 0, 0, TOP as u8 + 1]),
        (TAKES, avail([TOP; MAX_ARGUMENTS], Some(TOP))),
    ] {
        table.method_mut(CLASS, method).copy_from_slice(&bytes);
    }
    table
}

/// Whether a crossing from type 0 to the top nests as many new types as it can.
fn nests(table: &RawTable) -> bool {
    let mut after = table.clone();
    let number = entry::derive(&mut after, 0, TOP as i64, 0);
    number.is_ok_and(|number| nesting(&after, number) == NESTED)
}

/// New, move, call and answer that each nest 118 new types, and then have no number left for the adapter's (11).
pub fn nested() -> Vec<u8> {
    nested_behind(&[])
}

/// The same where 511 calls were made: 32 of each of sixteen subjects, but for the one of subject 0 that nests.
pub fn nested_behind_calls() -> Vec<u8> {
    let class = CLASS as i64;
    let given = (1..MAX_SUBJECTS as i64).map(|receiver| Request::Move {
        subject: 0,
        cell: 1,
        receiver,
        type_: class,
    });
    // cell 1 is subject 0's, and from 2 on each subject has the one behind its number
    let calls = (0..MAX_SUBJECTS as i64).flat_map(|subject| {
        let made = MAX_CALLS_EACH - 2 * usize::from(subject == 0);
        let request = Request::Call {
            subject,
            cell: 1 + subject,
            method: ANSWERS as i64,
            arguments: vec![],
        };
        std::iter::repeat_n(request, made)
    });
    nested_behind(&given.chain(calls).collect::<Vec<_>>())
}

/// Those four behind other requests, which find an object in cell 1 and one call made.
fn nested_behind(others: &[Request]) -> Vec<u8> {
    let table = (0..).map(loaded_chain).find(nests);
    let mut table = table.expect("one seed of some hundred nests so deep");
    table.subjects = MAX_SUBJECTS as u32;
    let (class, top) = (CLASS as i64, TOP as i64);
    let first = [
        new(class, 0),
        new(class, class),
        call(1, ANSWERS as i64, vec![]),
    ];
    let last = [
        new(class, top),
        moved(0, top),
        call(1, TAKES as i64, vec![0; MAX_ARGUMENTS]),
        answer(0),
    ];
    script(&table, first.iter().chain(others).chain(&last))
}

/// The calls that a subject makes, and then those of another, which has been given the same references.
fn in_turn(calls: usize, of: [Request; 2]) -> impl Iterator<Item = Request> {
    let [first, second] = of;
    let firsts = std::iter::repeat_n(first, calls.min(MAX_CALLS_EACH));
    firsts.chain(std::iter::repeat_n(
        second,
        calls.saturating_sub(MAX_CALLS_EACH),
    ))
}

/// The table with a second subject, and moves that give it references like subject 0's.
fn with_second(mut table: RawTable, cells: &[(i64, i64)]) -> (RawTable, Vec<Request>) {
    table.subjects = 2;
    let moves = cells.iter().map(|(cell, type_)| Request::Move {
        subject: 0,
        cell: *cell,
        receiver: 1,
        type_: *type_,
    });
    (table, moves.collect())
}

/// The call as subject 1 makes it, through another cell and with other ones.
fn by_second(request: &Request, cell: i64, given: Vec<i64>) -> Request {
    let mut request = request.clone();
    if let Request::Call {
        subject,
        cell: through,
        arguments,
        ..
    } = &mut request
    {
        (*subject, *through, *arguments) = (1, cell, given);
    }
    request
}

/// Cells before the calls of `layered`: three new objects, moves to the outermost adapter, and what subject 1 was given.
const LAYERS: usize = 40;
pub const LAYERED_CELLS: usize = 3 + LAYERS + 3;

/// Calls with four references and answers with one, through 40 adapters, where nearly every pair of types is reached.
pub fn layered(calls: usize) -> Vec<u8> {
    let last = 2 + LAYERS as i64;
    let (table, given) = with_second(wrapping(), &[(0, 1), (1, 3), (last, side(LAYERS))]);
    let mut requests = [climb(LAYERS), given].concat();
    let request = call(last, 1, vec![0, 1, 0, 1]);
    let (first, second) = (last + 1, last + 2);
    let second = by_second(&request, last + 3, vec![first, second, first, second]);
    requests.extend(in_turn(calls, [request, second]));
    requests.push(answer(0));
    requests.push(moved(last, side(LAYERS + 1)));
    script(&table, &requests)
}

/// Cells before the calls of `turned`.
pub const TURNED_CELLS: usize = 3 + MOST_TURNS + 3 + 2;

/// Calls with four references that turn at every adapter. Two objects more, so that cells become full at the last reference of a call:
/// then it is refused with 13, and has taken as long as one that is accepted.
pub fn turned(calls: usize) -> Vec<u8> {
    let last = 2 + MOST_TURNS as i64;
    let (table, given) = with_second(
        turning_arguments(),
        &[(0, 2), (1, 4), (last, side(MOST_TURNS))],
    );
    let mut requests = [turning_climb(MOST_TURNS), given].concat();
    requests.extend([new(0, 2), new(0, 2)]);
    let request = turning_call(MOST_TURNS, MAX_ARGUMENTS);
    let (first, second) = (last + 1, last + 2);
    let second = by_second(&request, last + 3, vec![first, second, first, second]);
    requests.extend(in_turn(calls, [request, second]));
    script(&table, &requests)
}

/// The largest sheet, with a request on it.
pub fn largest_sheet() -> Vec<u8> {
    let request = line(&new(2, 47));
    [sheet::text(&largest()), request.into_bytes()].concat()
}
