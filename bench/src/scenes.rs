//! States and requests to be measured. Requests are found by trying: the first that is accepted and goes where it is wanted to, of
//! those in which a reference changes its type.

use crate::requests;
use conformance::states::{call, moved, new, wrap};
use reference::raw::{self, RawState};
use reference::requests::{Got, Request};
use reference::table::MAX_ARGUMENTS;

/// How many adapters calls are measured through.
pub const LAYERS: [usize; 3] = [0, 4, 40];

/// A request and the state that it is put to.
pub struct Scene {
    pub name: String,
    pub state: RawState,
    pub request: Request,
}

/// What is left where a request is accepted.
pub fn after(state: &RawState, request: &Request) -> Option<(RawState, Got)> {
    let mut after = state.clone();
    let got = requests::request(&mut after, request).ok()?;
    Some((after, got))
}

/// Pairs of numbers below these counts.
fn pairs(first: u32, second: u32) -> impl Iterator<Item = (usize, usize)> {
    let all = 0..first as usize * second as usize;
    all.map(move |at| (at / second as usize, at % second as usize))
}

/// New objects that change their type, of subject 0.
fn news(state: &RawState) -> impl Iterator<Item = Request> {
    let types = state.table.sheet_types;
    let changed = pairs(types, types).filter(|(class, to)| class != to);
    changed.map(|(class, to)| new(class as i64, to as i64))
}

/// Moves that change a type, from subject 0 to itself.
fn moves(state: &RawState) -> impl Iterator<Item = Request> + '_ {
    let all = pairs(state.cells, state.table.sheet_types);
    all.filter(|(cell, to)| usize::from(state.cell(*cell)[1]) != *to)
        .map(|(cell, to)| moved(cell as i64, to as i64))
}

/// A state in which subject 0 has made as many objects of changed types as fit into so many cells.
pub fn populated(mut state: RawState, cells: u32) -> RawState {
    for request in news(&state.clone()) {
        if state.cells < cells {
            state = after(&state, &request).map_or(state, |(after, _)| after);
        }
    }
    state
}

/// The first accepted move that makes an adapter, or none.
pub fn moving(state: &RawState, adapter: bool) -> Option<Request> {
    moves(state).find(|request| {
        after(state, request).is_some_and(|(after, _)| (after.places > state.places) == adapter)
    })
}

/// The types that a method of the cell's type names, where it is avail: arguments, and the answer.
fn named(state: &RawState, cell: usize, method: usize) -> Option<(Vec<usize>, Option<usize>)> {
    let type_ = usize::from(state.cell(cell)[1]);
    let bytes = state.table.method(type_, method);
    let signature = raw::signature(bytes);
    (bytes[0] == 2).then_some((signature.arguments, signature.answer))
}

/// How many cells are tried for a reference.
const TRIED: usize = 4;

/// Operands for types: 1 for a number, and for a reference the first cells whose type is another and that can be moved to it.
fn operands(state: &RawState, named: &[usize]) -> Vec<Vec<i64>> {
    let fitting = |one: usize| -> Vec<i64> {
        if state.table.entry(one)[0] != 0 {
            return vec![1];
        }
        let other = |cell: &usize| usize::from(state.cell(*cell)[1]) != one;
        let cells = (0..state.cells as usize).filter(other);
        let cells = cells.map(|cell| cell as i64);
        let crosses = |cell: &i64| after(state, &moved(*cell, one as i64)).is_some();
        cells.filter(crosses).take(TRIED).collect()
    };
    named.iter().fold(vec![vec![]], |lists, one| {
        let longer = |list: &Vec<i64>| {
            let list = list.clone();
            fitting(*one)
                .into_iter()
                .map(move |operand| [&list[..], &[operand]].concat())
        };
        lists.iter().flat_map(longer).collect()
    })
}

/// The first accepted call with so many arguments, references if they are as many as can be, and the answer to it that is accepted then.
pub fn calling(state: &RawState, arguments: usize) -> Option<(Request, Request)> {
    let is_ref = |one: &usize| state.table.entry(*one)[0] == 0;
    pairs(state.cells, state.table.methods).find_map(|(cell, method)| {
        let (types, answer) = named(state, cell, method)?;
        let whole = arguments == MAX_ARGUMENTS;
        if types.len() != arguments || whole && !types.iter().chain(&answer).all(is_ref) {
            return None;
        }
        let mut lists = operands(state, &types).into_iter();
        lists.find_map(|list| {
            let request = call(cell as i64, method as i64, list);
            let (after, _) = after(state, &request)?;
            Some((request, answering(&after, answer)?))
        })
    })
}

/// The answer to the last call that is accepted.
fn answering(state: &RawState, named: Option<usize>) -> Option<Request> {
    let of_value = |value| Request::Answer {
        subject: 0,
        call: i64::from(state.calls) - 1,
        value,
    };
    let Some(named) = named else {
        return Some(of_value(None));
    };
    let all = operands(state, &[named]);
    let mut requests = all.iter().map(|list| of_value(Some(list[0])));
    requests.find(|request| after(state, request).is_some())
}

/// So many arguments, in words.
fn counted(arguments: usize) -> String {
    let ending = if arguments == 1 { "" } else { "s" };
    format!("{arguments} argument{ending}")
}

/// New, moves, calls and answers on a state whose cells are subject 0's. `closed` has the type of an adapter in front of an object
/// of a class, by its number.
pub fn scenes(
    name: &str,
    state: &RawState,
    arguments: usize,
    closed: impl Fn(usize, usize) -> usize,
) -> Vec<Scene> {
    let scene = |what: &str, state: &RawState, request: Request| Scene {
        name: format!("{what}, {name}"),
        state: state.clone(),
        request,
    };
    let first = news(state).find(|request| after(state, request).is_some());
    let passing = moving(state, false);
    let wrapping = moving(state, true);
    let found = [
        first.map(|request| scene("new", state, request)),
        passing.map(|request| scene("move", state, request)),
        wrapping.map(|request| scene("move with an adapter", state, request)),
    ];
    let mut scenes: Vec<Scene> = found.into_iter().flatten().collect();
    let (request, answer) = calling(state, arguments).expect("an accepted call");
    for layers in LAYERS {
        let state = behind(state, &request, layers, &closed);
        let (called, got) = after(&state, &request).expect("an accepted call");
        assert!(matches!(got, Got::Call { adapters, .. } if adapters >= layers));
        let what = format!("call with {} through {layers} adapters", counted(arguments));
        scenes.push(scene(&what, &state, request.clone()));
        let what = format!("answer through {layers} adapters");
        scenes.push(scene(&what, &called, answer.clone()));
    }
    scenes
}

/// The state with adapters in front of the called cell's object.
fn behind(
    state: &RawState,
    request: &Request,
    layers: usize,
    closed: impl Fn(usize, usize) -> usize,
) -> RawState {
    let Request::Call { cell, .. } = request else {
        panic!("{request:?} is no call");
    };
    let (mut state, cell) = (state.clone(), *cell as usize);
    let mut place = state.place(usize::from(state.cell(cell)[2]));
    while place[0] == 1 {
        place = state.place(usize::from(place[1]));
    }
    let class = usize::from(place[1]);
    wrap(&mut state, cell, (0..layers).map(|one| closed(class, one)));
    state
}
