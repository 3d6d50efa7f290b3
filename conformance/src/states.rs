//! States made by hand, for what takes the most time and stack.

use crate::chains::{chain, nesting};
use crate::inputs::{avail, worst};
use reference::entry;
use reference::raw::{
    RawState, RawTable, CALLS_LENGTH, CALL_BYTES, CELLS_LENGTH, CELL_BYTES, PLACES_LENGTH,
    PLACE_BYTES,
};
use reference::requests::Request;
use reference::state::{MAX_CALLS, MAX_CALLS_EACH};
use reference::table::{MAX_ARGUMENTS, MAX_CATEGORIES, MAX_METHODS, MAX_SHEET_TYPES, MAX_SUBJECTS};

/// A state of a table without cells, places and calls.
pub fn of_table(table: RawTable) -> RawState {
    RawState {
        table,
        cells: 0,
        places: 0,
        calls: 0,
        cell_bytes: [0; CELLS_LENGTH],
        place_bytes: [0; PLACES_LENGTH],
        call_bytes: [0; CALLS_LENGTH],
    }
}

/// One more place: its number.
pub fn add_place(state: &mut RawState, bytes: [usize; PLACE_BYTES]) -> usize {
    let number = state.places as usize;
    let bytes = bytes.map(|byte| byte as u8);
    state.place_mut(number).copy_from_slice(&bytes);
    state.places += 1;
    number
}

/// One more cell, of subject 0: its number.
pub fn add_cell(state: &mut RawState, type_: usize, place: usize) -> usize {
    let number = state.cells as usize;
    let bytes: [u8; CELL_BYTES] = [0, type_ as u8, place as u8];
    state.cell_mut(number).copy_from_slice(&bytes);
    state.cells += 1;
    number
}

/// One more call, by subject 0 and not answered: its number.
pub fn add_call(state: &mut RawState, cell: usize, method: usize) -> usize {
    add_call_of(state, 0, cell, method)
}

fn add_call_of(state: &mut RawState, caller: usize, cell: usize, method: usize) -> usize {
    let number = state.calls as usize;
    let bytes: [u8; CALL_BYTES] = [caller as u8, cell as u8, method as u8, 0];
    state.call_mut(number).copy_from_slice(&bytes);
    state.calls += 1;
    number
}

/// The state with 511 calls, of method 0 through cell 0 but for those that it has: sixteen subjects made 32 each, and subject 0 may
/// make one more.
pub fn with_511_calls(mut state: RawState) -> RawState {
    state.table.subjects = MAX_SUBJECTS as u32;
    for caller in 0..MAX_SUBJECTS {
        let most = MAX_CALLS_EACH - usize::from(caller == 0);
        for _ in made_by(&state)[caller]..most {
            add_call_of(&mut state, caller, 0, 0);
        }
    }
    assert_eq!(state.calls as usize, MAX_CALLS - 1);
    state
}

/// How many of the counted calls are whose, told from their bytes: any byte may stand for a caller.
pub fn made_by(state: &RawState) -> [usize; 256] {
    let mut made = [0; 256];
    for call in 0..state.calls as usize {
        made[usize::from(state.call(call)[0])] += 1;
    }
    made
}

/// Adapters of these types in front of a cell's place, the last one outermost; the cell then leads to that.
pub fn wrap(state: &mut RawState, cell: usize, types: impl Iterator<Item = usize>) {
    let mut place = usize::from(state.cell(cell)[2]);
    for closed in types {
        place = add_place(state, [1, place, closed]);
    }
    state.cell_mut(cell)[2] = place as u8;
}

/// A table of the worst case with an object behind so many adapters, whose types take turns so that at each layer all pairs are
/// reached anew. Cell 0 leads to the outermost, cells 1 and 2 to an object alone, and call 0 is one of cell 0.
pub fn worst_state(count: usize, adapters: usize) -> RawState {
    let mut state = of_table(worst(count, MAX_CATEGORIES));
    let object = add_place(&mut state, [0, 0, 0]);
    for type_ in [1, 2, 3] {
        add_cell(&mut state, type_, object);
    }
    wrap(&mut state, 0, (0..adapters).map(|one| count - 1 - one));
    add_call(&mut state, 0, 1);
    state
}

/// The last of the eight types on which a chain ends; it is a class. The top of the chain, and a class with it in a signature.
const END: usize = 5;
pub const TOP: usize = 8;
pub const CLASS: usize = 9;

/// How many types Sub(8,0) nests, at the most, where there are ten to begin with.
pub const NESTED: usize = 118;

/// A chain (crate::chains) that a crossing from type 0 to 8 goes through: method 0 is optional where it is permitted, so that
/// loose holds. Method 1 of type 9 takes four of type 8 and answers one.
pub fn crossed_chain(seed: u64) -> RawTable {
    let mut table = chain(END, seed);
    for number in 0..=TOP {
        let state = &mut table.method_mut(number, 0)[0];
        *state = if *state == 2 { 1 } else { *state };
    }
    (table.sheet_types, table.types) = (CLASS as u32 + 1, CLASS as u32 + 1);
    for method in 0..MAX_METHODS {
        table.method_mut(CLASS, method)[0] = 3;
    }
    let takes = avail([TOP; MAX_ARGUMENTS], Some(TOP));
    table.method_mut(CLASS, 1).copy_from_slice(&takes);
    table
}

/// A state in which a reference of type 0 (cell 0) that crosses to type 8 nests as many new types as can be. Cell 1 is of type 9,
/// behind 40 adapters, and call 0 is one of it.
pub fn deep_state() -> RawState {
    let nests = |table: &RawTable| {
        let mut after = table.clone();
        let number = entry::derive(&mut after, 0, TOP as i64, 0);
        number.is_ok_and(|number| nesting(&after, number) == NESTED)
    };
    let table = (0..).map(crossed_chain).find(nests);
    let mut state = of_table(table.expect("one seed of twenty or so nests so deep"));
    for (class, type_) in [(END, 0), (CLASS, CLASS)] {
        let object = add_place(&mut state, [0, class, 0]);
        add_cell(&mut state, type_, object);
    }
    wrap(&mut state, 1, [CLASS; 40].into_iter());
    add_call(&mut state, 1, 1);
    state
}

/// New, move, call and answer in a deep state.
pub fn deep_requests() -> [Request; 4] {
    let to = TOP as i64;
    [
        new(END as i64, to),
        moved(0, to),
        call(1, 1, vec![0; MAX_ARGUMENTS]),
        answer(0),
    ]
}

/// New, move, call and answer in a state of the worst case.
pub fn worst_requests() -> [Request; 4] {
    let last = MAX_SHEET_TYPES as i64 - 1;
    [
        new(0, last),
        moved(1, last),
        call(0, 1, vec![1, 2, 1, 2]),
        answer(1),
    ]
}

/// A new object of subject 0.
pub fn new(class: i64, type_: i64) -> Request {
    Request::New {
        subject: 0,
        class,
        type_,
    }
}

/// A move from subject 0 to itself.
pub fn moved(cell: i64, type_: i64) -> Request {
    Request::Move {
        subject: 0,
        cell,
        receiver: 0,
        type_,
    }
}

/// A call by subject 0.
pub fn call(cell: i64, method: i64, arguments: Vec<i64>) -> Request {
    Request::Call {
        subject: 0,
        cell,
        method,
        arguments,
    }
}

/// Subject 0 answers call 0 with a cell.
pub fn answer(cell: i64) -> Request {
    Request::Answer {
        subject: 0,
        call: 0,
        value: Some(cell),
    }
}
