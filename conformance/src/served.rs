//! The requests, offers and load of the proved core. A state is in the bytes of a `RawState`; its counts are lent apart from it, as
//! the C functions take them.

use crate::requests::Core;
use pilgonca::raw::{self, State, StateMut, StateRef};
pub use pilgonca::raw::{StateCounts, Values};
use reference::raw::RawState;
use reference::refusal::Refusal;
use reference::requests::{Got, Request};

/// A state lent with these counts.
fn lent<'a>(state: &'a mut RawState, counts: &'a mut StateCounts) -> StateMut<'a> {
    StateMut {
        types: &mut state.table.type_bytes,
        links: &mut state.table.broader,
        cells: &mut state.cell_bytes,
        places: &mut state.place_bytes,
        calls: &mut state.call_bytes,
        counts,
    }
}

/// The counts that a state comes with.
pub fn counts(state: &RawState) -> StateCounts {
    let [subjects, methods, categories, sheet_types, types] = crate::counts(&state.table);
    let [cells, places, calls] =
        [state.cells, state.places, state.calls].map(|count| count as usize);
    [
        subjects,
        methods,
        categories,
        sheet_types,
        types,
        cells,
        places,
        calls,
    ]
}

/// A state as the package keeps one.
pub fn given(state: &RawState) -> State {
    State {
        types: state.table.type_bytes,
        links: state.table.broader,
        cells: state.cell_bytes,
        places: state.place_bytes,
        calls: state.call_bytes,
        counts: counts(state),
    }
}

/// Gives a state these counts.
pub fn set_counts(state: &mut RawState, counts: StateCounts) {
    let counts = counts.map(|count| u32::try_from(count).expect("counts in and out are small"));
    let table = &mut state.table;
    [
        table.subjects,
        table.methods,
        table.categories,
        table.sheet_types,
        table.types,
        state.cells,
        state.places,
        state.calls,
    ] = counts;
}

/// The number that stands for no answer's value: the core must not look at it.
const NOT_GIVEN: i64 = 1 << 40;

/// A request in the bytes of `state` with these counts: 0 with state, counts and values stored, or the refusal's number.
pub fn request(
    state: &mut RawState,
    counts: &mut StateCounts,
    request: &Request,
    values: &mut Values,
) -> usize {
    let lent = lent(state, counts);
    match request {
        Request::New {
            subject,
            class,
            type_,
        } => raw::new_object(lent, *subject, *class, *type_, values),
        Request::Move {
            subject,
            cell,
            receiver,
            type_,
        } => raw::move_reference(lent, *subject, *cell, *receiver, *type_, values),
        Request::Call {
            subject,
            cell,
            method,
            arguments,
        } => raw::call(lent, *subject, *cell, *method, arguments, values),
        Request::Answer {
            subject,
            call,
            value,
        } => {
            let given = usize::from(value.is_some());
            let value = value.unwrap_or(NOT_GIVEN);
            raw::answer(lent, *subject, *call, given, value, values)
        }
    }
}

/// Whether a cell offers a chain, in the bytes of `state` with these counts: 0 with 0 or 1 in `offered`, or 2.
pub fn offers(
    state: &RawState,
    counts: StateCounts,
    cell: i64,
    chain: &[i64],
    offered: &mut usize,
) -> usize {
    let lent = StateRef {
        types: &state.table.type_bytes,
        links: &state.table.broader,
        cells: &state.cell_bytes,
        places: &state.place_bytes,
        calls: &state.call_bytes,
        counts: &counts,
    };
    raw::offers(lent, cell, chain, offered)
}

/// The state of a sheet: 0 with state and counts stored, or the refusal's number with the offset in `at`.
pub fn load(sheet: &[u8], state: &mut RawState, counts: &mut StateCounts, at: &mut usize) -> usize {
    raw::load(sheet, lent(state, counts), at)
}

/// A run of the requests in `words`, in the bytes of `state` with these counts: 0 with state, counts, answers and how many were
/// served stored, or 2.
pub fn run(
    state: &mut RawState,
    counts: &mut StateCounts,
    words: &[i64],
    answers: &mut [i64],
    served: &mut usize,
) -> usize {
    raw::run(lent(state, counts), words, answers, served)
}

/// The proved core.
pub struct Proved;

/// What stands in the lent values before.
const MARKS: Values = [0x5a5a_5a5a_5a5a; 3];
const MARK: usize = 0x5a5a;

impl Proved {
    /// A run on a state in bytes: how many were served, or the refusal.
    pub fn run(state: &mut RawState, words: &[i64], answers: &mut [i64]) -> Result<usize, Refusal> {
        let (mut counts, mut served) = (counts(state), MARK);
        let code = run(state, &mut counts, words, answers, &mut served);
        set_counts(state, counts);
        if code == 0 {
            return Ok(served);
        }
        assert_eq!(served, MARK, "a run is refused and stores how many");
        Err(code as Refusal)
    }
}

impl Core for Proved {
    fn request(&self, state: &mut RawState, asked: &Request) -> Result<Got, Refusal> {
        let (mut counts, mut values) = (counts(state), MARKS);
        let code = request(state, &mut counts, asked, &mut values);
        set_counts(state, counts);
        if code != 0 {
            assert_eq!(values, MARKS, "{asked:?} is refused and stores values");
            return Err(code as Refusal);
        }
        Ok(got(asked, values))
    }

    fn offers(&self, state: &RawState, cell: i64, chain: &[i64]) -> Result<bool, Refusal> {
        let mut offered = MARK;
        match (
            offers(state, counts(state), cell, chain, &mut offered),
            offered,
        ) {
            (0, 0) => Ok(false),
            (0, 1) => Ok(true),
            (code, MARK) if code != 0 => Err(code as Refusal),
            other => panic!("cell {cell}, chain {chain:?}: {other:?}"),
        }
    }
}

/// What an accepted request gives; values that it does not give are 0.
fn got(asked: &Request, values: Values) -> Got {
    let number = |value: i64| usize::try_from(value).expect("a number of the state");
    match (asked, values) {
        (Request::Answer { .. }, [0, 0, 0]) => Got::Nothing,
        (Request::Answer { .. }, [1, value, 0]) => Got::Number(value),
        (Request::Call { .. }, [2, call, adapters]) => Got::Call {
            call: number(call),
            adapters: number(adapters),
        },
        (_, [2, cell, place]) => Got::Cell {
            cell: number(cell),
            place: number(place),
        },
        _ => panic!("{asked:?} gives {values:?}"),
    }
}
