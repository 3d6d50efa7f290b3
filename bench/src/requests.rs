//! New, move, call, answer and offers in safe Rust on the bytes of a state, written from docs/SPEC.md: what the proved core's requests
//! are to be measured against, in two ways (`measure::in_place`). On a copy, which is stored where the request is accepted, and with the
//! relations of a crossing asked for in the order of the rules: the simplest safe Rust. Or in the bytes, which are kept first and put back
//! on a refusal, and with a subtype asked for before loose, as the core does it; a step of a script then gives back its counts alone.

use crate::measure::in_place;
use crate::{fits, restriction, search};
use conformance::runs::{answer as answer_words, first, ANSWER, NO_REQUEST};
use reference::raw::{self, RawState, METHOD_BYTES};
use reference::refusal::{
    Refusal, ANSWERED_ALREADY, CALLS_FULL, CELLS_FULL, LATER_LAYER, NOT_CALLABLE, NOT_HELD,
    NOT_OWNER, NOT_STRICT, OUT_OF_RANGE, PLACES_FULL, TOO_WIDE, UNKNOWN_SUBJECT, UNKNOWN_TYPE,
    UNRELATED, WRONG_VALUES,
};
use reference::relations::Relation;
use reference::requests::{Got, Request};
use reference::state::{MAX_CALLS_EACH, MAX_CELLS, MAX_PLACES};

/// A reference on its way: its static type, and the place that it leads to.
#[derive(Clone, Copy)]
struct Reference {
    static_type: usize,
    place: usize,
}

/// What is passed by a call or an answer.
#[derive(Clone, Copy)]
enum Value {
    Number(i64),
    Reference(Reference),
}

/// A request on a state handed in: a refusal leaves every byte as it was.
pub fn request(raw: &mut RawState, request: &Request) -> Result<Got, Refusal> {
    if !fits::state(raw) {
        return Err(OUT_OF_RANGE);
    }
    if !in_place() {
        return on_a_copy(raw, request);
    }
    let old = raw.clone();
    let got = step(raw, request);
    if got.is_err() {
        *raw = old;
    }
    got
}

/// A run of the requests in words: the state is checked once, and each request that has room for its answer is served on what those
/// before it left. How many were served, or 2.
pub fn run(raw: &mut RawState, mut words: &[i64], answers: &mut [i64]) -> Result<usize, Refusal> {
    if !fits::state(raw) {
        return Err(OUT_OF_RANGE);
    }
    let mut served = 0;
    for room in answers.chunks_exact_mut(ANSWER) {
        if words.is_empty() {
            break;
        }
        let (asked, behind) = first(words);
        let result = asked.map_or(Err(NO_REQUEST), |asked| serve(raw, &asked));
        room.copy_from_slice(&answer_words(result));
        (words, served) = (behind, served + 1);
    }
    Ok(served)
}

/// A request on a state that is right: a refusal leaves what is counted as it was.
pub fn serve(raw: &mut RawState, request: &Request) -> Result<Got, Refusal> {
    if in_place() {
        step(raw, request)
    } else {
        on_a_copy(raw, request)
    }
}

fn on_a_copy(raw: &mut RawState, request: &Request) -> Result<Got, Refusal> {
    let mut state = raw.clone();
    let got = step(&mut state, request)?;
    *raw = state;
    Ok(got)
}

fn step(state: &mut RawState, request: &Request) -> Result<Got, Refusal> {
    let counts = (state.table.types, state.cells, state.places, state.calls);
    let got = match request {
        Request::New {
            subject,
            class,
            type_,
        } => new(state, *subject, *class, *type_),
        Request::Move {
            subject,
            cell,
            receiver,
            type_,
        } => moved(state, *subject, *cell, *receiver, *type_),
        Request::Call {
            subject,
            cell,
            method,
            arguments,
        } => call(state, *subject, *cell, *method, arguments),
        Request::Answer {
            subject,
            call,
            value,
        } => answer(state, *subject, *call, *value),
    };
    if got.is_err() {
        (state.table.types, state.cells, state.places, state.calls) = counts;
    }
    got
}

/// Whether a cell offers a chain: its type and its place's both permit it.
pub fn offers(raw: &RawState, cell: i64, chain: &[i64]) -> Result<bool, Refusal> {
    if !fits::state(raw) {
        return Err(OUT_OF_RANGE);
    }
    let Some(cell) = below(cell, raw.cells) else {
        return Ok(false);
    };
    let bytes = raw.cell(cell);
    let place_type = place_type(raw, usize::from(bytes[2]));
    Ok(permits_chain(raw, usize::from(bytes[1]), chain) && permits_chain(raw, place_type, chain))
}

fn permits_chain(raw: &RawState, first: usize, chain: &[i64]) -> bool {
    let mut at = Some(first);
    for method in chain {
        let Some(number) = at else {
            return false;
        };
        let Some(bytes) = below(*method, raw.table.methods).and_then(|m| permitted(raw, number, m))
        else {
            return false;
        };
        at = usize::from(bytes[6]).checked_sub(1);
    }
    // a chain that is empty is permitted by a reference alone
    !chain.is_empty() || raw.table.entry(first)[0] == 0
}

/// The number of something of which there are so many.
fn below(number: i64, count: u32) -> Option<usize> {
    let number = usize::try_from(number).ok()?;
    (number < count as usize).then_some(number)
}

fn subject(state: &RawState, number: i64) -> Result<usize, Refusal> {
    below(number, state.table.subjects).ok_or(UNKNOWN_SUBJECT)
}

fn held(state: &RawState, subject: usize, cell: i64) -> Option<usize> {
    below(cell, state.cells).filter(|cell| usize::from(state.cell(*cell)[0]) == subject)
}

fn sheet_ref(state: &RawState, number: i64) -> Result<usize, Refusal> {
    below(number, state.table.sheet_types)
        .filter(|number| state.table.entry(*number)[0] == 0)
        .ok_or(UNKNOWN_TYPE)
}

/// The bytes of a method that a type permits.
fn permitted(state: &RawState, number: usize, method: usize) -> Option<[u8; METHOD_BYTES]> {
    let table = &state.table;
    let bytes = table.method(number, method);
    let permits = table.entry(number)[0] == 0 && matches!(bytes[0], 1 | 2);
    permits.then(|| bytes.try_into().expect("seven bytes"))
}

fn base(state: &RawState, mut place: usize) -> usize {
    while state.place(place)[0] == 1 {
        place = usize::from(state.place(place)[1]);
    }
    place
}

fn owner(state: &RawState, place: usize) -> usize {
    usize::from(state.place(base(state, place))[2])
}

fn place_type(state: &RawState, place: usize) -> usize {
    let bytes = state.place(place);
    usize::from(if bytes[0] == 0 { bytes[1] } else { bytes[2] })
}

/// The types that a value passes from a cell to the object: the cell's, each adapter's, the class.
fn layers(state: &RawState, cell: usize) -> Vec<usize> {
    let mut place = usize::from(state.cell(cell)[2]);
    let mut layers = vec![usize::from(state.cell(cell)[1]), place_type(state, place)];
    while state.place(place)[0] == 1 {
        place = usize::from(state.place(place)[1]);
        layers.push(place_type(state, place));
    }
    layers
}

fn add_place(state: &mut RawState, bytes: [usize; 3]) -> Result<usize, Refusal> {
    let number = state.places as usize;
    if number == MAX_PLACES {
        return Err(PLACES_FULL);
    }
    state
        .place_mut(number)
        .copy_from_slice(&bytes.map(|byte| byte as u8));
    state.places += 1;
    Ok(number)
}

fn add_cell(state: &mut RawState, holder: usize, given: Reference) -> Result<Got, Refusal> {
    let number = state.cells as usize;
    if number == MAX_CELLS {
        return Err(CELLS_FULL);
    }
    let bytes = [holder, given.static_type, given.place].map(|byte| byte as u8);
    state.cell_mut(number).copy_from_slice(&bytes);
    state.cells += 1;
    Ok(Got::Cell {
        cell: number,
        place: given.place,
    })
}

/// A reference crosses to type t.
fn cross(
    state: &mut RawState,
    from: Reference,
    t: usize,
    receiver: usize,
) -> Result<Reference, Refusal> {
    let s = from.static_type;
    let to = |place| Reference {
        static_type: t,
        place,
    };
    let holds =
        |state: &RawState, relation, t, s| search::reached(&state.table, relation, t, s).is_some();
    let (place, r) = if state.table.entry(t)[2] == 1 {
        if !holds(state, Relation::Free, t, s) {
            return Err(UNRELATED);
        }
        if owner(state, from.place) != receiver {
            return Err(NOT_OWNER);
        }
        (base(state, from.place), t)
    } else {
        // in the order of the rules, or as the core asks: a subtype is loosely related, so that one search is enough for it
        let passes = in_place() && holds(state, Relation::Subtype, t, s);
        if !passes && !holds(state, Relation::Loose, t, s) {
            return Err(UNRELATED);
        }
        if passes || !in_place() && holds(state, Relation::Subtype, t, s) {
            return Ok(to(from.place));
        }
        (from.place, restriction::sub(&mut state.table, t, s)?)
    };
    let v = place_type(state, place);
    if holds(state, Relation::SubtypeOwnAside, r, v) {
        return Ok(to(place));
    }
    if !holds(state, Relation::Strict, r, v) {
        return Err(NOT_STRICT);
    }
    let closed = restriction::closed(&mut state.table, r, v)?;
    add_place(state, [1, place, closed]).map(to)
}

fn new(state: &mut RawState, by: i64, class: i64, type_: i64) -> Result<Got, Refusal> {
    let by = subject(state, by)?;
    let class = below(class, state.table.sheet_types)
        .filter(|class| fits::class(&state.table, *class))
        .ok_or(UNKNOWN_TYPE)?;
    let type_ = sheet_ref(state, type_)?;
    let place = add_place(state, [0, class, by])?;
    let start = Reference {
        static_type: class,
        place,
    };
    let given = cross(state, start, type_, by)?;
    add_cell(state, by, given)
}

fn moved(
    state: &mut RawState,
    by: i64,
    cell: i64,
    receiver: i64,
    type_: i64,
) -> Result<Got, Refusal> {
    let by = subject(state, by)?;
    let receiver = subject(state, receiver)?;
    let cell = held(state, by, cell).ok_or(NOT_HELD)?;
    let type_ = sheet_ref(state, type_)?;
    let given = cross(state, reference(state, cell), type_, receiver)?;
    add_cell(state, receiver, given)
}

fn reference(state: &RawState, cell: usize) -> Reference {
    let bytes = state.cell(cell);
    Reference {
        static_type: usize::from(bytes[1]),
        place: usize::from(bytes[2]),
    }
}

/// An operand as a value of a type: a cell's reference where that is a ref type.
fn value(state: &RawState, by: usize, operand: i64, named: usize) -> Result<Value, Refusal> {
    if state.table.entry(named)[0] != 0 {
        return Ok(Value::Number(operand));
    }
    let cell = held(state, by, operand).ok_or(WRONG_VALUES)?;
    Ok(Value::Reference(reference(state, cell)))
}

/// A value passes one type, which is missing in an unfit layer.
fn pass(
    state: &mut RawState,
    value: Value,
    named: Option<usize>,
    receiver: usize,
) -> Result<Value, Refusal> {
    let t = named.ok_or(UNRELATED)?;
    match (value, state.table.entry(t)[0]) {
        (Value::Number(number), 1) if i32::try_from(number).is_err() => Err(TOO_WIDE),
        (Value::Number(number), 1 | 2) => Ok(Value::Number(number)),
        (Value::Reference(from), 0) => cross(state, from, t, receiver).map(Value::Reference),
        _ => Err(UNRELATED),
    }
}

/// A value passes the types of all layers: 8 and 10 are 19 at every layer but the first.
fn pass_all(
    state: &mut RawState,
    mut value: Value,
    named: impl Iterator<Item = Option<usize>>,
    receiver: usize,
) -> Result<Value, Refusal> {
    for (index, one) in named.enumerate() {
        value = pass(state, value, one, receiver).map_err(|number| match number {
            UNRELATED | NOT_STRICT if index > 0 => LATER_LAYER,
            _ => number,
        })?;
    }
    Ok(value)
}

/// The types of the layers for an argument. They were there before, and never change.
fn argument_types(
    state: &RawState,
    layers: &[usize],
    method: usize,
    index: usize,
) -> Vec<Option<usize>> {
    let of_layer = |layer: &usize| {
        let bytes = permitted(state, *layer, method)?;
        (index < usize::from(bytes[1])).then(|| usize::from(bytes[2 + index]))
    };
    layers.iter().map(of_layer).collect()
}

/// How many of the calls are this subject's.
fn made_by(state: &RawState, subject: usize) -> usize {
    let calls = 0..state.calls as usize;
    let of_subject = |call: &usize| usize::from(state.call(*call)[0]) == subject;
    calls.filter(of_subject).count()
}

fn call(
    state: &mut RawState,
    by: i64,
    cell: i64,
    method: i64,
    arguments: &[i64],
) -> Result<Got, Refusal> {
    let by = subject(state, by)?;
    let cell = held(state, by, cell).ok_or(NOT_HELD)?;
    let method = below(method, state.table.methods).ok_or(NOT_CALLABLE)?;
    let bytes = permitted(state, usize::from(state.cell(cell)[1]), method)
        .filter(|bytes| bytes[0] == 2)
        .ok_or(NOT_CALLABLE)?;
    let named = raw::signature(&bytes).arguments;
    if named.len() != arguments.len() {
        return Err(WRONG_VALUES);
    }
    let operands = arguments.iter().zip(named);
    let values: Vec<Value> = operands
        .map(|(operand, named)| value(state, by, *operand, named))
        .collect::<Result<_, _>>()?;
    if made_by(state, by) >= MAX_CALLS_EACH {
        return Err(CALLS_FULL);
    }
    let number = state.calls as usize;
    let layers = layers(state, cell);
    let receiver = owner(state, usize::from(state.cell(cell)[2]));
    for (index, value) in values.into_iter().enumerate() {
        let types = argument_types(state, &layers, method, index);
        if let Value::Reference(given) = pass_all(state, value, types.into_iter(), receiver)? {
            add_cell(state, receiver, given)?;
        }
    }
    let bytes = [by, cell, method, 0].map(|byte| byte as u8);
    state.call_mut(number).copy_from_slice(&bytes);
    state.calls += 1;
    Ok(Got::Call {
        call: number,
        adapters: layers.len() - 2,
    })
}

fn answer(state: &mut RawState, by: i64, call: i64, given: Option<i64>) -> Result<Got, Refusal> {
    let by = subject(state, by)?;
    let call = below(call, state.calls).ok_or(NOT_HELD)?;
    let [caller, cell, method, answered]: [u8; 4] =
        state.call(call).try_into().expect("four bytes");
    let (cell, method) = (usize::from(cell), usize::from(method));
    if owner(state, usize::from(state.cell(cell)[2])) != by {
        return Err(NOT_HELD);
    }
    if answered == 1 {
        return Err(ANSWERED_ALREADY);
    }
    let mut layers = layers(state, cell);
    layers.reverse();
    let types: Vec<Option<usize>> = layers
        .iter()
        .map(|layer| usize::from(permitted(state, *layer, method)?[6]).checked_sub(1))
        .collect();
    let got = match (types[types.len() - 1], given) {
        (None, None) => Got::Nothing,
        (Some(due), Some(operand)) => {
            let value = value(state, by, operand, due)?;
            let caller = usize::from(caller);
            match pass_all(state, value, types.into_iter(), caller)? {
                Value::Number(number) => Got::Number(number),
                Value::Reference(given) => add_cell(state, caller, given)?,
            }
        }
        _ => return Err(WRONG_VALUES),
    };
    state.call_mut(call)[3] = 1;
    Ok(got)
}

#[cfg(test)]
mod tests {
    use super::*;
    use conformance::requests::{on_handed_in, on_loaded, on_offers, watch, Core};
    use conformance::{run_lists, runs, tiny_first};
    use reference::coverage::Seen;
    use reference::generators::Profile;

    struct Rust;

    impl Core for Rust {
        fn request(&self, state: &mut RawState, one: &Request) -> Result<Got, Refusal> {
            request(state, one)
        }

        fn offers(&self, state: &RawState, cell: i64, chain: &[i64]) -> Result<bool, Refusal> {
            offers(state, cell, chain)
        }
    }

    /// What is measured against does the same work.
    #[test]
    fn is_the_reference() {
        let mut seen = Seen::default();
        let profiles = [Profile::Small, Profile::Medium, Profile::Full];
        for script in tiny_first::scripts(&profiles.map(|profile| (profile, 100))) {
            let found = on_loaded(&Rust, &script, &mut seen);
            assert_eq!(found, None, "{}", script.from);
        }
        for script in tiny_first::scripts(&[(Profile::Medium, 100)]) {
            assert_eq!(watch(&Rust, &script), None, "{}", script.from);
        }
        for one in tiny_first::crowded_states(0..2000) {
            let found = on_handed_in(&Rust, &one.of, &mut seen);
            assert_eq!(found, None, "{}", one.from);
        }
        for one in tiny_first::states(0..2000) {
            let found = on_offers(&Rust, &one, &mut [0; 3]);
            assert_eq!(found, None, "{}", one.from);
        }
        for one in tiny_first::call_limits(0..320) {
            let found = on_handed_in(&Rust, &one.of, &mut seen);
            assert_eq!(found, None, "{}", one.from);
        }
        for number in [2].into_iter().chain(5..=19) {
            assert!(seen.number(number) > 5, "{number}");
        }
    }

    /// So does a run of it.
    #[test]
    fn runs_as_the_reference() {
        let profiles = [Profile::Small, Profile::Medium, Profile::Full];
        let scripts = profiles.map(|profile| (profile, 60));
        let scripts = tiny_first::scripts(&scripts).filter_map(run_lists::on_loaded);
        let limits = tiny_first::call_limits(0..320).map(run_lists::on_handed_in);
        let states = tiny_first::crowded_states(0..1000).map(run_lists::on_handed_in);
        let mut met = run_lists::Met::default();
        for (at, list) in scripts.chain(limits).chain(states).enumerate() {
            let found = run_lists::difference(run, runs::run, &list, &mut met);
            assert_eq!(found, None, "list {at}");
        }
        assert!(met.numbers[1] > 5 && met.numbers[18] > 5, "{met:?}");
        assert!(met.rooms.iter().all(|count| *count > 5), "{met:?}");
    }
}
