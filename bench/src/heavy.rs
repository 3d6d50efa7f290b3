//! The dearest requests known: on loaded sheets in which every pair of types is reached, at one layer of a call or at each, and on a
//! state handed in with 128 types.

use crate::scenes::{Scene, LAYERS};
use conformance::heavy::{
    climb, last_answer, put_numbers, side, turning_answer, turning_arguments, turning_call,
    turning_climb, wrapping, ALIKE, MOST_TURNS,
};
use conformance::inputs::worst;
use conformance::requests::{loaded_anew, Core};
use conformance::served::Proved;
use conformance::states::{add_cell, add_place, answer, call, moved, new, of_table};
use conformance::worst_scripts::script;
use reference::raw::{RawState, RawTable};
use reference::requests::Request;
use reference::table::{MAX_ARGUMENTS, MAX_CATEGORIES, MAX_METHODS, MAX_SHEET_TYPES};

/// What the proved core leaves of a state by requests that it accepts.
fn left(mut state: RawState, requests: &[Request]) -> RawState {
    for request in requests {
        let got = Proved.request(&mut state, request);
        got.expect("an accepted request");
    }
    state
}

/// On a loaded sheet, through so many adapters: a move with an adapter, a call with four references, and its answer.
fn loaded(layers: usize) -> [Scene; 3] {
    let state = left(loaded_anew(&wrapping()), &climb(layers));
    assert_eq!(state.places as usize, 3 + layers);
    let last = 2 + layers as i64;
    let request = call(last, 1, vec![0, 1, 0, 1]);
    let called = left(state.clone(), std::slice::from_ref(&request));
    let scene = |what: &str, state: &RawState, request: Request| Scene {
        name: format!("{what}, {layers} adapters, loaded, 44 of 48 types reach one another"),
        state: state.clone(),
        request,
    };
    let onward = moved(last, side(layers + 1));
    [
        scene("move with an adapter", &state, onward),
        scene("call with 4 references", &state, request),
        scene("answer with a reference", &called, answer(0)),
    ]
}

/// On a loaded sheet, the dearest call known and the dearest answer: at every adapter a reference turns to a type of which it is no
/// subtype, as often as there are types for (conformance::heavy).
fn turning() -> [Scene; 2] {
    let climbed = |table| left(loaded_anew(&table), &turning_climb(MOST_TURNS));
    let state = climbed(turning_arguments());
    assert_eq!(state.places as usize, 3 + MOST_TURNS);
    let asked = turning_call(MOST_TURNS, 0);
    let called = left(climbed(turning_answer()), &[asked]);
    let scene = |what: &str, state, request| Scene {
        name: format!(
            "{what}, {MOST_TURNS} adapters, loaded, {ALIKE} of 48 types reach one another at each"
        ),
        state,
        request,
    };
    let request = turning_call(MOST_TURNS, MAX_ARGUMENTS);
    [
        scene("call with 4 references", state, request),
        scene("answer with a reference", called, answer(0)),
    ]
}

/// Types of the worst case, two of the sheet's being numbers: every type's last method answers a number, which is w64 in one type
/// alone. So hardly any is a subtype of another, and it takes long to find out.
fn no_subtypes(count: usize) -> RawTable {
    const NUMBERS: std::ops::Range<usize> = MAX_SHEET_TYPES - 2..MAX_SHEET_TYPES;
    let mut table = worst(count, MAX_CATEGORIES);
    put_numbers(&mut table, NUMBERS.start);
    for number in (0..count).filter(|number| !NUMBERS.contains(number)) {
        for method in 0..MAX_METHODS {
            let bytes = table.method_mut(number, method);
            // an answer is stored as its number and 1
            for (at, more) in [(2, 0), (3, 0), (4, 0), (5, 0), (6, 1)] {
                let named = usize::from(bytes[at]) - more;
                bytes[at] -= if NUMBERS.contains(&named) { 2 } else { 0 };
            }
        }
        let wide = usize::from(number + 1 == NUMBERS.start);
        last_answer(&mut table, number, NUMBERS.start + wide);
    }
    table
}

/// A move for which no room is left, found out while types are derived, on a loaded sheet.
fn without_room() -> Scene {
    let state = left(loaded_anew(&no_subtypes(MAX_SHEET_TYPES)), &[new(2, 2)]);
    Scene {
        name: "move refused with 11, loaded, 46 of 48 types reach one another".to_string(),
        state,
        request: moved(0, 3),
    }
}

/// A script with that move.
pub fn crowded() -> Vec<u8> {
    let requests = [new(2, 2), moved(0, 3)];
    script(&no_subtypes(MAX_SHEET_TYPES), &requests)
}

/// A move with an adapter in a full table handed in, whose types are known under the keys that are asked for.
fn handed_in() -> Scene {
    let mut table = no_subtypes(128);
    for (number, key) in [(126, [0, 3, 2]), (125, [2, 126, 124])] {
        table.entry_mut(number)[3..6].copy_from_slice(&key);
    }
    let mut state = of_table(table);
    let object = add_place(&mut state, [0, 0, 0]);
    let adapter = add_place(&mut state, [1, object, 124]);
    add_cell(&mut state, 2, adapter);
    Scene {
        name: "move with an adapter, handed in, 128 types".to_string(),
        state,
        request: moved(0, 3),
    }
}

/// The scenes of loaded sheets, and the one handed in.
pub fn scenes() -> (Vec<Scene>, Scene) {
    let mut of_sheets: Vec<Scene> = LAYERS.into_iter().flat_map(loaded).collect();
    of_sheets.extend(turning());
    of_sheets.push(without_room());
    (of_sheets, handed_in())
}

#[cfg(test)]
mod tests {
    use super::*;
    use crate::scenes::after;
    use crate::search::reached;
    use conformance::heavy::TURNS;
    use conformance::requests::counted;
    use conformance::states::worst_state;
    use reference::relations::Relation;

    /// The rows "48 types, every pair reached" through 0 adapters are of a loaded sheet too: three requests lead to these cells.
    #[test]
    fn every_pair_is_reached_on_a_loaded_sheet() {
        let given = worst_state(MAX_SHEET_TYPES, 0);
        let sheet = loaded_anew(&worst(MAX_SHEET_TYPES, MAX_CATEGORIES));
        let mut state = left(sheet, &[new(0, 1), moved(0, 2), moved(0, 3)]);
        // the call that is there to be answered
        (state.calls, state.call_bytes) = (given.calls, given.call_bytes);
        assert_eq!((state.cells, state.places), (3, 1));
        assert!(counted(&state) == counted(&given));
    }

    /// The scenes are what their names say: each request is accepted, one adapter more would not do, and at each every pair of the
    /// types alike is reached: where a reference turns, its object of class 0 does for a new type; before, at the first layer, cells
    /// 0 and 1 are of a subtype.
    #[test]
    fn references_turn_at_every_adapter() {
        for scene in turning() {
            let (after, _) = after(&scene.state, &scene.request).expect("accepted");
            let (state, table) = (&scene.state, &after.table);
            let [before, types] = [state.table.types, table.types].map(|count| count as usize);
            assert_eq!((types - before, types), (MOST_TURNS, 127), "{}", scene.name);
            let whole = |relation, t, s| reached(table, relation, t, s) >= Some(ALIKE * ALIKE);
            let turns = |one| whole(Relation::SubtypeOwnAside, one, 0);
            assert!((before..types).all(turns), "{}", scene.name);
            let cells = [0, 1].map(|cell| usize::from(state.cell(cell)[1]));
            let first = |one: usize| whole(Relation::Subtype, TURNS, one);
            assert!(cells.into_iter().all(first), "{}", scene.name);
        }
    }
}
