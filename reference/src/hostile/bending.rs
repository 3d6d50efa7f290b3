//! States bent within what the check lets pass (H14, H16), or nearly.

use crate::random::Random;
use crate::state::{Call, Cell, Place, State, MAX_CALLS_EACH, MAX_CELLS, MAX_PLACES};
use crate::table::*;

/// Changes one thing that a loaded sheet would not lead to. Mostly the check
/// is still passed.
pub fn bend(random: &mut Random, state: &mut State) {
    match random.below(18) {
        0 => bend_cell(random, state),
        1 | 2 => bend_adapter(random, state),
        3 => bend_place(random, state),
        4 => bend_call(random, state),
        5..=7 => bend_derived(random, state),
        8 => bend_key(random, state),
        9 => add_derived(random, state),
        10 => bend_sheet_type(random, state),
        11 => add_adapters(random, state),
        12 => {
            let kind = random.below(3);
            fill(random, state, kind);
        }
        13..=16 => other_length(random, state),
        _ => add_cell_and_call(random, state),
    }
}

fn some_type(random: &mut Random, table: &Table, wanted: impl Fn(&Type) -> bool) -> Option<TypeNo> {
    let list: Vec<TypeNo> = (0..table.types.len())
        .filter(|number| wanted(&table.types[*number]))
        .collect();
    random.pick_some(&list).copied()
}

fn some_sheet_ref(random: &mut Random, table: &Table) -> Option<TypeNo> {
    let list: Vec<TypeNo> = (0..table.sheet_types)
        .filter(|number| table.types[*number].is_ref())
        .collect();
    random.pick_some(&list).copied()
}

fn some_class(random: &mut Random, table: &Table) -> Option<TypeNo> {
    let list: Vec<TypeNo> = (0..table.sheet_types)
        .filter(|number| table.types[*number].is_class())
        .collect();
    random.pick_some(&list).copied()
}

fn bend_cell(random: &mut Random, state: &mut State) {
    let Some(cell) = random.index(state.cells.len()) else {
        return;
    };
    if let Some(type_) = some_sheet_ref(random, &state.table) {
        state.cells[cell].type_ = type_;
    }
    state.cells[cell].place = random.below(state.places.len());
}

fn bend_adapter(random: &mut Random, state: &mut State) {
    let adapters: Vec<usize> = (0..state.places.len())
        .filter(|place| matches!(state.places[*place], Place::Adapter { .. }))
        .collect();
    let Some(place) = random.pick_some(&adapters).copied() else {
        return bend_place(random, state);
    };
    if let Some(closed) = some_type(random, &state.table, Type::is_ref) {
        let behind = random.below(place);
        state.places[place] = Place::Adapter { behind, closed };
    }
}

fn bend_place(random: &mut Random, state: &mut State) {
    let Some(place) = random.index(state.places.len()) else {
        return;
    };
    if place > 0 && random.chance(70) {
        if let Some(closed) = some_type(random, &state.table, Type::is_ref) {
            let behind = random.below(place);
            state.places[place] = Place::Adapter { behind, closed };
        }
    } else if let Some(class) = some_class(random, &state.table) {
        let owner = random.below(state.table.subjects);
        state.places[place] = Place::Object { class, owner };
    }
}

fn bend_call(random: &mut Random, state: &mut State) {
    let Some(call) = random.index(state.calls.len()) else {
        return;
    };
    if let Some(caller) = may_call(random, state) {
        state.calls[call] = Call {
            caller,
            cell: random.below(state.cells.len()),
            method: random.below(state.table.methods),
            answered: random.chance(20),
        };
    }
}

/// A subject that may make one call more (Q9).
fn may_call(random: &mut Random, state: &State) -> Option<usize> {
    let may: Vec<usize> = (0..state.table.subjects)
        .filter(|caller| state.calls_of(*caller) < MAX_CALLS_EACH)
        .collect();
    random.pick_some(&may).copied()
}

/// A state of a method with any signature of types without own below a count.
fn any_state(random: &mut Random, table: &Table, count: usize) -> MethodState {
    let named: Vec<TypeNo> = (0..count).filter(|one| !table.types[*one].own).collect();
    if named.is_empty() {
        return MethodState::Unavail;
    }
    let signature = Signature {
        arguments: (0..random.below(MAX_ARGUMENTS + 1))
            .map(|_| *random.pick(&named))
            .collect(),
        answer: random.chance(70).then(|| *random.pick(&named)),
    };
    match random.below(5) {
        0 => MethodState::Denied,
        1 => MethodState::Optional(signature),
        2 | 3 => MethodState::Avail(signature),
        _ => MethodState::Unavail,
    }
}

/// Changes a derived type: a method, its category, own, or into a number.
fn bend_derived(random: &mut Random, state: &mut State) {
    let table = &mut state.table;
    let derived = table.types.len() - table.sheet_types;
    let Some(index) = random.index(derived) else {
        return add_derived(random, state);
    };
    let number = table.sheet_types + index;
    let method = random.below(table.methods);
    match random.below(10) {
        0 => table.types[number].category = random.below(table.categories() + 1),
        1 => table.types[number] = Type::number(Representation::W32, 0),
        2 if table.types[number].is_ref() => table.types[number].own = true,
        _ if table.types[number].is_ref() => {
            let count = table.types.len();
            table.types[number].methods[method] = any_state(random, table, count);
        }
        _ => {}
    }
}

/// One argument more or less in one layer of a cell, so that another has fewer (C15) or more (C16),
/// or another type for one of them.
fn other_length(random: &mut Random, state: &mut State) {
    let Some(cell) = random.index(state.cells.len()) else {
        return;
    };
    let layers = state.layers(cell);
    let table = &mut state.table;
    let permitted: Vec<usize> = (0..table.methods)
        .filter(|method| table.types[layers[0]].permits(*method).is_some())
        .collect();
    let Some(first) = random.pick_some(&permitted).copied() else {
        return;
    };
    let second = *random.pick(&permitted);
    let length = |method: &usize| {
        let signature = table.types[layers[0]].permits(*method);
        signature.map_or(0, |one| one.arguments.len())
    };
    let method = [first, second].into_iter().max_by_key(length);
    let method = method.unwrap_or(first);
    // a sheet type without own may stand in every signature (T14, T15)
    let may: Vec<TypeNo> = (0..table.sheet_types)
        .filter(|one| !table.types[*one].own)
        .collect();
    let more = random.pick_some(&may).copied();
    let layer = *random.pick(&layers);
    let state = table.types[layer].methods.get_mut(method);
    if let (Some(MethodState::Optional(one) | MethodState::Avail(one)), Some(more)) = (state, more)
    {
        let at = random.index(one.arguments.len());
        if let Some(at) = at.filter(|_| random.chance(50)) {
            one.arguments[at] = more;
        } else if one.arguments.len() < MAX_ARGUMENTS && random.chance(50) {
            one.arguments.push(more);
        } else {
            one.arguments.pop();
        }
    }
}

fn any_key(random: &mut Random, table: &Table) -> Key {
    if !table.keys.is_empty() && random.chance(40) {
        return *random.pick(&table.keys);
    }
    Key {
        kind: *random.pick(&[Kind::Sub, Kind::Sup, Kind::Closed]),
        left: random.below(table.types.len()),
        right: random.below(table.types.len()),
    }
}

fn bend_key(random: &mut Random, state: &mut State) {
    let table = &mut state.table;
    if let Some(index) = random.index(table.keys.len()) {
        table.keys[index] = any_key(random, table);
    }
}

/// Adds derived types: one, or as many as bring the table near 128.
fn add_derived(random: &mut Random, state: &mut State) {
    let table = &mut state.table;
    let wanted = if random.chance(20) {
        random.within((MAX_TYPES - 6, MAX_TYPES))
    } else {
        table.types.len() + 1
    };
    while table.types.len() < wanted.min(MAX_TYPES) {
        let key = any_key(random, table);
        let count = table.types.len();
        let mut one = Type {
            representation: Representation::Ref,
            category: random.below(table.categories() + 1),
            own: random.chance(3),
            methods: (0..table.methods)
                .map(|_| any_state(random, table, count))
                .collect(),
        };
        if let Some(model) = some_type(random, table, Type::is_ref).filter(|_| random.chance(50)) {
            one.methods = table.types[model].methods.clone();
        }
        table.types.push(one);
        table.keys.push(key);
    }
}

fn bend_sheet_type(random: &mut Random, state: &mut State) {
    let table = &mut state.table;
    if let Some(number) = some_sheet_ref(random, table) {
        let method = random.below(table.methods);
        table.types[number].methods[method] = any_state(random, table, table.sheet_types);
    }
}

/// Adapters of any types on top of a cell's place, and a cell for the last.
fn add_adapters(random: &mut Random, state: &mut State) {
    let Some(cell) = random.index(state.cells.len()) else {
        return;
    };
    let mut place = state.cells[cell].place;
    for _ in 0..random.within((1, 3)) {
        let Some(closed) = some_type(random, &state.table, Type::is_ref) else {
            return;
        };
        if state.places.len() >= MAX_PLACES {
            return;
        }
        state.places.push(Place::Adapter {
            behind: place,
            closed,
        });
        place = state.places.len() - 1;
    }
    state.cells[cell].place = place;
}

/// Brings places (0), cells (1) or calls (2) to their limits or just below; calls for one subject,
/// for all, or for sixteen.
pub fn fill(random: &mut Random, state: &mut State, kind: usize) {
    let short = random.below(3);
    match kind {
        0 if !state.places.is_empty() => {
            while state.places.len() < MAX_PLACES - short {
                let at = random.below(state.places.len());
                state.places.push(state.places[at]);
            }
        }
        1 if !state.cells.is_empty() => {
            while state.cells.len() < MAX_CELLS - short {
                let at = random.below(state.cells.len());
                state.cells.push(state.cells[at]);
            }
        }
        2 if !state.calls.is_empty() => match random.below(4) {
            0 => fill_callers(random, state, MAX_SUBJECTS, short),
            1 => fill_callers(random, state, 0, short),
            _ => {
                let caller = random.below(state.table.subjects);
                fill_caller(random, state, caller, MAX_CALLS_EACH.saturating_sub(short));
            }
        },
        _ => {}
    }
}

/// Brings every subject to its limit, one of them so many short of it; with at least so many
/// subjects.
fn fill_callers(random: &mut Random, state: &mut State, subjects: usize, short: usize) {
    state.table.subjects = state.table.subjects.max(subjects);
    let less = random.below(state.table.subjects);
    for caller in 0..state.table.subjects {
        let missing = if caller == less { short } else { 0 };
        fill_caller(random, state, caller, MAX_CALLS_EACH - missing);
    }
}

/// Brings a subject to so many calls, each like another that is there but for the caller, and put
/// anywhere among them. There is one.
pub fn fill_caller(random: &mut Random, state: &mut State, caller: usize, count: usize) {
    for _ in state.calls_of(caller)..count {
        let mut call = *random.pick(&state.calls);
        call.caller = caller;
        let at = random.below(state.calls.len() + 1);
        state.calls.insert(at, call);
    }
}

fn add_cell_and_call(random: &mut Random, state: &mut State) {
    let Some(place) = random.index(state.places.len()) else {
        return;
    };
    let Some(type_) = some_sheet_ref(random, &state.table) else {
        return;
    };
    let Some(caller) = may_call(random, state) else {
        return;
    };
    if state.cells.len() < MAX_CELLS {
        state.cells.push(Cell {
            holder: random.below(state.table.subjects),
            type_,
            place,
        });
        state.calls.push(Call {
            caller,
            cell: state.cells.len() - 1,
            method: random.below(state.table.methods),
            answered: false,
        });
    }
}
