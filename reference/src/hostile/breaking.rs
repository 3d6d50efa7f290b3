//! States broken so that they get 2 for a reason (H).

use crate::check::Reason;
use crate::random::Random;
use crate::raw::{RawState, RawTable, METHOD_BYTES};
use crate::state::{MAX_CALLS, MAX_CALLS_EACH, MAX_CELLS, MAX_PLACES};
use crate::table::{MAX_ARGUMENTS, MAX_CATEGORIES, MAX_METHODS, MAX_SUBJECTS, MAX_TYPES};

/// Breaks the rule behind a reason, where the state has what it needs for it.
/// Another reason may be met first.
pub fn break_one(random: &mut Random, raw: &mut RawState, reason: Reason) {
    let far = *random.pick(&[0, 1, 50, 171, u32::MAX / 2]);
    match reason {
        Reason::BroaderNeitherOneNorTwo | Reason::BroaderNotBelow => {
            break_broader(random, &mut raw.table, reason)
        }
        Reason::RepresentationCode
        | Reason::OwnCode
        | Reason::KindCode
        | Reason::CategoryAboveLast
        | Reason::LeftUnknown
        | Reason::RightUnknown => break_entry(random, &mut raw.table, reason),
        Reason::StateCode
        | Reason::TooManyArguments
        | Reason::OwnInSignature
        | Reason::DerivedInSheetSignature
        | Reason::ArgumentUnknown
        | Reason::AnswerUnknown => break_signature(random, &mut raw.table, reason),
        Reason::CellHolderUnknown
        | Reason::CellPlaceUnknown
        | Reason::CellTypeNotSheetRef
        | Reason::CallCallerUnknown
        | Reason::CallCellUnknown
        | Reason::CallMethodUnknown
        | Reason::AnsweredCode => break_cell_or_call(random, raw, reason),
        Reason::ObjectOwnerUnknown
        | Reason::ObjectClassNotSheetClass
        | Reason::AdapterTypeUnknown
        | Reason::AdapterTypeNotRef
        | Reason::AdapterNotAboveBehind
        | Reason::PlaceCode => break_place(random, raw, reason),
        Reason::TooManyCallsOfOne => call_too_often(random, raw),
        _ => break_count(random, raw, reason, far),
    }
}

/// Brings a count past its limits, by so much or by little.
fn break_count(random: &mut Random, raw: &mut RawState, reason: Reason, far: u32) {
    let table = &mut raw.table;
    match reason {
        Reason::SubjectsCount => table.subjects = *random.pick(&[0, 17, 17 + far]),
        Reason::MethodsCount => table.methods = *random.pick(&[0, 17, 17 + far]),
        Reason::CategoriesCount => table.categories = 32 + far,
        Reason::SheetTypesCount => table.sheet_types = *random.pick(&[0, 49, 49 + far]),
        Reason::TypesCount => {
            let fewer = table.sheet_types.saturating_sub(1);
            table.types = *random.pick(&[fewer, 0, 129, 300, 129 + far]);
        }
        Reason::CellsCount => raw.cells = 257 + far,
        Reason::PlacesCount => raw.places = 129 + far,
        _ => {
            if random.chance(50) {
                full_calls(random, raw);
            }
            raw.calls = *random.pick(&[513, 513 + far]);
        }
    }
}

/// Fills all records of calls as sixteen subjects can have made them, so that a count above them
/// stands alone. Their callers take turns, or come one behind the other.
pub fn full_calls(random: &mut Random, raw: &mut RawState) {
    if raw.cells == 0 || raw.table.methods == 0 {
        return;
    }
    raw.table.subjects = MAX_SUBJECTS as u32;
    raw.calls = MAX_CALLS as u32;
    let turns = random.chance(50);
    for number in 0..MAX_CALLS {
        let caller = if turns {
            number % MAX_SUBJECTS
        } else {
            number / MAX_CALLS_EACH
        };
        put_call(random, raw, number, caller);
    }
}

/// A right record of a call by a caller.
fn put_call(random: &mut Random, raw: &mut RawState, number: usize, caller: usize) {
    let cell = random.below((raw.cells as usize).min(MAX_CELLS)) as u8;
    let method = random.below((raw.table.methods as usize).min(MAX_METHODS)) as u8;
    let answered = u8::from(random.chance(30));
    raw.call_mut(number)
        .copy_from_slice(&[caller as u8, cell, method, answered]);
}

/// One call of a caller too many, or all; none of them answered, or some. Where records are
/// missing for it there are more of them.
fn call_too_often(random: &mut Random, raw: &mut RawState) {
    if raw.cells == 0 || raw.table.methods == 0 {
        return;
    }
    let Some(caller) = random.index((raw.table.subjects as usize).min(MAX_SUBJECTS)) else {
        return;
    };
    let calls = (raw.calls as usize).min(MAX_CALLS);
    let more = *random.pick(&[1, 1, 1, 2, 31, 32]);
    let wanted = MAX_CALLS_EACH + more;
    let of_caller = |raw: &RawState, number: &usize| usize::from(raw.call(*number)[0]) == caller;
    let mut missing = wanted.saturating_sub((0..calls).filter(|one| of_caller(raw, one)).count());
    // new records first, as long as there is room, and then others' records
    let new = missing.min(MAX_CALLS - calls);
    for number in calls..calls + new {
        put_call(random, raw, number, caller);
    }
    missing -= new;
    let others: Vec<usize> = (0..calls).filter(|one| !of_caller(raw, one)).collect();
    for number in others.into_iter().take(missing) {
        raw.call_mut(number)[0] = caller as u8;
    }
    raw.calls = (calls + new) as u32;
}

fn limited_index(random: &mut Random, count: u32, limit: usize) -> Option<usize> {
    random.index((count as usize).min(limit))
}

/// A byte at or above a count.
fn not_below(random: &mut Random, count: usize) -> u8 {
    let least = count.min(255);
    random
        .pick(&[least, least + random_step(least), 255])
        .to_owned()
        .min(255) as u8
}

fn random_step(least: usize) -> usize {
    (255 - least) / 2
}

fn break_broader(random: &mut Random, table: &mut RawTable, reason: Reason) {
    let Some(index) = limited_index(random, table.categories, MAX_CATEGORIES) else {
        return;
    };
    let category = index + 1;
    let at = category * 3;
    if reason == Reason::BroaderNeitherOneNorTwo {
        table.broader[at] = *random.pick(&[0, 3, 255]);
    } else {
        let slot = if table.broader[at] == 2 {
            1 + random.below(2)
        } else {
            1
        };
        table.broader[at + slot] = not_below(random, category);
    }
}

fn break_entry(random: &mut Random, table: &mut RawTable, reason: Reason) {
    let derived = matches!(
        reason,
        Reason::KindCode | Reason::LeftUnknown | Reason::RightUnknown
    );
    let first = if derived { table.sheet_types } else { 0 } as usize;
    let types = (table.types as usize).min(MAX_TYPES);
    if first >= types {
        return;
    }
    let number = random.within((first, types - 1));
    let categories = table.categories as usize;
    let (at, value) = match reason {
        Reason::RepresentationCode => (0, not_below(random, 3)),
        Reason::CategoryAboveLast => (1, not_below(random, categories + 1)),
        Reason::OwnCode => (2, not_below(random, 2)),
        Reason::KindCode => (3, not_below(random, 3)),
        Reason::LeftUnknown => (4, not_below(random, types)),
        _ => (5, not_below(random, types)),
    };
    table.entry_mut(number)[at] = value;
}

fn break_signature(random: &mut Random, table: &mut RawTable, reason: Reason) {
    let types = (table.types as usize).min(MAX_TYPES);
    let methods = (table.methods as usize).min(MAX_METHODS);
    let sheet_types = (table.sheet_types as usize).min(types);
    let refs: Vec<usize> = (0..types)
        .filter(|number| table.entry(*number)[0] == 0)
        .filter(|number| reason != Reason::DerivedInSheetSignature || *number < sheet_types)
        .collect();
    let owns: Vec<usize> = (0..types)
        .filter(|number| table.entry(*number)[0] == 0 && table.entry(*number)[2] == 1)
        .collect();
    let Some(number) = random.pick_some(&refs).copied() else {
        return;
    };
    let Some(method) = random.index(methods) else {
        return;
    };
    let own = random.pick_some(&owns).copied();
    let derived = (sheet_types < types).then(|| random.within((sheet_types, types - 1)));
    let bytes = table.method_mut(number, method);
    if reason != Reason::StateCode && bytes[0] != 1 && bytes[0] != 2 {
        bytes.copy_from_slice(&of_first_type(random));
    }
    match reason {
        Reason::StateCode => bytes[0] = not_below(random, 4),
        Reason::TooManyArguments => bytes[1] = not_below(random, MAX_ARGUMENTS + 1),
        Reason::ArgumentUnknown => {
            let slot = used_slot(random, bytes);
            bytes[slot] = not_below(random, types);
        }
        Reason::AnswerUnknown => bytes[6] = not_below(random, types + 1),
        Reason::OwnInSignature => name(random, bytes, own),
        _ => name(random, bytes, derived),
    }
}

/// A method that is avail, with one argument or more and an answer, all of type 0.
fn of_first_type(random: &mut Random) -> [u8; METHOD_BYTES] {
    let arguments = random.within((1, MAX_ARGUMENTS)) as u8;
    [2, arguments, 0, 0, 0, 0, 1]
}

/// Where an argument stands, of those counted; the first is counted if none is.
fn used_slot(random: &mut Random, bytes: &mut [u8]) -> usize {
    bytes[1] = bytes[1].clamp(1, MAX_ARGUMENTS as u8);
    2 + random.below(usize::from(bytes[1]))
}

/// Names a type in a signature, as an argument or as the answer.
fn name(random: &mut Random, bytes: &mut [u8], number: Option<usize>) {
    if let Some(number) = number {
        if random.chance(50) {
            bytes[6] = number as u8 + 1;
        } else {
            let slot = used_slot(random, bytes);
            bytes[slot] = number as u8;
        }
    }
}

fn break_cell_or_call(random: &mut Random, raw: &mut RawState, reason: Reason) {
    let subjects = raw.table.subjects as usize;
    let sheet_types = raw.table.sheet_types as usize;
    let numbers: Vec<u8> = (0..sheet_types.min(MAX_TYPES))
        .filter(|number| raw.table.entry(*number)[0] != 0)
        .map(|number| number as u8)
        .collect();
    let of_cell = matches!(
        reason,
        Reason::CellHolderUnknown | Reason::CellPlaceUnknown | Reason::CellTypeNotSheetRef
    );
    let (count, limit) = if of_cell {
        (raw.cells, MAX_CELLS)
    } else {
        (raw.calls, MAX_CALLS)
    };
    let Some(number) = limited_index(random, count, limit) else {
        return;
    };
    let not_sheet_ref = match random.pick_some(&numbers) {
        Some(number) if random.chance(50) => *number,
        _ => not_below(random, sheet_types),
    };
    let (cells, places) = (raw.cells as usize, raw.places as usize);
    let methods = raw.table.methods as usize;
    match reason {
        Reason::CellHolderUnknown => raw.cell_mut(number)[0] = not_below(random, subjects),
        Reason::CellTypeNotSheetRef => raw.cell_mut(number)[1] = not_sheet_ref,
        Reason::CellPlaceUnknown => raw.cell_mut(number)[2] = not_below(random, places),
        Reason::CallCallerUnknown => raw.call_mut(number)[0] = not_below(random, subjects),
        Reason::CallCellUnknown => raw.call_mut(number)[1] = not_below(random, cells),
        Reason::CallMethodUnknown => raw.call_mut(number)[2] = not_below(random, methods),
        _ => raw.call_mut(number)[3] = not_below(random, 2),
    }
}

fn break_place(random: &mut Random, raw: &mut RawState, reason: Reason) {
    let Some(number) = limited_index(random, raw.places, MAX_PLACES) else {
        return;
    };
    let types = (raw.table.types as usize).min(MAX_TYPES);
    let not_class: Vec<u8> = (0..types)
        .filter(|one| raw.table.entry(*one)[0] != 0 || raw.table.entry(*one)[2] == 1)
        .map(|one| one as u8)
        .chain([not_below(random, raw.table.sheet_types as usize)])
        .collect();
    let numbers: Vec<u8> = (0..types)
        .filter(|one| raw.table.entry(*one)[0] != 0)
        .map(|one| one as u8)
        .collect();
    let subjects = raw.table.subjects as usize;
    let number_type = random.pick_some(&numbers).copied();
    let place = raw.place_mut(number);
    match reason {
        Reason::ObjectOwnerUnknown if place[0] == 0 => place[2] = not_below(random, subjects),
        Reason::ObjectClassNotSheetClass if place[0] == 0 => place[1] = *random.pick(&not_class),
        Reason::AdapterTypeUnknown if number > 0 => {
            place.copy_from_slice(&[1, 0, not_below(random, types)])
        }
        Reason::AdapterTypeNotRef if number > 0 => {
            if let Some(one) = number_type {
                place.copy_from_slice(&[1, 0, one]);
            }
        }
        Reason::AdapterNotAboveBehind => {
            place[0] = 1;
            place[1] = not_below(random, number);
        }
        Reason::PlaceCode => place[0] = not_below(random, 2),
        _ => {}
    }
}
