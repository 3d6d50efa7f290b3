//! Smaller tables: each function offers some.

use super::parts::Parts;
use crate::requests::Request;
use crate::table::{MethodState, Type};

/// One type fewer: methods that name it become unavail, requests that name it
/// go with it.
pub fn types_dropped(parts: &Parts) -> Vec<Parts> {
    if parts.table.sheet_types == 1 {
        return Vec::new();
    }
    (0..parts.table.sheet_types)
        .rev()
        .map(|number| without_type(parts, number))
        .collect()
}

fn without_type(parts: &Parts, gone: usize) -> Parts {
    let mut parts = parts.clone();
    parts.table.types.remove(gone);
    parts.table.sheet_types -= 1;
    for one in &mut parts.table.types {
        for state in &mut one.methods {
            renumber_state(state, gone);
        }
    }
    for request in &mut parts.requests {
        match request {
            Request::New { class, type_, .. } => {
                renumber_type(class, gone);
                renumber_type(type_, gone);
            }
            Request::Move { type_, .. } => renumber_type(type_, gone),
            _ => {}
        }
    }
    parts
}

fn renumber_type(number: &mut i64, gone: usize) {
    if *number > gone as i64 {
        *number -= 1;
    }
}

fn renumber_state(state: &mut MethodState, gone: usize) {
    let names = state.signature().is_some_and(|signature| {
        signature.arguments.contains(&gone) || signature.answer == Some(gone)
    });
    if names {
        *state = MethodState::Unavail;
        return;
    }
    if let MethodState::Optional(signature) | MethodState::Avail(signature) = state {
        for one in signature.arguments.iter_mut().chain(&mut signature.answer) {
            if *one > gone {
                *one -= 1;
            }
        }
    }
}

/// One method fewer.
pub fn methods_dropped(parts: &Parts) -> Vec<Parts> {
    if parts.table.methods == 1 {
        return Vec::new();
    }
    (0..parts.table.methods)
        .rev()
        .map(|gone| {
            let mut parts = parts.clone();
            parts.table.methods -= 1;
            for one in parts.table.types.iter_mut().filter(|one| one.is_ref()) {
                one.methods.remove(gone);
            }
            for request in &mut parts.requests {
                if let Request::Call { method, .. } = request {
                    if *method > gone as i64 {
                        *method -= 1;
                    }
                }
            }
            parts
        })
        .collect()
}

/// The last category fewer, or all of them.
pub fn categories_dropped(parts: &Parts) -> Vec<Parts> {
    let count = parts.table.categories();
    [0, count.saturating_sub(1)]
        .into_iter()
        .filter(|left| *left < count)
        .map(|left| {
            let mut parts = parts.clone();
            parts.table.broader.truncate(left);
            for one in &mut parts.table.types {
                one.category = one.category.min(left);
            }
            parts
        })
        .collect()
}

/// One state with less in it, or one broader link fewer.
pub fn states_simpler(parts: &Parts) -> Vec<Parts> {
    let mut offers = Vec::new();
    for number in 0..parts.table.types.len() {
        for simpler in simpler_types(&parts.table.types[number]) {
            let mut offer = parts.clone();
            offer.table.types[number] = simpler;
            offers.push(offer);
        }
    }
    for index in 0..parts.table.categories() {
        let mut offer = parts.clone();
        offer.table.broader[index].second = None;
        offers.push(offer);
    }
    offers
}

fn simpler_types(one: &Type) -> Vec<Type> {
    let mut offers = Vec::new();
    for method in 0..one.methods.len() {
        for state in simpler_states(&one.methods[method]) {
            let mut offer = one.clone();
            offer.methods[method] = state;
            offers.push(offer);
        }
    }
    let mut offer = one.clone();
    offer.own = false;
    offers.push(offer);
    offers
}

fn simpler_states(state: &MethodState) -> Vec<MethodState> {
    let mut offers = vec![MethodState::Denied, MethodState::Unavail];
    if let Some(signature) = state.signature() {
        let rebuilt = |signature| match state {
            MethodState::Optional(_) => MethodState::Optional(signature),
            _ => MethodState::Avail(signature),
        };
        let mut without_answer = signature.clone();
        without_answer.answer = None;
        offers.push(rebuilt(without_answer));
        let mut without_arguments = signature.clone();
        without_arguments.arguments.pop();
        offers.push(rebuilt(without_arguments));
        offers.push(MethodState::Avail(signature.clone()));
    }
    offers
}

pub fn fewer_subjects(parts: &Parts) -> Vec<Parts> {
    let mut offers = Vec::new();
    if parts.table.subjects >= 10 {
        let mut offer = parts.clone();
        offer.table.subjects = 9;
        offers.push(offer);
    }
    offers
}
