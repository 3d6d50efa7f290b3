//! What a request met, read from outside: from the request, its result and the
//! state that it left. What was there before is still there (Q14, Q15), so that
//! the counts before tell what is new.

use crate::carrying::Value;
use crate::model::Model;
use crate::refusal::{
    Refusal, CALLS_FULL, LATER_LAYER, NOT_CALLABLE, NOT_HELD, TOO_WIDE, TYPES_FULL, UNRELATED,
    WRONG_VALUES,
};
use crate::relations::Relation;
use crate::requests::{index, Got, Request};
use crate::restriction::sub;
use crate::state::{Counts, Place, State, MAX_CALLS, MAX_CALLS_EACH};
use crate::table::{Representation, Signature, TypeNo, MAX_ARGUMENTS, MAX_TYPES};
use std::collections::BTreeSet;

/// Situations worth meeting.
#[derive(Clone, Copy, PartialEq, Eq, Debug, Hash, PartialOrd, Ord)]
pub enum Situation {
    PassedBySubtype,
    PassedByPlaceType,
    AdapterOnObject,
    AdapterBehindAdapter,
    UnwrappedBare,
    UnwrappedOne,
    UnwrappedSeveral,
    KeyReused,
    DerivedFlat,
    DerivedNested,
    CallThroughAdapter,
    ArgumentReference,
    ArgumentReferenceThroughAdapter,
    ArgumentReferenceWrapped,
    AnswerReference,
    AnswerReferenceThroughAdapter,
    AnswerReferenceWrapped,
    W32Lowest,
    W32Highest,
    W32BelowLowest,
    W32AboveHighest,
    /// 11 met while Sub(T,S) of a crossing is derived.
    TypesFullAtSub,
    /// 11 met while Closed(R,V) is derived.
    TypesFullAtClosed,
    /// 11 met after part of a derivation had taken its numbers.
    TypesFullInside,
    /// Four references, through two adapters or more.
    FourReferencesThroughSeveral,
    /// 11 met while the last argument that a signature can have crosses, the others having crossed.
    TypesFullAtLastArgument,
    /// A call accepted that is its caller's last but one, and one that is its last (Q9).
    LastCallButOne,
    LastCall,
    /// The last call of a caller accepted, with others of its calls refused before.
    LastCallBehindRefused,
    /// A call accepted of a subject that the common 256 of 01 would have left none.
    CallBehind256,
    /// The last call of the last of sixteen subjects accepted: 512 are there.
    LastCallOfAll,
    /// 18 met while another subject may call, and while none may.
    CallsFullForOne,
    CallsFullForAll,
    /// 18 met by a call with an argument that would have been refused too (C7 is before C10).
    CallsFullBeforeCrossing,
    /// 6, 14 or 15 met by a call of a subject that may make none (C2 to C5 are before C7).
    RefusedBeforeCallsFull,
    /// A call of a subject accepted after another met 18.
    CallAfterAnothers18,
    LayerWithoutValue,
    LayerNumberForReference,
    LayerReferenceForNumber,
    /// A call accepted though a layer has more arguments than the cell's type (C16).
    LayerWithMoreArguments,
    /// A call with more arguments than any signature has (C4).
    MoreArgumentsThanAny,
    /// 18 met though the caller holds the cells of fewer than 32 of the calls.
    CallsFullThroughOthersCells,
    /// A call accepted though 32 or more went through cells that the caller holds.
    CallBehindOthersCalls,
}

/// Every situation a loaded sheet can meet.
pub const OF_SHEETS: [Situation; 36] = [
    Situation::PassedBySubtype,
    Situation::PassedByPlaceType,
    Situation::AdapterOnObject,
    Situation::AdapterBehindAdapter,
    Situation::UnwrappedBare,
    Situation::UnwrappedOne,
    Situation::UnwrappedSeveral,
    Situation::KeyReused,
    Situation::DerivedFlat,
    Situation::DerivedNested,
    Situation::CallThroughAdapter,
    Situation::ArgumentReference,
    Situation::ArgumentReferenceThroughAdapter,
    Situation::ArgumentReferenceWrapped,
    Situation::AnswerReference,
    Situation::AnswerReferenceThroughAdapter,
    Situation::AnswerReferenceWrapped,
    Situation::W32Lowest,
    Situation::W32Highest,
    Situation::W32BelowLowest,
    Situation::W32AboveHighest,
    Situation::TypesFullAtSub,
    Situation::TypesFullAtClosed,
    Situation::TypesFullInside,
    Situation::FourReferencesThroughSeveral,
    Situation::TypesFullAtLastArgument,
    Situation::LastCallButOne,
    Situation::LastCall,
    Situation::LastCallBehindRefused,
    Situation::CallBehind256,
    Situation::LastCallOfAll,
    Situation::CallsFullForOne,
    Situation::CallsFullForAll,
    Situation::CallsFullBeforeCrossing,
    Situation::RefusedBeforeCallsFull,
    Situation::CallAfterAnothers18,
];

/// The situations of handed-in states alone.
pub const OF_HANDED_IN: [Situation; 7] = [
    Situation::LayerWithoutValue,
    Situation::LayerNumberForReference,
    Situation::LayerReferenceForNumber,
    Situation::LayerWithMoreArguments,
    Situation::MoreArgumentsThanAny,
    Situation::CallsFullThroughOthersCells,
    Situation::CallBehindOthersCalls,
];

/// The situations of calls that are counted, which requests on handed-in states have to meet too.
pub const OF_CALL_COUNTS: [Situation; 9] = [
    Situation::LastCallButOne,
    Situation::LastCall,
    Situation::CallBehind256,
    Situation::LastCallOfAll,
    Situation::CallsFullForOne,
    Situation::CallsFullForAll,
    Situation::CallsFullBeforeCrossing,
    Situation::RefusedBeforeCallsFull,
    Situation::CallAfterAnothers18,
];

/// The situations that a request met.
pub fn met(
    model: &Model,
    before: Counts,
    request: &Request,
    result: Result<Got, Refusal>,
) -> Vec<Situation> {
    let state = &model.state;
    let mut met = Vec::new();
    match result {
        Ok(got) => {
            met.extend(new_adapters(state, before));
            met.extend(new_types(state, before));
            met.extend(passages(model, before, request, got));
            met.extend(references(state, before, request, got));
            met.extend(ends_of_w32(state, request));
            met.extend(long_signatures(state, request, got));
        }
        Err(TYPES_FULL) => {
            met.extend(types_full(state, request));
            let last = refused_at(model, request) == Some(MAX_ARGUMENTS - 1);
            met.extend(last.then_some(Situation::TypesFullAtLastArgument));
        }
        Err(WRONG_VALUES) => met.extend(too_many(request)),
        Err(TOO_WIDE) => met.extend(beyond_w32(state, request)),
        Err(number) => met.extend(unfit_layer(state, request, number)),
    }
    met.extend(counted_calls(model, request, result));
    met
}

/// What a call met of its caller's count and of the others' (Q9, C7).
fn counted_calls(model: &Model, request: &Request, result: Result<Got, Refusal>) -> Vec<Situation> {
    let state = &model.state;
    let caller = match request {
        Request::Call { subject, .. } => index(*subject, state.table.subjects),
        _ => None,
    };
    let Some(caller) = caller else {
        return Vec::new();
    };
    let made = state.calls_of(caller);
    let full = made == MAX_CALLS_EACH;
    // with the call that was accepted
    let through = state.calls.iter().map(|call| state.cells[call.cell].holder);
    let through = through.filter(|holder| *holder == caller).count();
    let mut others = (0..state.table.subjects).filter(|other| *other != caller);
    let met = match result {
        Ok(_) => vec![
            (Situation::LastCallButOne, made + 1 == MAX_CALLS_EACH),
            (Situation::LastCall, full),
            (Situation::CallBehind256, state.calls.len() > 256),
            (Situation::LastCallOfAll, state.calls.len() == MAX_CALLS),
            (Situation::CallBehindOthersCalls, through > MAX_CALLS_EACH),
        ],
        Err(CALLS_FULL) => {
            let free = others.any(|other| state.calls_of(other) < MAX_CALLS_EACH);
            vec![
                (Situation::CallsFullForOne, free),
                (Situation::CallsFullForAll, state.calls.len() == MAX_CALLS),
                (
                    Situation::CallsFullBeforeCrossing,
                    fails_on_its_way(model, request),
                ),
                (
                    Situation::CallsFullThroughOthersCells,
                    through < MAX_CALLS_EACH,
                ),
            ]
        }
        Err(NOT_HELD | NOT_CALLABLE | WRONG_VALUES) => {
            vec![(Situation::RefusedBeforeCallsFull, full)]
        }
        Err(_) => Vec::new(),
    };
    met.into_iter()
        .filter_map(|(name, met)| met.then_some(name))
        .collect()
}

/// Whether a call that got 18 has an argument that does not arrive.
fn fails_on_its_way(model: &Model, request: &Request) -> bool {
    let Some(looked_up) = looked_up(model, request) else {
        return false;
    };
    let values: Option<Vec<Value>> = looked_up.values.into_iter().collect();
    values.is_some_and(|values| {
        let mut model = model.clone();
        model
            .send(looked_up.cell, looked_up.method, &values)
            .is_err()
    })
}

/// What subjects met before a request, which no state tells.
#[derive(Clone, Debug, Default)]
pub struct Past {
    /// The subjects that had a call refused, and those that had one refused with 18.
    refused: BTreeSet<i64>,
    full: BTreeSet<i64>,
}

impl Past {
    /// What a call met that goes by the requests before it. It is one of them from here on.
    pub fn met(
        &mut self,
        state: &State,
        request: &Request,
        result: Result<Got, Refusal>,
    ) -> Vec<Situation> {
        let Request::Call { subject, .. } = request else {
            return Vec::new();
        };
        match result {
            Ok(_) => {
                let last = state.calls_of(*subject as usize) == MAX_CALLS_EACH;
                let met = [
                    (
                        Situation::LastCallBehindRefused,
                        last && self.refused.contains(subject),
                    ),
                    (
                        Situation::CallAfterAnothers18,
                        self.full.iter().any(|other| other != subject),
                    ),
                ];
                met.into_iter()
                    .filter_map(|(name, met)| met.then_some(name))
                    .collect()
            }
            Err(number) => {
                self.refused.insert(*subject);
                if number == CALLS_FULL {
                    self.full.insert(*subject);
                }
                Vec::new()
            }
        }
    }
}

/// The new adapters, by what is behind them, and whether their types were known.
fn new_adapters(state: &State, before: Counts) -> Vec<Situation> {
    let mut met = Vec::new();
    for place in &state.places[before.places..] {
        if let Place::Adapter { behind, closed } = *place {
            met.push(match state.places[behind] {
                Place::Object { .. } => Situation::AdapterOnObject,
                Place::Adapter { .. } => Situation::AdapterBehindAdapter,
            });
            if closed < before.types {
                met.push(Situation::KeyReused);
            }
        }
    }
    met
}

/// The new types: those that neither name nor are named by another new one,
/// and those that name one.
fn new_types(state: &State, before: Counts) -> Vec<Situation> {
    let types = &state.table.types;
    let names = |one: usize, other: usize| {
        let mut signatures = types[one].methods.iter().filter_map(|one| one.signature());
        one != other && signatures.any(|signature| signature.named().any(|named| named == other))
    };
    let new = before.types..types.len();
    let of_type = |one: usize| {
        if new.clone().any(|other| names(one, other)) {
            return Some(Situation::DerivedNested);
        }
        let named = new.clone().any(|other| names(other, one));
        (!named).then_some(Situation::DerivedFlat)
    };
    new.clone().filter_map(of_type).collect()
}

/// Source and target of the crossing of a new or a move whose operands are right.
fn crossed(state: &State, request: &Request) -> Option<(TypeNo, TypeNo)> {
    let named = |number: i64| index(number, state.table.sheet_types);
    match request {
        Request::New { class, type_, .. } => Some((named(*class)?, named(*type_)?)),
        Request::Move { cell, type_, .. } => {
            let cell = index(*cell, state.cells.len())?;
            Some((state.cells[cell].type_, named(*type_)?))
        }
        _ => None,
    }
}

/// How the reference of an accepted new or move got where it leads to.
fn passages(model: &Model, before: Counts, request: &Request, got: Got) -> Vec<Situation> {
    let state = &model.state;
    let (Some((s, t)), Got::Cell { place, .. }) = (crossed(state, request), got) else {
        return Vec::new();
    };
    let mut from = match request {
        Request::Move { cell, .. } => state.cells[*cell as usize].place,
        _ => before.places,
    };
    let mut met = Vec::new();
    let own = state.table.types[t].own;
    if own {
        let (adapters, base) = state.stack(from);
        from = base;
        met.push(match adapters.len() {
            0 => Situation::UnwrappedBare,
            1 => Situation::UnwrappedOne,
            _ => Situation::UnwrappedSeveral,
        });
    }
    if !own && model.holds(Relation::Subtype, t, s) {
        met.push(Situation::PassedBySubtype);
    } else if place == from {
        met.push(Situation::PassedByPlaceType);
    }
    met
}

/// Whether an accepted call went through adapters, and the references that a
/// call or an answer carried.
fn references(state: &State, before: Counts, request: &Request, got: Got) -> Vec<Situation> {
    let (adapters, of_call, names) = match (request, got) {
        (Request::Call { .. }, Got::Call { adapters, .. }) => (
            adapters,
            true,
            [
                Situation::ArgumentReference,
                Situation::ArgumentReferenceThroughAdapter,
                Situation::ArgumentReferenceWrapped,
            ],
        ),
        (Request::Answer { call, .. }, Got::Cell { .. }) => (
            state.layers(state.calls[*call as usize].cell).len() - 2,
            false,
            [
                Situation::AnswerReference,
                Situation::AnswerReferenceThroughAdapter,
                Situation::AnswerReferenceWrapped,
            ],
        ),
        _ => return Vec::new(),
    };
    let carried = state.cells.len() > before.cells;
    let wrapped = state.places.len() > before.places;
    let of_names = [carried, carried && adapters > 0, carried && wrapped];
    let called = (Situation::CallThroughAdapter, of_call && adapters > 0);
    let all = names.into_iter().zip(of_names).chain([called]);
    all.filter_map(|(name, met)| met.then_some(name)).collect()
}

/// What an accepted call met of signatures as long as they can be, and of longer layers.
fn long_signatures(state: &State, request: &Request, got: Got) -> Vec<Situation> {
    let Got::Call { adapters, .. } = got else {
        return Vec::new();
    };
    let all = carried(state, request).unwrap_or_default();
    let four = all.len() == MAX_ARGUMENTS && all.iter().all(|one| one.reference);
    let longer = |layer: TypeNo, method: usize| {
        let signature = state.table.types[layer].permits(method);
        signature.is_some_and(|signature| signature.arguments.len() > all.len())
    };
    let more = match request {
        Request::Call { cell, method, .. } => {
            let mut layers = state.layers(*cell as usize).into_iter();
            !all.is_empty() && layers.any(|layer| longer(layer, *method as usize))
        }
        _ => false,
    };
    let met = [
        (
            Situation::FourReferencesThroughSeveral,
            four && adapters > 1,
        ),
        (Situation::LayerWithMoreArguments, more),
    ];
    met.into_iter()
        .filter_map(|(name, met)| met.then_some(name))
        .collect()
}

fn too_many(request: &Request) -> Option<Situation> {
    let longer =
        matches!(request, Request::Call { arguments, .. } if arguments.len() > MAX_ARGUMENTS);
    longer.then_some(Situation::MoreArgumentsThanAny)
}

/// A call that passes C1 to C4.
struct LookedUp {
    caller: usize,
    cell: usize,
    method: usize,
    /// Its arguments; none where a cell is not held (C5).
    values: Vec<Option<Value>>,
}

/// A call that passes C1 to C4, looked up once more.
fn looked_up(model: &Model, request: &Request) -> Option<LookedUp> {
    let Request::Call {
        subject,
        cell,
        method,
        arguments,
    } = request
    else {
        return None;
    };
    let caller = index(*subject, model.state.table.subjects)?;
    let cell = model.held_cell(caller, *cell)?;
    let (method, signature) = model.avail_method(cell, *method).ok()?;
    if arguments.len() != signature.arguments.len() {
        return None;
    }
    let operands = arguments.iter().zip(&signature.arguments);
    let values = operands.map(|(operand, named)| model.value(caller, *operand, *named).ok());
    Some(LookedUp {
        caller,
        cell,
        method,
        values: values.collect(),
    })
}

/// The position of the argument that a call was refused by, if it was by one: the first whose
/// cell is not held (C5), or the first that does not arrive when those up to it are sent once more.
pub fn refused_at(model: &Model, request: &Request) -> Option<usize> {
    let LookedUp {
        caller,
        cell,
        method,
        values,
    } = looked_up(model, request)?;
    if let Some(position) = values.iter().position(Option::is_none) {
        return Some(position);
    }
    let values: Vec<Value> = values.into_iter().flatten().collect();
    model.may_call(caller).ok()?;
    let arrive = |count: &usize| model.clone().send(cell, method, &values[..*count]).is_ok();
    (1..=values.len())
        .find(|count| !arrive(count))
        .map(|count| count - 1)
}

/// An operand of a call or an answer, and of each layer, in the order that they
/// are passed, the type that it has for it.
struct Carried {
    operand: i64,
    layers: Vec<Option<TypeNo>>,
    /// Whether the cell's type has a ref type for it.
    reference: bool,
}

impl Carried {
    fn of(
        state: &State,
        layers: &[TypeNo],
        method: usize,
        operand: i64,
        named: impl Fn(&Signature) -> Option<TypeNo>,
    ) -> Carried {
        let of_layer = |layer: &TypeNo| state.table.types[*layer].permits(method).and_then(&named);
        let of_layers: Vec<Option<TypeNo>> = layers.iter().map(of_layer).collect();
        Carried {
            operand,
            reference: of_layers[0].is_some_and(|one| state.table.types[one].is_ref()),
            layers: of_layers,
        }
    }
}

/// What a call or an answer carries, where its operands are right.
fn carried(state: &State, request: &Request) -> Option<Vec<Carried>> {
    match request {
        Request::Call {
            cell,
            method,
            arguments,
            ..
        } => {
            let layers = state.layers(index(*cell, state.cells.len())?);
            let method = index(*method, state.table.methods)?;
            let all = arguments.iter().enumerate().map(|(position, operand)| {
                Carried::of(state, &layers, method, *operand, |signature| {
                    signature.arguments.get(position).copied()
                })
            });
            Some(all.collect())
        }
        Request::Answer {
            call,
            value: Some(value),
            ..
        } => {
            let call = state.calls[index(*call, state.calls.len())?];
            let layers = state.layers(call.cell);
            let answer = |signature: &Signature| signature.answer;
            let mut one = Carried::of(state, &layers, call.method, *value, answer);
            one.layers.reverse();
            Some(vec![one])
        }
        _ => None,
    }
}

const LOWEST: i64 = i32::MIN as i64;
const HIGHEST: i64 = i32::MAX as i64;

/// The numbers of a call or an answer that meet w32 at a layer.
fn at_w32(state: &State, request: &Request) -> Vec<i64> {
    let is_w32 = |one: &TypeNo| state.table.types[*one].representation == Representation::W32;
    let all = carried(state, request).unwrap_or_default().into_iter();
    let meet = all.filter(|one| !one.reference && one.layers.iter().flatten().any(is_w32));
    meet.map(|one| one.operand).collect()
}

/// The least and the greatest number that passed w32.
fn ends_of_w32(state: &State, request: &Request) -> Vec<Situation> {
    let of_number = |number: &i64| match *number {
        LOWEST => Some(Situation::W32Lowest),
        HIGHEST => Some(Situation::W32Highest),
        _ => None,
    };
    let numbers = at_w32(state, request);
    numbers.iter().filter_map(of_number).collect()
}

/// A refusal with 16 is by the first number that does not fit.
fn beyond_w32(state: &State, request: &Request) -> Option<Situation> {
    let mut numbers = at_w32(state, request).into_iter();
    match numbers.find(|one| i32::try_from(*one).is_err())? {
        number if number == LOWEST - 1 => Some(Situation::W32BelowLowest),
        number if number == HIGHEST + 1 => Some(Situation::W32AboveHighest),
        _ => None,
    }
}

/// Where a new or a move met 11: its first derivation is asked for once more.
fn types_full(state: &State, request: &Request) -> Vec<Situation> {
    let Some((s, t)) = crossed(state, request) else {
        return Vec::new();
    };
    let mut table = state.table.clone();
    let mut free = MAX_TYPES - table.types.len();
    let mut at = Situation::TypesFullAtSub;
    if table.types[t].own || sub(&mut table, t, s).is_ok() {
        free = MAX_TYPES - table.types.len();
        at = Situation::TypesFullAtClosed;
    }
    let inside = (free > 0).then_some(Situation::TypesFullInside);
    [at].into_iter().chain(inside).collect()
}

/// The unfit layer that a refusal of a call or an answer must be by: numbers
/// are refused so by nothing else; a reference may be refused by a crossing
/// before, unless the layer is the first that can give the number.
fn unfit_layer(state: &State, request: &Request, number: Refusal) -> Option<Situation> {
    let first = match number {
        UNRELATED => 0,
        LATER_LAYER => 1,
        _ => return None,
    };
    for one in carried(state, request)? {
        let unfit = |layer: &Option<TypeNo>| unfit(state, one.reference, *layer);
        let at = one.layers.iter().position(|layer| unfit(layer).is_some());
        match at {
            Some(at) if !one.reference || at == first => return unfit(&one.layers[at]),
            None if !one.reference => {}
            _ => return None,
        }
    }
    None
}

/// How a layer is unfit for a value (C15).
fn unfit(state: &State, reference: bool, layer: Option<TypeNo>) -> Option<Situation> {
    let Some(named) = layer else {
        return Some(Situation::LayerWithoutValue);
    };
    match (reference, state.table.types[named].is_ref()) {
        (true, false) => Some(Situation::LayerNumberForReference),
        (false, true) => Some(Situation::LayerReferenceForNumber),
        _ => None,
    }
}
