//! Generated requests, chosen with a model running along.

use super::plans::{Goal, Plan};
use crate::model::Model;
use crate::random::Random;
use crate::relations::Relation;
use crate::requests::Request;
use crate::state::{Call, State, MAX_CALLS_EACH, MAX_CELLS};
use crate::table::{Table, TypeNo, MAX_ARGUMENTS};

/// A list of requests, the model that they lead to, and whether they met what
/// the plan wants full.
pub struct Listed {
    pub requests: Vec<Request>,
    pub model: Model,
    pub reached: bool,
}

/// A list of requests by a plan. A refused request changes nothing, so that it
/// may be kept or left out.
pub fn requests(random: &mut Random, plan: &Plan, table: Table) -> Listed {
    let mut model = Model::new(State::of_sheet(table));
    let mut wanted = random.within(plan.requests);
    let mut refusals = plan.refusals;
    let mut reached = plan.goal.is_none();
    let mut requests = Vec::new();
    let weights = plan.weights;
    let mut plan = plan.clone();
    for _ in 0..wanted * 4 {
        if requests.len() >= wanted {
            break;
        }
        // more calls, so that one of them meets it full and not with its first argument
        let near = |goal: Goal| goal.is_near(&model.state);
        let more = if plan.goal.is_some_and(near) { 60 } else { 0 };
        plan.weights[2] = weights[2] + more;
        let request = request(random, &plan, &model);
        let result = model.request(&request);
        if result.is_ok() || random.chance(refusals) {
            requests.push(request);
        }
        let is_met = |goal: Goal| goal.is_met(result, &model.state);
        if !reached && plan.goal.is_some_and(is_met) {
            // Some requests more, refused ones too, and the list ends.
            reached = true;
            refusals = 60;
            wanted = requests.len() + 40;
        }
    }
    Listed {
        requests,
        model,
        reached,
    }
}

/// One request that has a fair chance in this state.
pub fn request(random: &mut Random, plan: &Plan, model: &Model) -> Request {
    let state = &model.state;
    let mut weights = plan.weights;
    if state.cells.is_empty() {
        weights[1] = 1;
        weights[2] = 1;
        weights[0] += 20;
    }
    if state.calls.is_empty() {
        weights[3] = 1;
    }
    let request = match random.weighted(&weights) {
        0 => new_request(random, model),
        1 => move_request(random, plan, model),
        2 if plan.goal == Some(Goal::AllCalls) => call_by_turns(random, plan, model),
        2 => call_request(random, plan, model),
        3 => answer_request(random, model),
        _ => None,
    };
    request.unwrap_or_else(|| any_request(random, state))
}

fn new_request(random: &mut Random, model: &Model) -> Option<Request> {
    let table = &model.state.table;
    let classes: Vec<TypeNo> = (0..table.sheet_types)
        .filter(|number| table.is_sheet_class(*number))
        .collect();
    let class = *random.pick_some(&classes)?;
    let type_ = if random.chance(30) {
        class
    } else {
        target(random, model, class, 35)?
    };
    Some(Request::New {
        subject: number(random.below(table.subjects)),
        class: number(class),
        type_: number(type_),
    })
}

/// A sheet ref type to cross to. Often one that the type crossed from comes to
/// by an adapter or not at all, rather than by passing.
fn target(random: &mut Random, model: &Model, from: TypeNo, own: usize) -> Option<TypeNo> {
    let table = &model.state.table;
    let own = random.chance(own);
    let all: Vec<TypeNo> = (0..table.sheet_types)
        .filter(|number| table.is_sheet_ref(*number))
        .collect();
    let some: Vec<TypeNo> = all
        .iter()
        .copied()
        .filter(|number| table.types[*number].own == own)
        .collect();
    let holds = |relation, t: TypeNo| model.holds(relation, t, from);
    let worth: Vec<TypeNo> = some
        .iter()
        .copied()
        .filter(|t| holds(Relation::Loose, *t) && (own || !holds(Relation::Subtype, *t)))
        .collect();
    let lists: [&[TypeNo]; 3] = [&worth, &some, &all];
    let first = if random.chance(65) { 0 } else { 1 };
    lists[first..]
        .iter()
        .find_map(|list| random.pick_some(list))
        .copied()
}

fn move_request(random: &mut Random, plan: &Plan, model: &Model) -> Option<Request> {
    let state = &model.state;
    let cell = deep(random, state)?;
    let from = state.cells[cell];
    let type_ = target(random, model, from.type_, plan.own)?;
    let receiver = if state.table.types[type_].own && random.chance(80) {
        state.owner(from.place)
    } else {
        random.below(state.table.subjects)
    };
    Some(Request::Move {
        subject: number(from.holder),
        cell: number(cell),
        receiver: number(receiver),
        type_: number(type_),
    })
}

/// An index below a count, a late one rather often.
fn recent(random: &mut Random, count: usize) -> Option<usize> {
    if count == 0 {
        None
    } else if random.chance(50) {
        Some(count - 1 - random.below(count.min(4)))
    } else {
        Some(random.below(count))
    }
}

/// A cell, often the one of three with the most adapters behind it.
fn deep(random: &mut Random, state: &State) -> Option<usize> {
    let first = recent(random, state.cells.len())?;
    if random.chance(50) {
        return Some(first);
    }
    let second = recent(random, state.cells.len())?;
    let third = recent(random, state.cells.len())?;
    [first, second, third]
        .into_iter()
        .max_by_key(|cell| state.stack(state.cells[*cell].place).0.len())
}

/// A cell to call through, seldom one of a subject that may make no more calls (Q9), unless calls
/// are to be full.
fn called(random: &mut Random, plan: &Plan, state: &State) -> Option<usize> {
    let cell = deep(random, state)?;
    let may = |cell: usize| state.calls_of(state.cells[cell].holder) < MAX_CALLS_EACH;
    let calls = matches!(plan.goal, Some(Goal::Calls | Goal::AllCalls));
    if calls || may(cell) || random.chance(20) {
        return Some(cell);
    }
    let others: Vec<usize> = (0..state.cells.len()).filter(|cell| may(*cell)).collect();
    random.pick_some(&others).copied().or(Some(cell))
}

fn call_request(random: &mut Random, plan: &Plan, model: &Model) -> Option<Request> {
    let state = &model.state;
    let cell = called(random, plan, state)?;
    let holder = state.cells[cell].holder;
    let type_ = &state.table.types[state.cells[cell].type_];
    let avail: Vec<usize> = (0..state.table.methods)
        .filter(|method| type_.methods[*method].is_avail())
        .collect();
    let length = |method: &usize| type_.permits(*method).map(|one| one.arguments.len());
    let two = [*random.pick_some(&avail)?, *random.pick(&avail)];
    let method = two.into_iter().max_by_key(length)?;
    let signature = type_.permits(method)?;
    let arguments = arguments(random, model, holder, &signature.arguments);
    Some(Request::Call {
        subject: number(holder),
        cell: number(cell),
        method: number(method),
        arguments,
    })
}

/// A call by a subject that may make one more (Q9), if any may, and mostly one that is sure.
fn call_by_turns(random: &mut Random, plan: &Plan, model: &Model) -> Option<Request> {
    let state = &model.state;
    let may: Vec<usize> = (0..state.table.subjects)
        .filter(|caller| state.calls_of(*caller) < MAX_CALLS_EACH)
        .collect();
    match random.pick_some(&may) {
        Some(caller) if random.chance(95) => sure_call(random, model, *caller),
        _ => call_request(random, plan, model),
    }
}

/// A call by a subject that meets no refusal but 18 where cells and the like are free: of a method
/// whose arguments pass as they are, mostly one with few references, at times with many while
/// there is room for them. If it holds no cell for it, the request that gets it one.
pub fn sure_call(random: &mut Random, model: &Model, caller: usize) -> Option<Request> {
    let state = &model.state;
    let held = (0..state.cells.len()).filter(|cell| state.cells[*cell].holder == caller);
    let mut calls = Vec::new();
    for cell in held {
        let type_ = state.cells[cell].type_;
        for method in 0..state.table.methods {
            calls.extend(easy_call(random, model, cell, method).map(|call| {
                let references = references(state, type_, method);
                (references, call)
            }));
        }
    }
    let references = calls.iter().map(|(references, _)| *references);
    let many = random.chance(30) && state.cells.len() < MAX_CELLS - MAX_CELLS / 4;
    let wanted = if many {
        references.max()
    } else {
        references.min()
    };
    calls.retain(|(references, _)| Some(*references) == wanted);
    match random.pick_some(&calls) {
        Some((_, call)) => Some(call.clone()),
        None => new_for(random, model, caller),
    }
}

/// A call of a method that is avail in the type of a cell, by its holder, where there are values
/// that pass the types of its arguments as they are.
fn easy_call(random: &mut Random, model: &Model, cell: usize, method: usize) -> Option<Request> {
    let from = model.state.cells[cell];
    let type_ = &model.state.table.types[from.type_];
    let signature = type_.permits(method)?;
    let values = signature.arguments.iter();
    let arguments: Option<Vec<i64>> = values
        .map(|named| easy_value(random, model, from.holder, *named))
        .collect();
    type_.state(method).is_avail().then_some(Request::Call {
        subject: number(from.holder),
        cell: number(cell),
        method: number(method),
        arguments: arguments?,
    })
}

/// How many arguments of a type's method are references.
fn references(state: &State, type_: TypeNo, method: usize) -> usize {
    let types = &state.table.types;
    let signature = types[type_].permits(method);
    let arguments = signature.into_iter().flat_map(|one| &one.arguments);
    arguments.filter(|named| types[**named].is_ref()).count()
}

/// A new object for a subject, seen by its class, of a class that has a method to call.
fn new_for(random: &mut Random, model: &Model, subject: usize) -> Option<Request> {
    let table = &model.state.table;
    let can = |class: &TypeNo| {
        let mut methods = table.types[*class].methods.iter();
        table.is_sheet_class(*class) && methods.any(|state| state.is_avail())
    };
    let classes: Vec<TypeNo> = (0..table.sheet_types).filter(can).collect();
    let class = number(*random.pick_some(&classes)?);
    Some(Request::New {
        subject: number(subject),
        class,
        type_: class,
    })
}

/// Values for the types of a signature. Mostly those in front of one of them arrive, so that each
/// position is met; rarely one value is missing.
fn arguments(random: &mut Random, model: &Model, holder: usize, named: &[TypeNo]) -> Vec<i64> {
    let at = random.below(named.len() * 3 / 2 + 1);
    let easy_before = random.chance(80);
    let mut arguments = Vec::new();
    for (position, named) in named.iter().enumerate() {
        let easy = if easy_before && position != at {
            easy_value(random, model, holder, *named)
        } else {
            None
        };
        arguments.push(easy.unwrap_or_else(|| value(random, model, holder, *named)));
    }
    if random.chance(4) {
        arguments.pop();
    }
    arguments
}

/// A value that passes a type as it is, if there is any: a small number, or a cell of the holder
/// whose type is a subtype.
fn easy_value(random: &mut Random, model: &Model, holder: usize, named: TypeNo) -> Option<i64> {
    let state = &model.state;
    if !state.table.types[named].is_ref() {
        return Some(1);
    }
    let passes = |cell: &usize| {
        let cell = state.cells[*cell];
        cell.holder == holder && model.holds(Relation::Subtype, named, cell.type_)
    };
    let cells: Vec<usize> = (0..state.cells.len()).filter(passes).collect();
    random.pick_some(&cells).map(|cell| number(*cell))
}

fn answer_request(random: &mut Random, model: &Model) -> Option<Request> {
    let state = &model.state;
    let open: Vec<usize> = (0..state.calls.len())
        .filter(|call| !state.calls[*call].answered)
        .collect();
    let call = if random.chance(8) {
        random.below(state.calls.len().max(1))
    } else {
        *random.pick_some(&open)?
    };
    let Call { cell, method, .. } = *state.calls.get(call)?;
    let cell = state.cells[cell];
    let owner = state.owner(cell.place);
    let due = state.table.types[cell.type_]
        .permits(method)
        .and_then(|signature| signature.answer);
    let mut value = due.map(|named| value(random, model, owner, named));
    if random.chance(4) {
        value = if value.is_some() { None } else { Some(0) };
    }
    Some(Request::Answer {
        subject: number(owner),
        call: number(call),
        value,
    })
}

/// A value for a type: a cell of the holder for a ref type, often one that
/// can cross to it, though not as it is.
fn value(random: &mut Random, model: &Model, holder: usize, named: TypeNo) -> i64 {
    let state = &model.state;
    if !state.table.types[named].is_ref() {
        return *random.pick(&NUMBERS);
    }
    let held: Vec<usize> = (0..state.cells.len())
        .filter(|cell| state.cells[*cell].holder == holder)
        .collect();
    let able: Vec<usize> = held
        .iter()
        .copied()
        .filter(|cell| {
            let from = state.cells[*cell].type_;
            model.holds(Relation::Loose, named, from)
        })
        .collect();
    let subtype = |cell: &usize| {
        let from = state.cells[*cell].type_;
        model.holds(Relation::Subtype, named, from)
    };
    let worth: Vec<usize> = able.iter().copied().filter(|one| !subtype(one)).collect();
    let list = match random.weighted(&[35, 40, 25]) {
        0 if !worth.is_empty() => worth,
        0 | 1 if !able.is_empty() => able,
        _ => held,
    };
    match recent(random, list.len()) {
        Some(index) if random.chance(96) => number(list[index]),
        _ => number(random.below(state.cells.len() + 2)) - 1,
    }
}

/// Numbers at and near the ends of the words.
const NUMBERS: [i64; 14] = [
    0,
    1,
    -1,
    42,
    2147483646,
    2147483647,
    2147483648,
    -2147483647,
    -2147483648,
    -2147483649,
    i64::MAX,
    i64::MIN,
    4294967296,
    255,
];

/// A request with operands in and just outside their ranges.
pub fn any_request(random: &mut Random, state: &State) -> Request {
    let table = &state.table;
    let subject = any_number(random, table.subjects);
    let cell = any_number(random, state.cells.len());
    let any_type = any_number(random, table.types.len());
    match random.below(4) {
        0 => Request::New {
            subject,
            class: any_number(random, table.sheet_types),
            type_: any_type,
        },
        1 => Request::Move {
            subject,
            cell,
            receiver: any_number(random, table.subjects),
            type_: any_type,
        },
        2 => Request::Call {
            subject,
            cell,
            method: any_number(random, table.methods),
            arguments: (0..random.below(MAX_ARGUMENTS + 1))
                .map(|_| any_number(random, state.cells.len()))
                .collect(),
        },
        _ => Request::Answer {
            subject,
            call: any_call(random, state.calls.len()),
            value: random
                .chance(60)
                .then(|| any_number(random, state.cells.len())),
        },
    }
}

/// Below the count mostly, else at its ends or far outside.
fn any_number(random: &mut Random, count: usize) -> i64 {
    if count > 0 && random.chance(85) {
        return number(random.below(count));
    }
    *random.pick(&[
        -1,
        number(count),
        number(count) + 1,
        i64::MIN,
        i64::MAX,
        0,
        256,
    ])
}

/// The same of calls: at most 512 there are of them (Q9), where it is 256 of cells.
fn any_call(random: &mut Random, count: usize) -> i64 {
    match any_number(random, count) {
        256 if count <= 256 => 512,
        call => call,
    }
}

fn number(index: usize) -> i64 {
    i64::try_from(index).expect("counts are small")
}
