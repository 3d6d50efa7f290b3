//! Where a request fails, and the words for it.

use crate::described::{methods, Described};
use crate::names::{Kind, Names};
use crate::reasons::{Reason, Says};
use crate::scripts::callers::all_made;
use crate::words::plural;
use pilgonca::raw::{MAX_CALLS_EACH, MAX_CELLS, MAX_PLACES, MAX_TYPES};
use pilgonca::{Refusal, Subject, Type};

/// Where a request fails.
#[derive(Clone, PartialEq, Eq, Debug)]
pub enum Why {
    Operand(Operand),
    Given(Given),
    Cross(Box<Cross>),
    Wide {
        number: i64,
    },
    /// More than is left would be needed; so many are used up.
    Full {
        what: Full,
        used: usize,
    },
    /// The caller has made as many calls as one may (C7); whether there are other subjects.
    CallsMade {
        caller: Subject,
        others: bool,
    },
    /// A value that fails on its way, and where.
    Passing {
        what: Value,
        layer: Layer,
        first: bool,
        why: Box<Why>,
    },
    /// The core said no, and no reason was found.
    Unexplained,
}

/// An operand that names nothing, or nothing that would do.
#[derive(Clone, PartialEq, Eq, Debug)]
pub enum Operand {
    NoSubject {
        number: i64,
        receiver: bool,
        count: usize,
    },
    NoCell {
        cell: i64,
        count: usize,
    },
    CellOf {
        cell: i64,
        holder: Subject,
    },
    NoCall {
        call: i64,
        count: usize,
    },
    CallFor {
        call: i64,
        owner: Subject,
    },
    Answered {
        call: i64,
    },
    NoType {
        number: i64,
        count: usize,
    },
    NumberType {
        number: i64,
    },
    NoClass {
        number: i64,
        because: NoClass,
    },
    NoMethod {
        number: i64,
        count: usize,
    },
    NotAvail {
        type_: Type,
        method: usize,
        says: Says,
    },
}

/// Arguments or an answer that are not what is due.
#[derive(Clone, PartialEq, Eq, Debug)]
pub enum Given {
    Count {
        type_: Type,
        method: usize,
        due: usize,
        given: usize,
    },
    NothingDue {
        type_: Type,
        method: usize,
    },
    AnswerDue {
        type_: Type,
        method: usize,
        due: Type,
    },
    /// What is given for a reference is no cell of the giver's.
    NoReference {
        what: Value,
        number: i64,
        due: Type,
        holder: Option<Subject>,
    },
}

/// A crossing that fails.
#[derive(Clone, PartialEq, Eq, Debug)]
pub enum Cross {
    /// X1.
    Types {
        from: Described,
        to: Described,
        reason: Reason,
    },
    /// X2.
    Owner {
        owner: Subject,
        receiver: Subject,
        to: Described,
    },
    /// X7.
    Lacks {
        leads_to: LeadsTo,
        to: Described,
        reason: Reason,
    },
    /// A layer that has no type for the value, or one of the other kind (C15): only a state handed in has such.
    Unfit,
}

/// What there are only so many of for all subjects together.
#[derive(Clone, Copy, PartialEq, Eq, Debug)]
pub enum Full {
    Types,
    Places,
    Cells,
}

/// Why a ref type is no class (T16).
#[derive(Clone, Copy, PartialEq, Eq, Debug)]
pub enum NoClass {
    Own,
    Says { method: usize, says: Says },
}

/// A value of a call or an answer.
#[derive(Clone, Copy, PartialEq, Eq, Debug)]
pub enum Value {
    /// From 0 on.
    Argument(usize),
    Answer,
}

/// One of the types that a value passes (C9).
#[derive(Clone, Copy, PartialEq, Eq, Debug)]
pub enum Layer {
    Cell { type_: Type },
    Adapter { place: usize },
    Class { class: Type },
}

/// A place, as a reason names it: without a number where the request itself would have made it.
#[derive(Clone, PartialEq, Eq, Debug)]
pub enum LeadsTo {
    Object {
        place: Option<usize>,
        class: Type,
    },
    Adapter {
        place: Option<usize>,
        permits: Vec<usize>,
    },
}

impl Why {
    /// The refusal that it comes to.
    pub fn refusal(&self) -> Refusal {
        match self {
            Why::Operand(operand) => operand.refusal(),
            Why::Given(_) => Refusal::WrongValues,
            Why::Cross(cross) => cross.refusal(),
            Why::Wide { .. } => Refusal::TooWide,
            Why::Full { what, .. } => what.limit().0,
            Why::CallsMade { .. } => Refusal::CallsFull,
            Why::Passing { first, why, .. } => match why.refusal() {
                // C13
                Refusal::Unrelated | Refusal::NotStrict if !first => Refusal::LaterLayer,
                own => own,
            },
            // which no request gets, so that it is never told
            Why::Unexplained => Refusal::Form,
        }
    }

    /// In words: one sentence, of which every part is true.
    pub fn words(&self, names: &Names) -> String {
        match self {
            Why::Operand(operand) => operand.words(names),
            Why::Given(given) => given.words(names),
            Why::Cross(cross) => cross.words(names),
            Why::Wide { number } => format!("{number} does not fit 32 bits"),
            Why::Full { what, used } => what.words(*used),
            Why::CallsMade { caller, others } => calls_made(*caller, *others, names),
            Why::Passing {
                what, layer, why, ..
            } => {
                let (what, layer) = (what.words(), layer.words(names));
                format!("{what}, at {layer}: {}", why.words(names))
            }
            Why::Unexplained => String::new(),
        }
    }
}

impl Operand {
    fn refusal(&self) -> Refusal {
        match self {
            Operand::NoSubject { .. } => Refusal::UnknownSubject,
            Operand::NoCell { .. } | Operand::CellOf { .. } => Refusal::NotHeld,
            Operand::NoCall { .. } | Operand::CallFor { .. } => Refusal::NotHeld,
            Operand::Answered { .. } => Refusal::AnsweredAlready,
            Operand::NoType { .. } | Operand::NumberType { .. } => Refusal::UnknownType,
            Operand::NoClass { .. } => Refusal::UnknownType,
            Operand::NoMethod { .. } | Operand::NotAvail { .. } => Refusal::NotCallable,
        }
    }

    fn words(&self, names: &Names) -> String {
        match self {
            Operand::NoSubject {
                number,
                receiver,
                count,
            } => {
                let what = if *receiver { "receiver" } else { "subject" };
                format!(
                    "there is no {what} {number}: {}",
                    numbers("subject", *count)
                )
            }
            Operand::NoCell { cell, count } => none_such("cell", *cell, *count),
            Operand::NoCall { call, count } => none_such("call", *call, *count),
            Operand::NoType { number, count } => {
                format!("there is no type {number}: {}", numbers("type", *count))
            }
            Operand::NoMethod { number, count } => {
                format!("there is no method {number}: {}", numbers("method", *count))
            }
            _ => self.unfit(names),
        }
    }

    /// Of something that is there.
    fn unfit(&self, names: &Names) -> String {
        match self {
            Operand::CellOf { cell, holder } => no_cell_of(*cell, Some(holder), names),
            Operand::CallFor { call, owner } => {
                format!("call {call} is for {} to answer", subject(owner, names))
            }
            Operand::Answered { call } => format!("call {call} is answered already"),
            Operand::NumberType { number } => {
                let type_ = type_(&Type(*number), names);
                format!("{type_} is a number type, and a ref type is due")
            }
            Operand::NoClass { number, because } => {
                let type_ = type_(&Type(*number), names);
                format!("{type_} is no class: {}", because.words(names))
            }
            Operand::NotAvail {
                type_: number,
                method: of,
                says,
            } => {
                let (type_, says, of) = (type_(number, names), says.word(), method(*of, names));
                format!("{type_} says {says} of {of}, and only avail can be called")
            }
            _ => String::new(),
        }
    }
}

impl NoClass {
    fn words(self, names: &Names) -> String {
        match self {
            NoClass::Own => "it has own".to_string(),
            NoClass::Says { method: of, says } => {
                format!("it says {} of {}", says.word(), method(of, names))
            }
        }
    }
}

impl Given {
    fn words(&self, names: &Names) -> String {
        match self {
            Given::Count {
                type_: number,
                method: of,
                due,
                given,
            } => {
                let (type_, of) = (type_(number, names), method(*of, names));
                let due = plural(*due, "argument");
                let given = if *given == 0 {
                    "none".to_string()
                } else {
                    given.to_string()
                };
                format!("{of} takes {due} in {type_}, and {given} came")
            }
            Given::NothingDue {
                type_: number,
                method: of,
            } => {
                let (type_, of) = (type_(number, names), method(*of, names));
                format!("{of} has no answer in {type_}, and one is given")
            }
            Given::AnswerDue {
                type_: number,
                method: of,
                due,
            } => {
                let ([due, number], of) = (
                    [due, number].map(|one| type_(one, names)),
                    method(*of, names),
                );
                format!("{of} has an answer of {due} in {number}, and none is given")
            }
            Given::NoReference {
                what,
                number,
                due,
                holder,
            } => {
                let cell = no_cell_of(*number, holder.as_ref(), names);
                let (what, due) = (what.words(), type_(due, names));
                format!("{what} is to be a reference ({due}), and {cell}")
            }
        }
    }
}

fn no_cell_of(number: i64, holder: Option<&Subject>, names: &Names) -> String {
    match holder {
        Some(holder) => format!("cell {number} is held by {}", subject(holder, names)),
        None => format!("there is no cell {number}"),
    }
}

impl Cross {
    fn refusal(&self) -> Refusal {
        match self {
            Cross::Types { .. } | Cross::Unfit => Refusal::Unrelated,
            Cross::Owner { .. } => Refusal::NotOwner,
            Cross::Lacks { .. } => Refusal::NotStrict,
        }
    }

    fn words(&self, names: &Names) -> String {
        match self {
            Cross::Types { from, to, reason } => {
                let (from, to) = (from.words(names), to.words(names));
                let reason = reason.words(names, [&to, &from]);
                format!("a reference of {from} cannot become {to}: {reason}")
            }
            Cross::Owner {
                owner,
                receiver,
                to,
            } => {
                let [owner, receiver] = [owner, receiver].map(|one| subject(one, names));
                let to = to.words(names);
                format!("{to} has own, and the receiver, {receiver}, does not own the object: {owner} does")
            }
            Cross::Lacks {
                leads_to,
                to,
                reason,
            } => {
                let (to, leads_to) = (to.words(names), leads_to.words(names));
                let reason = reason.words(names, [&to, &leads_to]);
                format!("what the reference leads to does not do for {to}: {reason}")
            }
            Cross::Unfit => "this layer has no such value".to_string(),
        }
    }
}

impl Full {
    /// The refusal, the word, and how many there are.
    fn limit(self) -> (Refusal, &'static str, usize) {
        match self {
            Full::Types => (Refusal::TypesFull, "types", MAX_TYPES),
            Full::Places => (Refusal::PlacesFull, "places", MAX_PLACES),
            Full::Cells => (Refusal::CellsFull, "cells", MAX_CELLS),
        }
    }

    fn words(self, used: usize) -> String {
        let (_, what, most) = self.limit();
        match used == most {
            true => format!("it needs another of the {most} {what}, and all are used up"),
            false => format!("it needs more {what} than are left: {used} of {most} are used up"),
        }
    }
}

/// The others may have made theirs too: how many each has left is told at the end of a run.
fn calls_made(caller: Subject, others: bool, names: &Names) -> String {
    let made = all_made(caller, names);
    match others {
        true => format!("{made}; every other subject has {MAX_CALLS_EACH} of its own"),
        false => made,
    }
}

fn subject(number: &Subject, names: &Names) -> String {
    names.words(Kind::Subject, number.0)
}

fn type_(number: &Type, names: &Names) -> String {
    names.words(Kind::Type, number.0)
}

fn method(number: usize, names: &Names) -> String {
    names.words(Kind::Method, number as i64)
}

/// The numbers that a sheet gives.
fn numbers(what: &str, count: usize) -> String {
    match count {
        1 => format!("the sheet has {what} 0 alone"),
        _ => format!("the sheet has {what}s 0 to {}", count - 1),
    }
}

fn none_such(what: &str, number: i64, count: usize) -> String {
    match count {
        0 => format!("there is no {what} {number}: none was made yet"),
        1 => format!("there is no {what} {number}: only {what} 0 was made yet"),
        _ => format!(
            "there is no {what} {number}: {what}s 0 to {} were made yet",
            count - 1
        ),
    }
}

impl Value {
    pub fn words(self) -> String {
        match self {
            Value::Argument(index) => format!("argument {}", index + 1),
            Value::Answer => "the answer".to_string(),
        }
    }
}

impl Layer {
    fn words(self, names: &Names) -> String {
        match self {
            Layer::Cell { type_ } => format!("the cell's {}", names.words(Kind::Type, type_.0)),
            Layer::Adapter { place } => format!("the adapter at place {place}"),
            Layer::Class { class } => format!("the class, {}", names.words(Kind::Type, class.0)),
        }
    }
}

impl LeadsTo {
    fn words(&self, names: &Names) -> String {
        match self {
            LeadsTo::Object { place, class } => {
                let class = names.words(Kind::Type, class.0);
                format!("the object{} ({class})", at_place(*place))
            }
            LeadsTo::Adapter { place, permits } => {
                let permits = methods(permits, names);
                format!(
                    "the adapter{} (it lets through {permits})",
                    at_place(*place)
                )
            }
        }
    }
}

fn at_place(place: Option<usize>) -> String {
    place.map_or(String::new(), |place| format!(" at place {place}"))
}
