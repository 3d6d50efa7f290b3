//! The records of a state besides its table, told as `crate::records` tells that.

use crate::numbers::{number, Call, Cell, Method, Place, Subject, Type};
use crate::raw::{CALL_RECORD, CELL_RECORD, PLACE_RECORD};
use crate::records::record;

/// A cell: who holds it, by which type, and to which place it leads (Q4).
#[derive(Clone, Copy, PartialEq, Eq, Debug)]
pub struct CellInfo {
    /// Its number.
    pub number: Cell,
    /// Who holds it.
    pub holder: Subject,
    /// The type that its reference is seen by.
    pub type_: Type,
    /// What the reference leads to.
    pub place: Place,
}

/// What stands at a place (Q1).
#[derive(Clone, Copy, PartialEq, Eq, Debug)]
pub enum PlaceKind {
    /// An object.
    Object {
        /// What it is made of.
        class: Type,
        /// Who made it.
        owner: Subject,
    },
    /// What lets through only what its own type permits.
    Adapter {
        /// The place that it stands in front of.
        behind: Place,
        /// Its type, a derived one.
        closed: Type,
    },
}

/// A place.
#[derive(Clone, Copy, PartialEq, Eq, Debug)]
pub struct PlaceInfo {
    /// Its number.
    pub number: Place,
    /// What stands there.
    pub kind: PlaceKind,
}

/// A call (Q5).
#[derive(Clone, Copy, PartialEq, Eq, Debug)]
pub struct CallInfo {
    /// Its number.
    pub number: Call,
    /// Who called.
    pub caller: Subject,
    /// Through which cell.
    pub cell: Cell,
    /// What.
    pub method: Method,
    /// Whether the owner has answered.
    pub answered: bool,
}

/// The cell with this index (B26).
pub(crate) fn cell_info(cells: &[u8], index: usize) -> CellInfo {
    let [holder, type_, place]: [u8; CELL_RECORD] = record(cells, index);
    CellInfo {
        number: Cell(number(index)),
        holder: Subject::from(holder),
        type_: Type::from(type_),
        place: Place::from(place),
    }
}

/// The place with this index (B27).
pub(crate) fn place_info(places: &[u8], index: usize) -> PlaceInfo {
    let [code, first, second]: [u8; PLACE_RECORD] = record(places, index);
    let kind = match code {
        0 => PlaceKind::Object {
            class: Type::from(first),
            owner: Subject::from(second),
        },
        _ => PlaceKind::Adapter {
            behind: Place::from(first),
            closed: Type::from(second),
        },
    };
    PlaceInfo {
        number: Place(number(index)),
        kind,
    }
}

/// The call with this index (B28).
pub(crate) fn call_info(calls: &[u8], index: usize) -> CallInfo {
    let [caller, cell, method, answered]: [u8; CALL_RECORD] = record(calls, index);
    CallInfo {
        number: Call(number(index)),
        caller: Subject::from(caller),
        cell: Cell::from(cell),
        method: Method::from(method),
        answered: answered == 1,
    }
}
