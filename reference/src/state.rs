//! The state (Q): a table with cells, places and calls.

use crate::table::{Table, TypeNo, MAX_SUBJECTS};

/// Q7.
pub const MAX_CELLS: usize = 256;
/// Q8.
pub const MAX_PLACES: usize = 128;
/// The calls of one subject (Q9), and of all that there can be.
pub const MAX_CALLS_EACH: usize = 32;
pub const MAX_CALLS: usize = MAX_SUBJECTS * MAX_CALLS_EACH;

/// What a reference leads to (Q1).
#[derive(Clone, Copy, PartialEq, Eq, Debug)]
pub enum Place {
    Object { class: TypeNo, owner: usize },
    Adapter { behind: usize, closed: TypeNo },
}

/// A reference in a subject's hands (Q4).
#[derive(Clone, Copy, PartialEq, Eq, Debug)]
pub struct Cell {
    pub holder: usize,
    pub type_: TypeNo,
    pub place: usize,
}

/// A method called through a cell (Q5).
#[derive(Clone, Copy, PartialEq, Eq, Debug)]
pub struct Call {
    pub caller: usize,
    pub cell: usize,
    pub method: usize,
    pub answered: bool,
}

/// The state of a loaded sheet, or one handed in that passed the check. What
/// is behind an adapter has a lower number.
#[derive(Clone, PartialEq, Eq, Debug)]
pub struct State {
    pub table: Table,
    pub places: Vec<Place>,
    pub cells: Vec<Cell>,
    pub calls: Vec<Call>,
}

/// How many there are of each thing that requests add to.
#[derive(Clone, Copy, PartialEq, Eq, Debug)]
pub struct Counts {
    pub types: usize,
    pub places: usize,
    pub cells: usize,
    pub calls: usize,
}

impl State {
    /// The state of a loaded sheet (Q10).
    pub fn of_sheet(table: Table) -> State {
        State {
            table,
            places: Vec::new(),
            cells: Vec::new(),
            calls: Vec::new(),
        }
    }

    pub fn counts(&self) -> Counts {
        Counts {
            types: self.table.types.len(),
            places: self.places.len(),
            cells: self.cells.len(),
            calls: self.calls.len(),
        }
    }

    /// The records of calls that a subject made, answered or not (Q9).
    pub fn calls_of(&self, caller: usize) -> usize {
        let made = self.calls.iter().filter(|call| call.caller == caller);
        made.count()
    }

    /// The type of a place (Q3).
    pub fn place_type(&self, place: usize) -> TypeNo {
        match self.places[place] {
            Place::Object { class, .. } => class,
            Place::Adapter { closed, .. } => closed,
        }
    }

    /// The adapters in front of a place's base, the outermost first, and the base (Q2).
    pub fn stack(&self, place: usize) -> (Vec<usize>, usize) {
        let mut adapters = Vec::new();
        let mut at = place;
        while let Place::Adapter { behind, .. } = self.places[at] {
            adapters.push(at);
            at = behind;
        }
        (adapters, at)
    }

    /// The object behind every adapter (Q2).
    pub fn base(&self, place: usize) -> usize {
        self.stack(place).1
    }

    /// Who owns the base of a place.
    pub fn owner(&self, place: usize) -> usize {
        match self.places[self.base(place)] {
            Place::Object { owner, .. } => owner,
            Place::Adapter { .. } => unreachable!("a base is an object"),
        }
    }

    /// The class of a place's base.
    pub fn class(&self, place: usize) -> TypeNo {
        self.place_type(self.base(place))
    }

    /// The layers of a call through a cell (C9).
    pub fn layers(&self, cell: usize) -> Vec<TypeNo> {
        let (adapters, base) = self.stack(self.cells[cell].place);
        let mut layers = vec![self.cells[cell].type_];
        layers.extend(adapters.iter().map(|place| self.place_type(*place)));
        layers.push(self.place_type(base));
        layers
    }
}
