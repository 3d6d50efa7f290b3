//! A state at work: the relations of its table beside it, records added at the
//! end, and refusals that leave nothing (Q).

use crate::refusal::{Refusal, CALLS_FULL, CELLS_FULL, PLACES_FULL};
use crate::relations::{Relation, Relations};
use crate::state::{Call, Cell, Counts, Place, State, MAX_CALLS_EACH, MAX_CELLS, MAX_PLACES};
use crate::table::TypeNo;
use std::cell::RefCell;

/// A state, and the relations of its table as far as they were asked for.
#[derive(Clone, Debug)]
pub struct Model {
    pub state: State,
    relations: RefCell<Relations>,
}

impl Model {
    pub fn new(state: State) -> Model {
        Model {
            state,
            relations: RefCell::new(Relations::default()),
        }
    }

    /// Takes a step; where it is refused, the state is what it was (Q14).
    pub(crate) fn all_or_nothing<T>(
        &mut self,
        step: impl FnOnce(&mut Model) -> Result<T, Refusal>,
    ) -> Result<T, Refusal> {
        let before = self.state.counts();
        let result = step(self);
        if result.is_err() {
            self.take_back(before);
        }
        result
    }

    fn take_back(&mut self, before: Counts) {
        self.state.table.truncate(before.types);
        self.relations.get_mut().truncate(before.types);
        self.state.places.truncate(before.places);
        self.state.cells.truncate(before.cells);
        self.state.calls.truncate(before.calls);
    }

    /// Whether a relation holds at (T, S), both of the table.
    pub fn holds(&self, relation: Relation, t: TypeNo, s: TypeNo) -> bool {
        let mut relations = self.relations.borrow_mut();
        relations.holds_in(&self.state.table, relation, t, s)
    }

    /// The next place (Q6, Q8).
    pub(crate) fn add_place(&mut self, place: Place) -> Result<usize, Refusal> {
        let number = self.state.places.len();
        if number >= MAX_PLACES {
            return Err(PLACES_FULL);
        }
        self.state.places.push(place);
        Ok(number)
    }

    /// The next cell (Q6, Q7).
    pub(crate) fn add_cell(&mut self, cell: Cell) -> Result<usize, Refusal> {
        let number = self.state.cells.len();
        if number >= MAX_CELLS {
            return Err(CELLS_FULL);
        }
        self.state.cells.push(cell);
        Ok(number)
    }

    /// Whether a subject may make one call more (Q9). Only its own count, answered or not (C7).
    pub(crate) fn may_call(&self, caller: usize) -> Result<(), Refusal> {
        if self.state.calls_of(caller) >= MAX_CALLS_EACH {
            return Err(CALLS_FULL);
        }
        Ok(())
    }

    /// The next call (Q6), where its caller may make one.
    pub(crate) fn add_call(&mut self, call: Call) -> usize {
        self.state.calls.push(call);
        self.state.calls.len() - 1
    }
}
