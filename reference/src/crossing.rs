//! A crossing (X): a reference goes from one static type to another, and a
//! subject receives it.

use crate::model::Model;
use crate::refusal::{Refusal, NOT_OWNER, NOT_STRICT, UNRELATED};
use crate::relations::Relation;
use crate::restriction::{closed, sub};
use crate::state::Place;
use crate::table::TypeNo;

impl Model {
    /// A reference to a place crosses from S to T; gives the place that it then
    /// leads to, its static type being T (X10).
    pub(crate) fn cross(
        &mut self,
        place: usize,
        s: TypeNo,
        t: TypeNo,
        receiver: usize,
    ) -> Result<usize, Refusal> {
        let own = self.state.table.types[t].own;
        // X1
        let needed = if own { Relation::Free } else { Relation::Loose };
        if !self.holds(needed, t, s) {
            return Err(UNRELATED);
        }
        if own {
            let base = self.unwrap(place, receiver)?;
            return self.adapt(base, t);
        }
        // X4
        if self.holds(Relation::Subtype, t, s) {
            return Ok(place);
        }
        // X5
        let r = sub(&mut self.state.table, t, s)?;
        self.adapt(place, r)
    }

    /// The base in place of all that is in front of it, for its owner (X2, X3).
    fn unwrap(&mut self, place: usize, receiver: usize) -> Result<usize, Refusal> {
        if self.state.owner(place) != receiver {
            return Err(NOT_OWNER);
        }
        Ok(self.state.base(place))
    }

    /// The place itself where its type V does for R, else an adapter in front of it.
    fn adapt(&mut self, place: usize, r: TypeNo) -> Result<usize, Refusal> {
        let v = self.state.place_type(place);
        // X6
        if self.holds(Relation::SubtypeOwnAside, r, v) {
            return Ok(place);
        }
        // X7
        if !self.holds(Relation::Strict, r, v) {
            return Err(NOT_STRICT);
        }
        // X8, X9
        let closed = closed(&mut self.state.table, r, v)?;
        let behind = place;
        self.add_place(Place::Adapter { behind, closed })
    }
}
