//! What a call or an answer carries through the layers (C8 to C17, A7 to A10).

use crate::model::Model;
use crate::refusal::{Refusal, LATER_LAYER, NOT_STRICT, TOO_WIDE, UNRELATED, WRONG_VALUES};
use crate::requests::index;
use crate::table::{Representation, TypeNo};

/// A value on its way (C8).
#[derive(Clone, Copy)]
pub(crate) enum Value {
    Number(i64),
    Reference { static_type: TypeNo, place: usize },
}

impl Model {
    /// The cell, if there is one of this number and the subject holds it.
    pub(crate) fn held_cell(&self, subject: usize, operand: i64) -> Option<usize> {
        let cell = index(operand, self.state.cells.len())?;
        (self.state.cells[cell].holder == subject).then_some(cell)
    }

    /// An operand as a value of a type: where it is a ref type, the reference
    /// of a cell that the subject holds (C5, C8, A6).
    pub(crate) fn value(
        &self,
        subject: usize,
        operand: i64,
        named: TypeNo,
    ) -> Result<Value, Refusal> {
        if !self.state.table.types[named].is_ref() {
            return Ok(Value::Number(operand));
        }
        let cell = self.held_cell(subject, operand).ok_or(WRONG_VALUES)?;
        let cell = self.state.cells[cell];
        Ok(Value::Reference {
            static_type: cell.type_,
            place: cell.place,
        })
    }

    /// A value passes the layers in order: of each the type that it has for
    /// the value, if any.
    pub(crate) fn carry(
        &mut self,
        value: Value,
        layers: &[Option<TypeNo>],
        receiver: usize,
    ) -> Result<Value, Refusal> {
        let mut value = value;
        for (layer, named) in layers.iter().enumerate() {
            let passed = self.pass(value, *named, receiver);
            value = passed.map_err(|number| at_layer(layer, number))?;
        }
        Ok(value)
    }

    /// A value passes one layer. A layer without a type for it, or with one of
    /// the other kind, is unfit (C15).
    fn pass(
        &mut self,
        value: Value,
        named: Option<TypeNo>,
        receiver: usize,
    ) -> Result<Value, Refusal> {
        let t = named.ok_or(UNRELATED)?;
        match (value, self.state.table.types[t].representation) {
            (Value::Number(number), Representation::W64) => Ok(Value::Number(number)),
            (Value::Number(number), Representation::W32) => narrow(number),
            (Value::Reference { static_type, place }, Representation::Ref) => {
                let place = self.cross(place, static_type, t, receiver)?;
                let static_type = t;
                Ok(Value::Reference { static_type, place })
            }
            _ => Err(UNRELATED),
        }
    }
}

/// A refusal as it is at a layer: past the first, 8 and 10 are 19 (C13).
fn at_layer(layer: usize, number: Refusal) -> Refusal {
    if layer > 0 && matches!(number, UNRELATED | NOT_STRICT) {
        return LATER_LAYER;
    }
    number
}

/// A number at w32 (C14).
fn narrow(number: i64) -> Result<Value, Refusal> {
    if i32::try_from(number).is_err() {
        return Err(TOO_WIDE);
    }
    Ok(Value::Number(number))
}
