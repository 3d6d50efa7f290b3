//! How the requests are served: new (N), move (M), call (C), answer (A). In
//! each, the tests stand in the order of the rules.

use crate::carrying::Value;
use crate::model::Model;
use crate::refusal::{
    Refusal, ANSWERED_ALREADY, NOT_CALLABLE, NOT_HELD, UNKNOWN_SUBJECT, UNKNOWN_TYPE, WRONG_VALUES,
};
use crate::requests::{index, Got, Request};
use crate::state::{Call, Cell, Place, State};
use crate::table::{Signature, Table, TypeNo};

/// Requests one after the other, each on the state that those before it left:
/// their results, and the state in the end.
pub fn run(state: State, requests: &[Request]) -> (Vec<Result<Got, Refusal>>, State) {
    let mut model = Model::new(state);
    let results = requests.iter().map(|request| model.request(request));
    (results.collect(), model.state)
}

impl Model {
    /// Serves one request.
    pub fn request(&mut self, request: &Request) -> Result<Got, Refusal> {
        self.all_or_nothing(|model| match request {
            Request::New {
                subject,
                class,
                type_,
            } => model.new_object(*subject, *class, *type_),
            Request::Move {
                subject,
                cell,
                receiver,
                type_,
            } => model.move_cell(*subject, *cell, *receiver, *type_),
            Request::Call {
                subject,
                cell,
                method,
                arguments,
            } => model.call(*subject, *cell, *method, arguments),
            Request::Answer {
                subject,
                call,
                value,
            } => model.answer(*subject, *call, *value),
        })
    }

    /// N1 to N8.
    fn new_object(&mut self, subject: i64, class: i64, type_: i64) -> Result<Got, Refusal> {
        let subject = self.subject(subject)?;
        let class = self.sheet_type(class, Table::is_sheet_class)?;
        let type_ = self.sheet_type(type_, Table::is_sheet_ref)?;
        let owner = subject;
        let object = self.add_place(Place::Object { class, owner })?;
        self.hand_over(object, class, type_, subject)
    }

    /// M1 to M6.
    fn move_cell(
        &mut self,
        subject: i64,
        cell: i64,
        receiver: i64,
        type_: i64,
    ) -> Result<Got, Refusal> {
        let subject = self.subject(subject)?;
        let receiver = self.subject(receiver)?;
        let cell = self.held_cell(subject, cell).ok_or(NOT_HELD)?;
        let type_ = self.sheet_type(type_, Table::is_sheet_ref)?;
        let from = self.state.cells[cell];
        self.hand_over(from.place, from.type_, type_, receiver)
    }

    /// A reference crosses from S to T and becomes a cell of the receiver (N6
    /// to N8, M4 to M6).
    fn hand_over(
        &mut self,
        place: usize,
        s: TypeNo,
        t: TypeNo,
        receiver: usize,
    ) -> Result<Got, Refusal> {
        let place = self.cross(place, s, t, receiver)?;
        self.deliver(receiver, t, place)
    }

    /// C1 to C7, C18 and C19.
    fn call(
        &mut self,
        subject: i64,
        cell: i64,
        method: i64,
        arguments: &[i64],
    ) -> Result<Got, Refusal> {
        let caller = self.subject(subject)?;
        let cell = self.held_cell(caller, cell).ok_or(NOT_HELD)?;
        let (method, signature) = self.avail_method(cell, method)?;
        let values = self.arguments(caller, arguments, &signature)?;
        self.may_call(caller)?;
        self.send(cell, method, &values)?;
        let call = self.add_call(Call {
            caller,
            cell,
            method,
            answered: false,
        });
        let (between, _) = self.state.stack(self.state.cells[cell].place);
        let adapters = between.len();
        Ok(Got::Call { call, adapters })
    }

    /// The arguments as values, by the signature in the cell's type (C4, C5, C8).
    fn arguments(
        &self,
        caller: usize,
        arguments: &[i64],
        signature: &Signature,
    ) -> Result<Vec<Value>, Refusal> {
        if arguments.len() != signature.arguments.len() {
            return Err(WRONG_VALUES);
        }
        let named = signature.arguments.iter();
        let operands = arguments.iter().zip(named);
        operands
            .map(|(operand, named)| self.value(caller, *operand, *named))
            .collect()
    }

    /// The arguments, one after the other, go to the owner of the base (C10 to
    /// C12). A reference becomes a cell before the next is begun (C17).
    pub(crate) fn send(
        &mut self,
        cell: usize,
        method: usize,
        values: &[Value],
    ) -> Result<(), Refusal> {
        let layers = self.state.layers(cell);
        let owner = self.state.owner(self.state.cells[cell].place);
        for (position, value) in values.iter().enumerate() {
            let of_layer = |layer: &TypeNo| self.argument_type(*layer, method, position);
            let types: Vec<Option<TypeNo>> = layers.iter().map(of_layer).collect();
            let sent = self.carry(*value, &types, owner)?;
            if let Value::Reference { static_type, place } = sent {
                self.deliver(owner, static_type, place)?;
            }
        }
        Ok(())
    }

    /// A1 to A6, A11 and A13.
    fn answer(&mut self, subject: i64, call: i64, value: Option<i64>) -> Result<Got, Refusal> {
        let subject = self.subject(subject)?;
        let number = index(call, self.state.calls.len()).ok_or(NOT_HELD)?;
        let call = self.state.calls[number];
        if self.state.owner(self.state.cells[call.cell].place) != subject {
            return Err(NOT_HELD);
        }
        if call.answered {
            return Err(ANSWERED_ALREADY);
        }
        let type_ = self.state.cells[call.cell].type_;
        let due = self.answer_type(type_, call.method);
        let got = match (due, value) {
            (None, None) => Got::Nothing,
            (Some(due), Some(value)) => {
                let value = self.value(subject, value, due)?;
                self.send_back(call, value, call.caller)?
            }
            _ => return Err(WRONG_VALUES),
        };
        self.state.calls[number].answered = true;
        Ok(got)
    }

    /// The value goes to the receiver through the layers of the call, the
    /// class's first (A7 to A10, A12).
    fn send_back(&mut self, call: Call, value: Value, receiver: usize) -> Result<Got, Refusal> {
        let layers = self.state.layers(call.cell);
        let of_layer = |layer: &TypeNo| self.answer_type(*layer, call.method);
        let types: Vec<Option<TypeNo>> = layers.iter().rev().map(of_layer).collect();
        match self.carry(value, &types, receiver)? {
            Value::Number(number) => Ok(Got::Number(number)),
            Value::Reference { static_type, place } => self.deliver(receiver, static_type, place),
        }
    }

    /// The type that a layer has for an argument of a method.
    fn argument_type(&self, layer: TypeNo, method: usize, position: usize) -> Option<TypeNo> {
        let signature = self.state.table.types[layer].permits(method)?;
        signature.arguments.get(position).copied()
    }

    /// The type that a layer has for the answer of a method.
    fn answer_type(&self, layer: TypeNo, method: usize) -> Option<TypeNo> {
        self.state.table.types[layer].permits(method)?.answer
    }

    /// A method that is avail in a cell's type, and its signature there (C3).
    pub(crate) fn avail_method(
        &self,
        cell: usize,
        method: i64,
    ) -> Result<(usize, Signature), Refusal> {
        let table = &self.state.table;
        let method = index(method, table.methods).ok_or(NOT_CALLABLE)?;
        let state = table.types[self.state.cells[cell].type_].state(method);
        match state.signature() {
            Some(signature) if state.is_avail() => Ok((method, signature.clone())),
            _ => Err(NOT_CALLABLE),
        }
    }

    /// N1, M1, C1, A1.
    fn subject(&self, operand: i64) -> Result<usize, Refusal> {
        index(operand, self.state.table.subjects).ok_or(UNKNOWN_SUBJECT)
    }

    /// A sheet type of a kind (N2, N3, M3).
    fn sheet_type(
        &self,
        operand: i64,
        of_kind: fn(&Table, TypeNo) -> bool,
    ) -> Result<TypeNo, Refusal> {
        let table = &self.state.table;
        let number = index(operand, table.sheet_types).ok_or(UNKNOWN_TYPE)?;
        if !of_kind(table, number) {
            return Err(UNKNOWN_TYPE);
        }
        Ok(number)
    }

    /// A reference that arrived becomes a cell (N7, N8, M5, M6, C17, A10).
    fn deliver(&mut self, holder: usize, type_: TypeNo, place: usize) -> Result<Got, Refusal> {
        let cell = self.add_cell(Cell {
            holder,
            type_,
            place,
        })?;
        Ok(Got::Cell { cell, place })
    }
}
