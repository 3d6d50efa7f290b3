//! Tables and states as they are handed in (B): counts and codes as plain
//! numbers, any of which may be wrong. Only this module knows the layout.

use crate::state::{Call, Cell, Place, State, MAX_CALLS, MAX_CELLS, MAX_PLACES};
use crate::table::{
    Broader, Key, Kind, MethodState, Representation, Signature, Table, MAX_ARGUMENTS,
    MAX_CATEGORIES, MAX_METHODS, MAX_TYPES,
};

/// The bytes of a type (B1), and in it those of a method (B7), with the slots
/// of its arguments (B9).
pub const TYPE_BYTES: usize = 128;
pub const METHODS_AT: usize = 16;
pub const METHOD_BYTES: usize = 7;
pub const ARGUMENT_SLOTS: usize = 4;
const _: () = assert!(
    MAX_ARGUMENTS <= ARGUMENT_SLOTS,
    "an argument without a slot"
);
/// The bytes of a category's links (B11), a cell (B26), a place (B27) and a
/// call (B28).
pub const BROADER_BYTES: usize = 3;
pub const CELL_BYTES: usize = 3;
pub const PLACE_BYTES: usize = 3;
pub const CALL_BYTES: usize = 4;

pub const TYPES_LENGTH: usize = MAX_TYPES * TYPE_BYTES;
pub const BROADER_LENGTH: usize = (MAX_CATEGORIES + 1) * BROADER_BYTES;
pub const CELLS_LENGTH: usize = MAX_CELLS * CELL_BYTES;
pub const PLACES_LENGTH: usize = MAX_PLACES * PLACE_BYTES;
pub const CALLS_LENGTH: usize = MAX_CALLS * CALL_BYTES;

/// A table of any counts (B12) and codes.
#[derive(Clone, PartialEq, Eq)]
pub struct RawTable {
    pub subjects: u32,
    pub methods: u32,
    pub categories: u32,
    pub sheet_types: u32,
    pub types: u32,
    pub broader: [u8; BROADER_LENGTH],
    pub type_bytes: [u8; TYPES_LENGTH],
}

/// A state of any counts (B29) and codes (B25).
#[derive(Clone, PartialEq, Eq)]
pub struct RawState {
    pub table: RawTable,
    pub cells: u32,
    pub places: u32,
    pub calls: u32,
    pub cell_bytes: [u8; CELLS_LENGTH],
    pub place_bytes: [u8; PLACES_LENGTH],
    pub call_bytes: [u8; CALLS_LENGTH],
}

impl Default for RawTable {
    /// The table of a refused sheet (B21).
    fn default() -> RawTable {
        RawTable {
            subjects: 0,
            methods: 0,
            categories: 0,
            sheet_types: 0,
            types: 0,
            broader: [0; BROADER_LENGTH],
            type_bytes: [0; TYPES_LENGTH],
        }
    }
}

impl RawTable {
    /// The records of a table (B13 to B21).
    pub fn of(table: &Table) -> RawTable {
        let mut raw = RawTable {
            subjects: count(table.subjects),
            methods: count(table.methods),
            categories: count(table.categories()),
            sheet_types: count(table.sheet_types),
            types: count(table.types.len()),
            ..RawTable::default()
        };
        for (index, broader) in table.broader.iter().enumerate() {
            raw.put_broader(index + 1, *broader);
        }
        for number in 0..table.types.len() {
            raw.put_type(table, number);
        }
        raw
    }

    fn put_broader(&mut self, category: usize, broader: Broader) {
        let at = category * BROADER_BYTES;
        self.broader[at] = if broader.second.is_some() { 2 } else { 1 };
        self.broader[at + 1] = byte(broader.first);
        self.broader[at + 2] = byte(broader.second.unwrap_or(0));
    }

    fn put_type(&mut self, table: &Table, number: usize) {
        let one = &table.types[number];
        let entry = self.entry_mut(number);
        entry.fill(0);
        entry[0] = match one.representation {
            Representation::Ref => 0,
            Representation::W32 => 1,
            Representation::W64 => 2,
        };
        entry[1] = byte(one.category);
        entry[2] = u8::from(one.own);
        if let Some(index) = number.checked_sub(table.sheet_types) {
            let key = table.keys[index];
            entry[3] = key.kind as u8;
            entry[4] = byte(key.left);
            entry[5] = byte(key.right);
        }
        for (method, state) in one.methods.iter().enumerate() {
            let at = METHODS_AT + method * METHOD_BYTES;
            put_method(&mut entry[at..at + METHOD_BYTES], state);
        }
    }

    /// Takes in the types that a table has from a number on (B22).
    pub fn add_types(&mut self, table: &Table, from: usize) {
        for number in from..table.types.len() {
            self.put_type(table, number);
        }
        self.types = count(table.types.len());
    }

    /// The 128 bytes of a type.
    pub fn entry(&self, number: usize) -> &[u8] {
        &self.type_bytes[number * TYPE_BYTES..(number + 1) * TYPE_BYTES]
    }

    pub fn entry_mut(&mut self, number: usize) -> &mut [u8] {
        &mut self.type_bytes[number * TYPE_BYTES..(number + 1) * TYPE_BYTES]
    }

    /// The seven bytes of a type's method.
    pub fn method(&self, number: usize, method: usize) -> &[u8] {
        let at = METHODS_AT + method * METHOD_BYTES;
        &self.entry(number)[at..at + METHOD_BYTES]
    }

    pub fn method_mut(&mut self, number: usize, method: usize) -> &mut [u8] {
        let at = METHODS_AT + method * METHOD_BYTES;
        &mut self.entry_mut(number)[at..at + METHOD_BYTES]
    }
}

fn put_method(bytes: &mut [u8], state: &MethodState) {
    bytes[0] = match state {
        MethodState::Denied => 0,
        MethodState::Optional(_) => 1,
        MethodState::Avail(_) => 2,
        MethodState::Unavail => 3,
    };
    if let Some(signature) = state.signature() {
        bytes[1] = byte(signature.arguments.len());
        for (slot, argument) in signature.arguments.iter().enumerate() {
            bytes[2 + slot] = byte(*argument);
        }
        bytes[2 + ARGUMENT_SLOTS] = signature.answer.map_or(0, |answer| byte(answer + 1));
    }
}

impl RawState {
    /// The records of a state (B30).
    pub fn of(state: &State) -> RawState {
        let mut raw = RawState {
            table: RawTable::of(&state.table),
            cells: 0,
            places: 0,
            calls: 0,
            cell_bytes: [0; CELLS_LENGTH],
            place_bytes: [0; PLACES_LENGTH],
            call_bytes: [0; CALLS_LENGTH],
        };
        raw.put_records(state, 0, 0, 0);
        raw
    }

    /// Writes the records from the given numbers on, and the counts.
    fn put_records(&mut self, state: &State, cells: usize, places: usize, calls: usize) {
        for number in cells..state.cells.len() {
            self.cell_mut(number)
                .copy_from_slice(&cell_bytes(state.cells[number]));
        }
        for number in places..state.places.len() {
            self.place_mut(number)
                .copy_from_slice(&place_bytes(state.places[number]));
        }
        for number in calls..state.calls.len() {
            self.call_mut(number)
                .copy_from_slice(&call_bytes(state.calls[number]));
        }
        self.cells = count(state.cells.len());
        self.places = count(state.places.len());
        self.calls = count(state.calls.len());
    }

    /// Takes in what requests changed from `before` to `after`: records at the
    /// end, and answered flags (Q15).
    pub fn update(&mut self, before: &State, after: &State) {
        self.table.add_types(&after.table, before.table.types.len());
        for (number, call) in before.calls.iter().enumerate() {
            if after.calls[number].answered != call.answered {
                self.call_mut(number)[3] = 1;
            }
        }
        self.put_records(
            after,
            before.cells.len(),
            before.places.len(),
            before.calls.len(),
        );
    }

    pub fn cell(&self, number: usize) -> &[u8] {
        &self.cell_bytes[number * CELL_BYTES..(number + 1) * CELL_BYTES]
    }

    pub fn cell_mut(&mut self, number: usize) -> &mut [u8] {
        &mut self.cell_bytes[number * CELL_BYTES..(number + 1) * CELL_BYTES]
    }

    pub fn place(&self, number: usize) -> &[u8] {
        &self.place_bytes[number * PLACE_BYTES..(number + 1) * PLACE_BYTES]
    }

    pub fn place_mut(&mut self, number: usize) -> &mut [u8] {
        &mut self.place_bytes[number * PLACE_BYTES..(number + 1) * PLACE_BYTES]
    }

    pub fn call(&self, number: usize) -> &[u8] {
        &self.call_bytes[number * CALL_BYTES..(number + 1) * CALL_BYTES]
    }

    pub fn call_mut(&mut self, number: usize) -> &mut [u8] {
        &mut self.call_bytes[number * CALL_BYTES..(number + 1) * CALL_BYTES]
    }
}

fn cell_bytes(cell: Cell) -> [u8; CELL_BYTES] {
    [byte(cell.holder), byte(cell.type_), byte(cell.place)]
}

fn place_bytes(place: Place) -> [u8; PLACE_BYTES] {
    match place {
        Place::Object { class, owner } => [0, byte(class), byte(owner)],
        Place::Adapter { behind, closed } => [1, byte(behind), byte(closed)],
    }
}

fn call_bytes(call: Call) -> [u8; CALL_BYTES] {
    [
        byte(call.caller),
        byte(call.cell),
        byte(call.method),
        u8::from(call.answered),
    ]
}

fn byte(number: usize) -> u8 {
    u8::try_from(number).expect("a table's numbers fit a byte")
}

fn count(number: usize) -> u32 {
    u32::try_from(number).expect("a table's counts are small")
}

/// The representation of a code (B2).
pub fn representation(code: u8) -> Option<Representation> {
    match code {
        0 => Some(Representation::Ref),
        1 => Some(Representation::W32),
        2 => Some(Representation::W64),
        _ => None,
    }
}

/// The kind of a code (B5).
pub fn kind(code: u8) -> Option<Kind> {
    match code {
        0 => Some(Kind::Sub),
        1 => Some(Kind::Sup),
        2 => Some(Kind::Closed),
        _ => None,
    }
}

/// The key in a type's bytes.
pub fn key(entry: &[u8]) -> Option<Key> {
    Some(Key {
        kind: kind(entry[3])?,
        left: usize::from(entry[4]),
        right: usize::from(entry[5]),
    })
}

/// The signature in a method's bytes (B9, B10); of any count, as many
/// arguments as there are slots.
pub fn signature(bytes: &[u8]) -> Signature {
    let arguments = usize::from(bytes[1]).min(ARGUMENT_SLOTS);
    Signature {
        arguments: bytes[2..2 + arguments]
            .iter()
            .map(|one| usize::from(*one))
            .collect(),
        answer: usize::from(bytes[2 + ARGUMENT_SLOTS]).checked_sub(1),
    }
}

impl std::fmt::Debug for RawTable {
    fn fmt(&self, out: &mut std::fmt::Formatter<'_>) -> std::fmt::Result {
        writeln!(
            out,
            "subjects {} methods {} categories {} sheet types {} types {}",
            self.subjects, self.methods, self.categories, self.sheet_types, self.types
        )?;
        let categories = (self.categories as usize).min(MAX_CATEGORIES);
        for category in 1..=categories {
            let at = category * BROADER_BYTES;
            writeln!(out, "broader {category} {:?}", &self.broader[at..at + 3])?;
        }
        for number in 0..(self.types as usize).min(MAX_TYPES) {
            write!(out, "type {number} {:?}", &self.entry(number)[..6])?;
            for method in 0..(self.methods as usize).min(MAX_METHODS) {
                write!(out, " {:?}", self.method(number, method))?;
            }
            writeln!(out)?;
        }
        Ok(())
    }
}

impl std::fmt::Debug for RawState {
    fn fmt(&self, out: &mut std::fmt::Formatter<'_>) -> std::fmt::Result {
        write!(out, "{:?}", self.table)?;
        writeln!(
            out,
            "cells {} places {} calls {}",
            self.cells, self.places, self.calls
        )?;
        for number in 0..(self.places as usize).min(MAX_PLACES) {
            writeln!(out, "place {number} {:?}", self.place(number))?;
        }
        for number in 0..(self.cells as usize).min(MAX_CELLS) {
            writeln!(out, "cell {number} {:?}", self.cell(number))?;
        }
        for number in 0..(self.calls as usize).min(MAX_CALLS) {
            writeln!(out, "call {number} {:?}", self.call(number))?;
        }
        Ok(())
    }
}
