//! The entry points on what is handed in (E): the check first (2), then the
//! model's answer, in bytes.

use crate::chains::{offered, All};
use crate::check;
use crate::model::Model;
use crate::pairs;
use crate::raw::{self, RawState, RawTable};
use crate::refusal::{Refusal, OUT_OF_RANGE, UNKNOWN_TYPE};
use crate::requests::{index, Got, Request};
use crate::restriction::{closed, sub, sup};
use crate::sheet;
use crate::table::{Kind, TypeNo};

/// Sheet read: a new table, and where and why it is refused (S32, S33).
pub fn read(input: &[u8]) -> (RawTable, Result<(), sheet::SheetRefusal>) {
    match sheet::read(input) {
        Ok(table) => (RawTable::of(&table), Ok(())),
        Err(refusal) => (RawTable::default(), Err(refusal)),
    }
}

/// Sheet write (W).
pub fn write(raw: &RawTable, buffer: &mut [u8]) -> Result<usize, Refusal> {
    let table = check::table(raw).map_err(|_| OUT_OF_RANGE)?;
    sheet::write(&table, buffer)
}

/// Compare (R14).
pub fn compare(raw: &RawTable, t: i64, s: i64) -> Result<[bool; 4], Refusal> {
    let table = check::table(raw).map_err(|_| OUT_OF_RANGE)?;
    pairs::compare(&table, t, s)
}

/// Derive (E10): types are added at the end, and no other byte changes (B22);
/// a refusal changes none (B23).
pub fn derive(raw: &mut RawTable, kind: usize, t: i64, s: i64) -> Result<TypeNo, Refusal> {
    let mut table = check::table(raw).map_err(|_| OUT_OF_RANGE)?;
    let before = table.types.len();
    let code = u8::try_from(kind).map_err(|_| UNKNOWN_TYPE)?;
    let kind = raw::kind(code).ok_or(UNKNOWN_TYPE)?;
    let t = index(t, before).ok_or(UNKNOWN_TYPE)?;
    let s = index(s, before).ok_or(UNKNOWN_TYPE)?;
    let both_ref = table.types[t].is_ref() && table.types[s].is_ref();
    let number = match kind {
        Kind::Sub => sub(&mut table, t, s)?,
        Kind::Sup => sup(&mut table, t, s)?,
        Kind::Closed if both_ref => closed(&mut table, t, s)?,
        Kind::Closed => return Err(UNKNOWN_TYPE),
    };
    raw.add_types(&table, before);
    Ok(number)
}

/// A request (Q13 to Q16).
pub fn request(raw: &mut RawState, request: &Request) -> Result<Got, Refusal> {
    let state = check::state(raw).map_err(|_| OUT_OF_RANGE)?;
    let mut model = Model::new(state.clone());
    let result = model.request(request);
    // where it is refused nothing is changed
    raw.update(&state, &model.state);
    result
}

/// Whether a cell offers a chain (E11).
pub fn offers(raw: &RawState, cell: i64, chain: &[i64]) -> Result<bool, Refusal> {
    let state = check::state(raw).map_err(|_| OUT_OF_RANGE)?;
    let Some(cell) = index(cell, state.cells.len()) else {
        return Ok(false);
    };
    let numbers = chain.iter().map(|one| index(*one, state.table.methods));
    let methods: Option<Vec<usize>> = numbers.collect();
    let all = All {
        table: &state.table,
        types: &offered(&state, cell),
    };
    Ok(methods.is_some_and(|methods| all.permit(&methods)))
}
