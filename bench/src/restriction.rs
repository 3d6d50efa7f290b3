//! Sub, Sup and Closed in safe Rust, by the algorithm of the crates `derive_..`: two functions that call each other over the bytes of
//! the table. It works on a copy or in the bytes, as requests do (requests.rs).

use crate::fits;
use crate::measure::in_place;
use reference::raw::{RawTable, METHODS_AT, METHOD_BYTES, TYPE_BYTES};
use reference::refusal::{Refusal, OUT_OF_RANGE, TYPES_FULL, UNKNOWN_TYPE};
use reference::table::MAX_TYPES;

const SUB: u8 = 0;
const SUP: u8 = 1;
const CLOSED: u8 = 2;

type Full = Refusal;

/// A derivation on a table handed in: the type's number, or 2, 7 or 11.
pub fn derive(raw: &mut RawTable, kind: usize, t: usize, s: usize) -> Result<usize, Refusal> {
    if !fits::table(raw) {
        return Err(OUT_OF_RANGE);
    }
    let types = raw.types as usize;
    if kind > usize::from(CLOSED) || t >= types || s >= types {
        return Err(UNKNOWN_TYPE);
    }
    let kind = kind as u8;
    if kind == CLOSED && !both_ref(raw, t, s) {
        return Err(UNKNOWN_TYPE);
    }
    if !in_place() {
        let mut table = raw.clone();
        let number = by_kind(&mut table, kind, t, s)?;
        *raw = table;
        return Ok(number);
    }
    let old = raw.clone();
    let number = by_kind(raw, kind, t, s);
    if number.is_err() {
        *raw = old;
    }
    number
}

fn by_kind(raw: &mut RawTable, kind: u8, t: usize, s: usize) -> Result<usize, Full> {
    match kind {
        SUB => sub(raw, t, s),
        SUP => sup(raw, t, s),
        _ => closed(raw, t, s),
    }
}

fn both_ref(raw: &RawTable, t: usize, s: usize) -> bool {
    raw.entry(t)[0] == 0 && raw.entry(s)[0] == 0
}

pub fn sub(raw: &mut RawTable, t: usize, s: usize) -> Result<usize, Full> {
    if t == s || !both_ref(raw, t, s) {
        return Ok(t);
    }
    known_or_new(raw, SUB, t, s)
}

fn sup(raw: &mut RawTable, t: usize, s: usize) -> Result<usize, Full> {
    if t == s || !both_ref(raw, t, s) {
        return Ok(s);
    }
    known_or_new(raw, SUP, t, s)
}

/// Closed of two reference types.
pub fn closed(raw: &mut RawTable, r: usize, v: usize) -> Result<usize, Full> {
    known_or_new(raw, CLOSED, r, v)
}

fn known_or_new(raw: &mut RawTable, kind: u8, t: usize, s: usize) -> Result<usize, Full> {
    let key = [kind, t as u8, s as u8];
    let types = raw.types as usize;
    let known = (raw.sheet_types as usize..types).find(|one| raw.entry(*one)[3..6] == key);
    if let Some(known) = known {
        return Ok(known);
    }
    if types == MAX_TYPES {
        return Err(TYPES_FULL);
    }
    let category = raw.entry(if kind == SUP { s } else { t })[1];
    let mut entry = [0; TYPE_BYTES];
    entry[..6].copy_from_slice(&[0, category, 0, kind, key[1], key[2]]);
    raw.entry_mut(types).copy_from_slice(&entry);
    raw.types += 1;
    for method in 0..raw.methods as usize {
        let at = METHODS_AT + method * METHOD_BYTES;
        let bytes = derived_method(raw, kind, t, s, method)?;
        entry[at..at + METHOD_BYTES].copy_from_slice(&bytes);
    }
    raw.entry_mut(types).copy_from_slice(&entry);
    Ok(types)
}

fn permits(state: u8) -> bool {
    matches!(state, 1 | 2)
}

fn state(kind: u8, x: u8, y: u8) -> u8 {
    match kind {
        SUB if permits(x) && !permits(y) => 3,
        SUB => x,
        SUP if permits(y) && !permits(x) => 0,
        SUP => y,
        _ if permits(x) && y == 2 => 2,
        _ => 3,
    }
}

fn derived_method(
    raw: &mut RawTable,
    kind: u8,
    t: usize,
    s: usize,
    method: usize,
) -> Result<[u8; METHOD_BYTES], Full> {
    let mut x = [0; METHOD_BYTES];
    let mut y = [0; METHOD_BYTES];
    x.copy_from_slice(raw.method(t, method));
    y.copy_from_slice(raw.method(s, method));
    let mut bytes = [state(kind, x[0], y[0]), 0, 0, 0, 0, 0, 0];
    if !permits(bytes[0]) {
        return Ok(bytes);
    }
    bytes[1] = x[1].min(y[1]);
    for slot in 2..2 + usize::from(bytes[1]) {
        let (of_x, of_y) = (usize::from(x[slot]), usize::from(y[slot]));
        let number = if kind == SUP {
            sub(raw, of_y, of_x)
        } else {
            sup(raw, of_y, of_x)
        };
        bytes[slot] = number? as u8;
    }
    if x[6] != 0 && y[6] != 0 {
        let (of_x, of_y) = (usize::from(x[6]) - 1, usize::from(y[6]) - 1);
        let number = if kind == SUP {
            sup(raw, of_x, of_y)
        } else {
            sub(raw, of_x, of_y)
        };
        bytes[6] = number? as u8 + 1;
    }
    Ok(bytes)
}
