//! Restriction (D): Sub, Sup and Closed, which derive a type from two.

use crate::refusal::{Refusal, TYPES_FULL};
use crate::table::{
    Key, Kind, MethodState, Representation, Signature, Table, Type, TypeNo, MAX_TYPES,
};
use MethodState::{Avail, Denied, Optional, Unavail};

/// A restriction: the number of its type, or 11.
type Restriction = fn(&mut Table, TypeNo, TypeNo) -> Result<TypeNo, Refusal>;

/// Sub(T,S): T, of which only that is left which S permits too.
pub fn sub(table: &mut Table, t: TypeNo, s: TypeNo) -> Result<TypeNo, Refusal> {
    // D12, D13
    if t == s || !both_ref(table, t, s) {
        return Ok(t);
    }
    derive(table, key(Kind::Sub, t, s))
}

/// Sup(T,S): S, of which only that is left which T permits too.
pub fn sup(table: &mut Table, t: TypeNo, s: TypeNo) -> Result<TypeNo, Refusal> {
    // D12, D13
    if t == s || !both_ref(table, t, s) {
        return Ok(s);
    }
    derive(table, key(Kind::Sup, t, s))
}

/// Closed(R,V): the type of an adapter in front of V that lets through what R permits.
pub fn closed(table: &mut Table, r: TypeNo, v: TypeNo) -> Result<TypeNo, Refusal> {
    derive(table, key(Kind::Closed, r, v))
}

fn key(kind: Kind, left: TypeNo, right: TypeNo) -> Key {
    Key { kind, left, right }
}

fn both_ref(table: &Table, t: TypeNo, s: TypeNo) -> bool {
    table.types[t].is_ref() && table.types[s].is_ref()
}

/// The known type of a key (D14), or a new one. It has its number while its
/// signatures are derived (D16), and no methods yet: nothing reads them.
fn derive(table: &mut Table, key: Key) -> Result<TypeNo, Refusal> {
    if let Some(known) = table.known(key) {
        return Ok(known);
    }
    let number = take_number(table, key)?;
    table.types[number].methods = methods(table, key)?;
    Ok(number)
}

/// The next number, for a type of this key (D15). Own is no (D11).
fn take_number(table: &mut Table, key: Key) -> Result<TypeNo, Refusal> {
    let number = table.types.len();
    if number >= MAX_TYPES {
        return Err(TYPES_FULL);
    }
    // D1, D3, D7
    let like = match key.kind {
        Kind::Sub | Kind::Closed => key.left,
        Kind::Sup => key.right,
    };
    table.types.push(Type {
        representation: Representation::Ref,
        category: table.types[like].category,
        own: false,
        methods: Vec::new(),
    });
    table.keys.push(key);
    Ok(number)
}

/// The methods of a derived type, in order of their numbers (D17).
fn methods(table: &mut Table, key: Key) -> Result<Vec<MethodState>, Refusal> {
    let count = table.methods;
    (0..count)
        .map(|method| {
            let left = table.types[key.left].state(method).clone();
            let right = table.types[key.right].state(method).clone();
            match key.kind {
                Kind::Sub => sub_state(table, left, right),
                Kind::Sup => sup_state(table, left, right),
                Kind::Closed => closed_state(table, left, right),
            }
        })
        .collect()
}

/// D2, with the signatures of D5.
fn sub_state(table: &mut Table, t: MethodState, s: MethodState) -> Result<MethodState, Refusal> {
    Ok(match (t, s.signature()) {
        (Optional(t), Some(s)) => Optional(signature(table, &t, s, sup, sub)?),
        (Avail(t), Some(s)) => Avail(signature(table, &t, s, sup, sub)?),
        (Optional(_) | Avail(_), None) => Unavail,
        (other, _) => other,
    })
}

/// D4, with the signatures of D6.
fn sup_state(table: &mut Table, t: MethodState, s: MethodState) -> Result<MethodState, Refusal> {
    Ok(match (t.signature(), s) {
        (Some(t), Optional(s)) => Optional(signature(table, t, &s, sub, sup)?),
        (Some(t), Avail(s)) => Avail(signature(table, t, &s, sub, sup)?),
        (None, Optional(_) | Avail(_)) => Denied,
        (_, other) => other,
    })
}

/// D8, with the signatures of D9.
fn closed_state(table: &mut Table, r: MethodState, v: MethodState) -> Result<MethodState, Refusal> {
    Ok(match (r.signature(), v) {
        (Some(r), Avail(v)) => Avail(signature(table, r, &v, sup, sub)?),
        _ => Unavail,
    })
}

/// The signature of a method that both sides permit: each argument with the
/// sides exchanged, then the answer (D5, D6); as far as both have one (D20).
fn signature(
    table: &mut Table,
    t: &Signature,
    s: &Signature,
    of_arguments: Restriction,
    of_answer: Restriction,
) -> Result<Signature, Refusal> {
    let mut arguments = Vec::new();
    for (of_t, of_s) in t.arguments.iter().zip(&s.arguments) {
        arguments.push(of_arguments(table, *of_s, *of_t)?);
    }
    let answer = match (t.answer, s.answer) {
        (Some(of_t), Some(of_s)) => Some(of_answer(table, of_t, of_s)?),
        _ => None,
    };
    Ok(Signature { arguments, answer })
}
