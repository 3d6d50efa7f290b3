//! Compare and the pair table in safe Rust, by the algorithm of crates/relation_search, relation_found, relation_states and relation_rule: the check of the table,
//! then for each relation a search for a pair that breaks a rule, over pairs found through signatures that both sides permit.

use crate::fits;
use crate::measure::in_place;
use conformance::PAIRS_LENGTH;
use reference::raw::{RawTable, BROADER_BYTES, METHODS_AT, METHOD_BYTES};
use reference::refusal::{Refusal, OUT_OF_RANGE, UNKNOWN_TYPE};
use reference::relations::{Relation, RELATIONS};
use reference::table::{MAX_CATEGORIES, MAX_SHEET_TYPES, MAX_TYPES};

/// For the state of a method in T (row) and in S (column): whether a relation lets them stand together.
type States = [[bool; 4]; 4];

const STATE_ORDER: States = [
    [true, true, true, true],
    [false, true, true, true],
    [false, false, true, false],
    [false, false, false, true],
];

const AVAIL_WHERE_AVAIL: States = [
    [true, true, true, true],
    [true, true, true, true],
    [false, false, true, false],
    [true, true, true, true],
];

const AVAIL_WHERE_PERMITTED: States = [
    [true, true, true, true],
    [true, true, true, true],
    [false, true, true, false],
    [true, true, true, true],
];

const ANY_STATES: States = [[true; 4]; 4];

fn states(relation: Relation) -> &'static States {
    match relation {
        Relation::Subtype | Relation::SubtypeOwnAside => &STATE_ORDER,
        Relation::Strict => &AVAIL_WHERE_AVAIL,
        Relation::Loose => &AVAIL_WHERE_PERMITTED,
        Relation::Free => &ANY_STATES,
    }
}

fn permits(state: u8) -> bool {
    state == 1 || state == 2
}

/// a ≤ b over the broader links: the answer for each category from 0 up to b.
fn category_le(raw: &RawTable, a: usize, b: usize) -> bool {
    let mut done = [false; MAX_CATEGORIES + 1];
    for x in 0..=b {
        done[x] = category_next(raw, &done, a, x);
    }
    done[b]
}

/// a ≤ x, where `done` has the answers for the categories below x.
fn category_next(raw: &RawTable, done: &[bool; MAX_CATEGORIES + 1], a: usize, x: usize) -> bool {
    if a == 0 || a == x {
        return true;
    }
    let links = &raw.broader[x * BROADER_BYTES..][..BROADER_BYTES];
    let below = |link: u8| done[usize::from(link)];
    x > 0 && (below(links[1]) || links[0] == 2 && below(links[2]))
}

/// What a relation asks of representation, category and own of two types.
fn outer(raw: &RawTable, relation: Relation, x: &[u8], y: &[u8]) -> bool {
    let rep = match relation {
        Relation::Subtype | Relation::SubtypeOwnAside => x[0] == y[0],
        _ => (x[0] == 0) == (y[0] == 0),
    };
    let category = || {
        matches!(relation, Relation::Loose | Relation::Free)
            || category_le(raw, usize::from(x[1]), usize::from(y[1]))
    };
    let own = || relation != Relation::Subtype || x[0] != 0 || x[2] != 1 || y[2] == 1;
    rep && category() && own()
}

/// The pairs found, each once. Entry i has the i-th pair of the queue in its low 15 bits, and in its top bit whether the pair
/// of number i is found.
struct Found<'a> {
    entries: &'a mut [u16],
    count: usize,
}

impl Found<'_> {
    const TOP: u16 = 1 << 15;

    /// The pair (x, y) is found, and joins the queue if it was not.
    fn add(&mut self, x: usize, y: usize) {
        let pair = x * MAX_TYPES + y;
        if self.entries[pair] & Found::TOP == 0 {
            self.entries[pair] |= Found::TOP;
            self.entries[self.count] |= pair as u16;
            self.count += 1;
        }
    }

    /// A pair of the queue.
    fn pair(&self, at: usize) -> (usize, usize) {
        let pair = usize::from(self.entries[at] & !Found::TOP);
        (pair / MAX_TYPES, pair % MAX_TYPES)
    }
}

/// The rule of one method of two types: whether states and signatures keep it, and the pairs that it leads to are found.
fn method(found: &mut Found, states: &States, m: &[u8], n: &[u8]) -> bool {
    if !states[usize::from(m[0])][usize::from(n[0])] {
        return false;
    }
    if !(permits(m[0]) && permits(n[0])) {
        return true;
    }
    if m[1] != n[1] || (m[6] == 0) != (n[6] == 0) {
        return false;
    }
    let used = 2..2 + usize::from(m[1]);
    for (a, d) in m[used.clone()].iter().zip(&n[used]) {
        found.add(usize::from(*d), usize::from(*a));
    }
    if m[6] != 0 {
        found.add(usize::from(m[6]) - 1, usize::from(n[6]) - 1);
    }
    true
}

/// The rules of the first `count` methods of two types.
fn methods(found: &mut Found, states: &States, count: usize, x: &[u8], y: &[u8]) -> bool {
    let of_x = x[METHODS_AT..].chunks_exact(METHOD_BYTES).take(count);
    let of_y = y[METHODS_AT..].chunks_exact(METHOD_BYTES);
    of_x.zip(of_y).all(|(m, n)| method(found, states, m, n))
}

/// How many pairs are found from a pair, itself among them, if all keep the rules of the relation: then the pair is related. What is
/// cleared for a search goes by the size of the table, in the steps of crates/relation_search, or is the whole (`measure::in_place`).
pub fn reached(raw: &RawTable, relation: Relation, t: usize, s: usize) -> Option<usize> {
    match raw.types {
        _ if !in_place() => reached_in(&mut [0; MAX_TYPES * MAX_TYPES], raw, relation, t, s),
        ..=16 => reached_in(&mut [0; 16 * MAX_TYPES], raw, relation, t, s),
        17..=64 => reached_in(&mut [0; 64 * MAX_TYPES], raw, relation, t, s),
        65..=80 => reached_in(&mut [0; 80 * MAX_TYPES], raw, relation, t, s),
        _ => reached_in(&mut [0; MAX_TYPES * MAX_TYPES], raw, relation, t, s),
    }
}

fn reached_in(
    entries: &mut [u16],
    raw: &RawTable,
    relation: Relation,
    t: usize,
    s: usize,
) -> Option<usize> {
    let states = states(relation);
    let count = raw.methods as usize;
    let mut found = Found { entries, count: 0 };
    found.add(t, s);
    let mut head = 0;
    while head < found.count {
        let (a, b) = found.pair(head);
        let (x, y) = (raw.entry(a), raw.entry(b));
        let kept =
            outer(raw, relation, x, y) && (x[0] != 0 || methods(&mut found, states, count, x, y));
        if !kept {
            return None;
        }
        head += 1;
    }
    Some(found.count)
}

/// Compare on a table handed in, as the exported function does it.
pub fn compare(raw: &RawTable, t: usize, s: usize) -> Result<[bool; 4], Refusal> {
    if !fits::table(raw) {
        return Err(OUT_OF_RANGE);
    }
    if t >= raw.types as usize || s >= raw.types as usize {
        return Err(UNKNOWN_TYPE);
    }
    Ok(answers(raw, t, s))
}

fn answers(raw: &RawTable, t: usize, s: usize) -> [bool; 4] {
    RELATIONS.map(|relation| reached(raw, relation, t, s).is_some())
}

/// The pair table of a sheet, a search for each relation at each pair; or 2.
pub fn pairs(raw: &RawTable, out: &mut [u8; PAIRS_LENGTH]) -> Refusal {
    if !fits::table(raw) {
        return OUT_OF_RANGE;
    }
    out.fill(0);
    for t in 0..raw.sheet_types as usize {
        for s in 0..raw.sheet_types as usize {
            let [a, b, c, d] = answers(raw, t, s).map(u8::from);
            out[t * MAX_SHEET_TYPES + s] = a | b << 1 | c << 2 | d << 3;
        }
    }
    0
}
