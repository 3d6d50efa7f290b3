//! The relations (R), each the largest that keeps its rules (R3): from all
//! pairs, those that break a rule are struck out until nothing changes. All go
//! at once, for a pair asks about the same pairs in each (R4 to R7): every pair
//! has the set of the relations that are not yet struck out there.

use crate::table::{MethodState, Signature, Table, Type, TypeNo, MAX_TYPES};
use std::ops::Range;

/// A relation at a pair (T, S): S a subtype of T, or T from S (R2).
#[derive(Clone, Copy, PartialEq, Eq, Debug, Hash)]
pub enum Relation {
    Subtype,
    Strict,
    Loose,
    Free,
    /// Subtype, own not compared (R12).
    SubtypeOwnAside,
}

/// The four that Compare answers, in their order (R14).
pub const RELATIONS: [Relation; 4] = [
    Relation::Subtype,
    Relation::Strict,
    Relation::Loose,
    Relation::Free,
];

/// Every relation.
pub const ALL: [Relation; 5] = [
    Relation::Subtype,
    Relation::Strict,
    Relation::Loose,
    Relation::Free,
    Relation::SubtypeOwnAside,
];

/// A set of relations, a bit for each.
#[derive(Clone, Copy, PartialEq, Eq, Debug)]
struct Set(u8);

impl Set {
    const EMPTY: Set = Set(0);

    /// The relations of which something is so.
    fn of(so: impl Fn(Relation) -> bool) -> Set {
        let add = |bits, relation| bits | u8::from(so(relation)) << relation as u8;
        Set(ALL.into_iter().fold(0, add))
    }

    fn has(self, relation: Relation) -> bool {
        self.0 & 1 << relation as u8 != 0
    }

    /// The relations of both sets.
    fn and(self, other: Set) -> Set {
        Set(self.0 & other.0)
    }
}

/// A pair (T, S).
type Pair = (TypeNo, TypeNo);

/// Every relation over all pairs of the types taken in: at `hold[T][S]` those
/// that hold at (T, S).
#[derive(Clone, Debug, Default)]
pub struct Relations {
    hold: Vec<[Set; MAX_TYPES]>,
}

impl Relations {
    /// Of all types of a table.
    pub fn of(table: &Table) -> Relations {
        let mut relations = Relations::default();
        relations.extend(table);
        relations
    }

    /// Takes in the types that the table has more than the last time. Earlier
    /// types name earlier ones alone, so that their pairs keep what was found
    /// for them (R15).
    fn extend(&mut self, table: &Table) {
        let (old, size) = (self.hold.len(), table.types.len());
        self.hold.resize(size, [Set::EMPTY; MAX_TYPES]);
        let (mut left, mut asked) = (Vec::new(), Vec::new());
        for target in 0..size {
            let first = if target < old { old } else { 0 };
            for source in first..size {
                let from = asked.len();
                let kept = keep(table, (target, source), &mut asked);
                self.hold[target][source] = kept;
                if kept == Set::EMPTY {
                    asked.truncate(from);
                } else if from < asked.len() {
                    left.push(((target, source), from..asked.len()));
                }
            }
        }
        self.strike_out(left, &asked);
    }

    /// Strikes out at each pair what does not hold at all that it asks, until
    /// nothing changes. A pair with nothing left is not looked at again.
    fn strike_out(&mut self, mut left: Vec<(Pair, Range<usize>)>, asked: &[Pair]) {
        let mut changed = true;
        while changed {
            changed = false;
            left.retain(|((target, source), asks)| {
                let before = self.hold[*target][*source];
                let others = asked[asks.clone()].iter();
                let kept = others.fold(before, |kept, (t, s)| kept.and(self.hold[*t][*s]));
                self.hold[*target][*source] = kept;
                changed |= kept != before;
                kept != Set::EMPTY
            });
        }
    }

    /// Forgets the types from `count` on.
    pub fn truncate(&mut self, count: usize) {
        self.hold.truncate(count);
    }

    /// Whether a relation holds at (T, S), both taken in.
    pub fn holds(&self, relation: Relation, target: TypeNo, source: TypeNo) -> bool {
        let known = target.max(source) < self.hold.len();
        assert!(known, "pair not in the table");
        self.hold[target][source].has(relation)
    }

    /// The same, both of a table whose types are taken in only when asked about.
    /// It is the table of the last time, or has finished types more (D19).
    pub fn holds_in(
        &mut self,
        table: &Table,
        relation: Relation,
        target: TypeNo,
        source: TypeNo,
    ) -> bool {
        if target.max(source) >= self.hold.len() {
            self.extend(table);
        }
        self.holds(relation, target, source)
    }
}

/// The relations whose rules a pair keeps if they hold at all pairs that it
/// asks about, which are listed.
fn keep(table: &Table, (target, source): Pair, asked: &mut Vec<Pair>) -> Set {
    let (t, s) = (&table.types[target], &table.types[source]);
    let mut kept = heads_keep(table, t, s);
    for (of_t, of_s) in t.methods.iter().zip(&s.methods) {
        kept = kept.and(states_keep(of_t, of_s));
        // R7
        if let (Some(t), Some(s)) = (of_t.signature(), of_s.signature()) {
            if !shapes_agree(t, s) {
                return Set::EMPTY;
            }
            list_asked(t, s, asked);
        }
    }
    kept
}

/// What each relation asks of two types, their methods aside.
fn heads_keep(table: &Table, t: &Type, s: &Type) -> Set {
    let same = t.representation == s.representation;
    let alike = t.is_ref() == s.is_ref();
    let category = table.category_le(t.category, s.category);
    Set::of(|relation| match relation {
        // R8
        Relation::Subtype => same && category && (!t.own || s.own),
        // R12
        Relation::SubtypeOwnAside => same && category,
        // R9
        Relation::Strict => alike && category,
        // R10, R11
        Relation::Loose | Relation::Free => alike,
    })
}

/// What each relation asks of the two states of a method.
fn states_keep(of_t: &MethodState, of_s: &MethodState) -> Set {
    Set::of(|relation| match relation {
        Relation::Subtype | Relation::SubtypeOwnAside => state_le(of_t, of_s),
        Relation::Strict => !of_t.is_avail() || of_s.is_avail(),
        Relation::Loose => !of_t.is_avail() || of_s.signature().is_some(),
        Relation::Free => true,
    })
}

/// a ≤ b (R1).
pub fn state_le(a: &MethodState, b: &MethodState) -> bool {
    use MethodState::{Avail, Denied, Optional, Unavail};
    match a {
        Denied => true,
        Optional(_) => matches!(b, Optional(_) | Avail(_) | Unavail),
        Avail(_) => matches!(b, Avail(_)),
        Unavail => matches!(b, Unavail),
    }
}

/// R4.
fn shapes_agree(t: &Signature, s: &Signature) -> bool {
    t.arguments.len() == s.arguments.len() && t.answer.is_some() == s.answer.is_some()
}

/// Lists the pairs that two signatures ask about.
fn list_asked(t: &Signature, s: &Signature, asked: &mut Vec<Pair>) {
    // R5
    let answers = t.answer.iter().zip(&s.answer);
    asked.extend(answers.map(|(of_t, of_s)| (*of_t, *of_s)));
    // R6
    let arguments = t.arguments.iter().zip(&s.arguments);
    asked.extend(arguments.map(|(of_t, of_s)| (*of_s, *of_t)));
}
