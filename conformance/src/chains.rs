//! Tables in which one derivation nests deep: each new type's signatures ask for the next new type before it is complete.
//!
//! 119 nested types are the most. Of n types there are 2n(n - 1) pairs for Sub and Sup, and the outermost may be Closed; 8 types
//! give at most 113 new ones, and with 9 or more the 128 leave room for 119 or fewer.

use crate::inputs::avail;
use reference::entry;
use reference::random::Random;
use reference::raw::{self, RawTable};

/// The most types that one derivation can nest.
pub const MOST: usize = 119;

/// The sheet types of a chain: eight that name one another, and one on top.
const TYPES: usize = 9;
const TOP: usize = TYPES - 1;
const METHODS: usize = 16;

/// Kind, T and S of the derivation that goes through the chain: Closed(8,0).
pub const START: (usize, i64, i64) = (2, TOP as i64, 0);

/// A chain. By method 0 alone, Closed(8,0) asks for Sub(8,1), that one for Sub(8,2), up to Sub(8,`walk`); by the other methods,
/// which name any of the eight, those ask for Sub and Sup of pairs of the eight: 1 + `walk` + 112 new types if all are reached.
pub fn chain(walk: usize, seed: u64) -> RawTable {
    let mut random = Random::new(seed);
    let mut table = RawTable {
        subjects: 1,
        methods: METHODS as u32,
        sheet_types: TYPES as u32,
        types: TYPES as u32,
        ..RawTable::default()
    };
    for number in 0..TYPES {
        let next = if number == TOP {
            TOP
        } else {
            (number + 1) % TOP
        };
        let first = if number == walk {
            [3, 0, 0, 0, 0, 0, 0]
        } else {
            [2, 0, 0, 0, 0, 0, next as u8 + 1]
        };
        table.method_mut(number, 0).copy_from_slice(&first);
        for method in 1..METHODS {
            let mut any = || random.below(TOP);
            let arguments = std::array::from_fn(|_| any());
            let bytes = avail(arguments, Some(any()));
            table.method_mut(number, method).copy_from_slice(&bytes);
        }
    }
    table
}

/// How deep the types from `first` on were nested when they were derived, the one with that number first: a type that a
/// signature names for the first time was derived for it (D17).
pub fn nesting(table: &RawTable, first: usize) -> usize {
    let mut met = vec![false; table.types as usize];
    depth(table, first, first, &mut met)
}

fn depth(table: &RawTable, first: usize, number: usize, met: &mut [bool]) -> usize {
    met[number] = true;
    let mut deepest = 0;
    for method in 0..table.methods as usize {
        let bytes = table.method(number, method);
        if !matches!(bytes[0], 1 | 2) {
            continue;
        }
        let signature = raw::signature(bytes);
        for named in signature.arguments.into_iter().chain(signature.answer) {
            if named >= first && !met[named] {
                deepest = deepest.max(depth(table, first, named, met));
            }
        }
    }
    deepest + 1
}

/// The first chain that nests as deep as can be, and its seed.
pub fn deepest() -> (RawTable, u64) {
    let (kind, t, s) = START;
    (0..)
        .map(|seed| (chain(MOST - 113, seed), seed))
        .find(|(table, _)| {
            let mut after = table.clone();
            let number = entry::derive(&mut after, kind, t, s);
            number.is_ok_and(|number| nesting(&after, number) == MOST)
        })
        .expect("one seed of twenty or so gives it")
}
