//! Sheet tables whose types nearly all reach one another, and on which adapters are made all the same.

use crate::inputs::{avail, worst};
use crate::states::{call, moved, new};
use reference::raw::{RawTable, METHOD_BYTES};
use reference::requests::Request;
use reference::table::{MAX_ARGUMENTS, MAX_CATEGORIES, MAX_METHODS, MAX_SHEET_TYPES, MAX_TYPES};

/// The first of the two types between which references move.
const SIDES: usize = MAX_SHEET_TYPES - 2;

/// Two number types, w32 and w64.
pub fn put_numbers(table: &mut RawTable, first: usize) {
    for (number, code) in [(first, 1), (first + 1, 2)] {
        let entry = table.entry_mut(number);
        entry.fill(0);
        entry[0] = code;
    }
}

/// The answer of the last method.
pub fn last_answer(table: &mut RawTable, number: usize, answer: usize) {
    table.method_mut(number, MAX_METHODS - 1)[6] = answer as u8 + 1;
}

/// How many types are alike in the tables below, and reach one another.
pub const ALIKE: usize = MAX_SHEET_TYPES - 4;

/// A table of 48 types, of which the first 44 are those of the worst case.
fn with_alike() -> RawTable {
    let mut table = worst(ALIKE, MAX_CATEGORIES);
    (table.sheet_types, table.types) = (MAX_SHEET_TYPES as u32, MAX_SHEET_TYPES as u32);
    table
}

/// 44 types of the worst case, two numbers, and two types that differ in one answer alone, w32 and w64: moves between them make
/// an adapter each.
pub fn wrapping() -> RawTable {
    let mut table = with_alike();
    put_numbers(&mut table, ALIKE);
    for side in 0..2 {
        let first = table.entry(0).to_vec();
        table.entry_mut(SIDES + side).copy_from_slice(&first);
        last_answer(&mut table, SIDES + side, ALIKE + side);
    }
    table
}

/// One of the two types, in turn.
pub fn side(number: usize) -> i64 {
    (SIDES + number % 2) as i64
}

/// Subject 0 makes three objects and moves the last through so many adapters: cells 0 and 1 lead to objects, the last cell, of
/// number 2 and `layers`, to the outermost adapter.
pub fn climb(layers: usize) -> Vec<Request> {
    climb_with([1, 3], layers)
}

/// The same with the types of cells 0 and 1.
fn climb_with(types: [i64; 2], layers: usize) -> Vec<Request> {
    let objects = types.map(|one| new(0, one));
    let mut list = [&objects[..], &[new(side(0), side(0))]].concat();
    list.extend((0..layers).map(|one| moved(2 + one as i64, side(one + 1))));
    list
}

/// The two methods that no object has.
const MISSING: [usize; 2] = [MAX_METHODS - 2, MAX_METHODS - 1];

/// The method that carries values, the first of the two types between which they turn, and the type that both are made of: one that
/// is an odd number away from type 0 and from the cells' types, since not all pairs are reached otherwise.
const CARRIES: usize = 0;
pub const TURNS: usize = MAX_SHEET_TYPES - 4;
const MADE_OF: usize = 5;
const OF_CELLS: [i64; 2] = [2, 4];

/// 44 types of the worst case that say unavail of two methods; two types that are one of these but each deny another of the two
/// methods; and two classes whose method 0 carries values of the one, or of the other. Moves between the classes make an adapter
/// each, and so values turn from the one type to the other at every adapter. Unavail is not below denied: a reference that turns is
/// of no subtype, though its object does for what is left (Sub) of the two types, and to find that out every pair of the 44 is reached.
fn turning(carries: impl Fn(usize) -> [u8; METHOD_BYTES]) -> RawTable {
    let mut table = with_alike();
    for number in 0..ALIKE {
        for method in MISSING {
            table.method_mut(number, method).fill(0);
            table.method_mut(number, method)[0] = 3;
        }
    }
    let one = table.entry(MADE_OF).to_vec();
    for (turn, missing) in MISSING.into_iter().enumerate() {
        table.entry_mut(TURNS + turn).copy_from_slice(&one);
        table.method_mut(TURNS + turn, missing)[0] = 0;
        let class = SIDES + turn;
        table.entry_mut(class)[1] = MAX_CATEGORIES as u8;
        for method in 0..MAX_METHODS {
            table.method_mut(class, method)[0] = 3;
        }
        let bytes = carries(TURNS + turn);
        table.method_mut(class, CARRIES).copy_from_slice(&bytes);
    }
    table
}

/// Types that turn among the arguments of a call: it takes four.
pub fn turning_arguments() -> RawTable {
    turning(|turn| avail([turn; MAX_ARGUMENTS], None))
}

/// A type that turns as the last argument of four, while the others are of one type everywhere.
pub fn turning_last() -> RawTable {
    turning(|turn| {
        let mut arguments = [MADE_OF; MAX_ARGUMENTS];
        arguments[MAX_ARGUMENTS - 1] = turn;
        avail(arguments, None)
    })
}

/// A type that turns as the answer of a call without arguments.
pub fn turning_answer() -> RawTable {
    turning(|turn| [2, 0, 0, 0, 0, 0, turn as u8 + 1])
}

/// The most adapters that a value can turn at: four new types for the moves between the classes, two for each adapter, of which one is
/// the value's, and one more for each when a value has turned there.
pub const MOST_TURNS: usize = (MAX_TYPES - MAX_SHEET_TYPES - 4) / 3;

/// The climb in a table whose types turn.
pub fn turning_climb(layers: usize) -> Vec<Request> {
    climb_with(OF_CELLS, layers)
}

/// A call behind it, with references to both objects in turn.
pub fn turning_call(layers: usize, arguments: usize) -> Request {
    let given = (0..arguments).map(|one| one as i64 % 2).collect();
    call(2 + layers as i64, CARRIES as i64, given)
}
