//! Generated sheets, whole and damaged, and the worst tables known.

use reference::damage::damage;
use reference::generators::{self, Plan, BIG, FULL, MEDIUM, SMALL};
use reference::random::Random;
use reference::raw::{RawTable, BROADER_BYTES, METHOD_BYTES};
use reference::sheet;
use reference::table::{
    Broader, MethodState, Representation, Signature, Table, Type, MAX_ARGUMENTS, MAX_CATEGORIES,
    MAX_METHODS, MAX_SHEET_TYPES, MAX_SUBJECTS,
};

/// A plan, its name, and how many seeds of it to take.
pub struct Share {
    pub name: &'static str,
    pub plan: Plan,
    pub seeds: u64,
}

/// Shares of small, medium and big tables, and of such that requests fill.
pub fn shares(small: u64, medium: u64, big: u64, full: u64) -> [Share; 4] {
    let share = |name, plan: &Plan, seeds| Share {
        name,
        plan: plan.clone(),
        seeds,
    };
    [
        share("small", &SMALL, small),
        share("medium", &MEDIUM, medium),
        share("big", &BIG, big),
        share("full", &FULL[0], full),
    ]
}

/// The sheet table of a plan and seed.
pub fn table(plan: &Plan, seed: u64) -> Table {
    let table = generators::table(&mut Random::new(seed), plan);
    assert!(!table.own_in_signature(), "generated tables are right");
    table
}

/// The first generated table with 48 types.
pub fn with_48_types() -> Table {
    (0..)
        .map(|seed| table(&BIG, seed))
        .find(|table| table.sheet_types == 48)
        .expect("one seed of thirty or so has 48 types")
}

/// A sheet with as many of everything as there can be, and long lines.
pub fn largest() -> Table {
    let signature = Signature {
        arguments: (MAX_SHEET_TYPES - MAX_ARGUMENTS..MAX_SHEET_TYPES).collect(),
        answer: Some(43),
    };
    Table {
        subjects: MAX_SUBJECTS,
        methods: MAX_METHODS,
        broader: (1..=MAX_CATEGORIES)
            .map(|category| Broader {
                first: category - 1,
                second: Some(category / 2),
            })
            .collect(),
        sheet_types: MAX_SHEET_TYPES,
        types: (0..MAX_SHEET_TYPES)
            .map(|number| Type {
                representation: Representation::Ref,
                category: number % (MAX_CATEGORIES + 1),
                own: number < 2,
                methods: vec![MethodState::Optional(signature.clone()); MAX_METHODS],
            })
            .collect(),
        keys: Vec::new(),
    }
}

/// A generated sheet with one to three damages.
pub fn damaged(seed: u64) -> Vec<u8> {
    let mut random = Random::new(seed ^ 0x000d_a3a9_ed00_0000);
    let plan = random.pick(&[SMALL, SMALL, MEDIUM, BIG]).clone();
    let mut text = sheet::text(&table(&plan, seed));
    for _ in 0..random.within((1, 3)) {
        damage(&mut random, &mut text);
    }
    text
}

/// The worst case: `count` reference types that are alike but for where their signatures lead, so that every pair is reached.
/// All are in the last category: it has to be the same one, as pairs are reached both ways round, and the walk to the last is
/// the longest.
pub fn worst(count: usize, categories: usize) -> RawTable {
    let mut raw = RawTable {
        subjects: 1,
        methods: MAX_METHODS as u32,
        categories: categories as u32,
        sheet_types: count.min(MAX_SHEET_TYPES) as u32,
        types: count as u32,
        ..RawTable::default()
    };
    for category in 1..=categories {
        let at = category * BROADER_BYTES;
        let links = [2, category - 1, category.saturating_sub(2)].map(|link| link as u8);
        raw.broader[at..at + BROADER_BYTES].copy_from_slice(&links);
    }
    for number in 0..count {
        raw.entry_mut(number)[1] = categories as u8;
        for method in 0..MAX_METHODS {
            let signature = worst_method(count, number, method);
            raw.method_mut(number, method).copy_from_slice(&signature);
        }
    }
    raw
}

/// A method of the worst case: avail, four arguments and an answer. The factor of the second argument is another in each method,
/// so that two types any distance apart are led to.
fn worst_method(count: usize, number: usize, method: usize) -> [u8; METHOD_BYTES] {
    let within = if number < MAX_SHEET_TYPES {
        count.min(MAX_SHEET_TYPES)
    } else {
        count
    };
    let named = |factor: usize| (number * factor + 1 + 3 * method) % within;
    avail([1, method + 1, 5, 7].map(named), Some(named(3)))
}

/// The bytes of a method that is avail and has as many arguments as there can be (B8 to B10).
pub fn avail(arguments: [usize; MAX_ARGUMENTS], answer: Option<usize>) -> [u8; METHOD_BYTES] {
    let mut bytes = [0; METHOD_BYTES];
    bytes[..2].copy_from_slice(&[2, MAX_ARGUMENTS as u8]);
    bytes[2..2 + MAX_ARGUMENTS].copy_from_slice(&arguments.map(|one| one as u8));
    bytes[METHOD_BYTES - 1] = answer.map_or(0, |answer| answer as u8 + 1);
    bytes
}
