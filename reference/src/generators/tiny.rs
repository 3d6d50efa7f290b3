//! Every tiny sheet (P22) as an input, before those of a profile (02 k).

use super::{generate, requests, spoil, text, Profile, TINY};
use crate::random::Random;
use crate::table::Table;
use crate::tiny;
use std::ops::Range;

/// Every tiny sheet with requests behind it, in the order of P24.
pub fn on_tiny(seed: u64) -> Vec<Vec<u8>> {
    let mut random = Random::new(seed ^ 0x0007_1147_0000_0000);
    let mut input = |table: &Table| {
        let listed = requests(&mut random, &TINY, table.clone());
        text(table, &listed.requests)
    };
    tiny::tables().iter().map(&mut input).collect()
}

/// Every tiny sheet alone and then each with requests, with a few things bad.
fn damaged_tiny(seed: u64) -> Vec<Vec<u8>> {
    let mut random = Random::new(seed ^ 0x0007_1147_bad0_0000);
    let mut inputs = [tiny::texts(), on_tiny(seed)].concat();
    for input in &mut inputs {
        spoil(&mut random, input);
    }
    inputs
}

/// What goes before the inputs of a profile: every tiny sheet alone, and behind them each with requests, or
/// for the damaged profile each alone and each with requests, with a few things bad.
pub fn tiny_inputs(profile: Profile) -> Vec<Vec<u8>> {
    let behind = match profile {
        Profile::Damaged => damaged_tiny(0),
        _ => on_tiny(0),
    };
    [tiny::texts(), behind].concat()
}

/// Inputs for a test, each with its name: every tiny sheet alone (`tiny 0` to `tiny 129`) and what else
/// goes before the profile's, and then the profile's.
pub fn tiny_first(profile: Profile, seeds: Range<u64>) -> impl Iterator<Item = (String, Vec<u8>)> {
    let tiny = tiny_inputs(profile).into_iter().enumerate();
    let tiny = tiny.map(|(number, input)| (format!("tiny {number}"), input));
    tiny.chain(seeds.map(move |seed| {
        let name = format!("{} {seed}", profile.name());
        (name, generate(seed, profile))
    }))
}
