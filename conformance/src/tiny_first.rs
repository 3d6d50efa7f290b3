//! Inputs for the tests, and every tiny sheet before all others (02 k): all 130, in the order of P24.

use crate::inputs::{self, Share};
use reference::generators::{self, generate, Profile};
use reference::hostile::{self, Hostile};
use reference::table::Table;
use reference::tiny;
use std::ops::Range;

/// Something to test with: what it is called, a number to choose the rest by, and itself.
pub struct Input<Of> {
    pub from: String,
    pub seed: u64,
    pub of: Of,
}

impl<Of> Input<Of> {
    fn new(name: &str, seed: u64, of: Of) -> Input<Of> {
        let from = format!("{name} seed {seed}");
        Input { from, seed, of }
    }
}

fn tiny<Of>(all: Vec<Of>) -> impl Iterator<Item = Input<Of>> {
    let numbered = (0..).zip(all);
    numbered.map(|(seed, of)| Input::new("tiny", seed, of))
}

/// Tables of sheets, then those of the shares.
pub fn tables(shares: [Share; 4]) -> impl Iterator<Item = Input<Table>> {
    let of_share = |share: Share| {
        let input = move |seed| Input::new(share.name, seed, inputs::table(&share.plan, seed));
        (0..share.seeds).map(input)
    };
    tiny(tiny::tables()).chain(shares.into_iter().flat_map(of_share))
}

/// The tiny sheets as they are, and sheets with a few things bad, some of them with requests behind.
pub fn damaged_sheets(seeds: Range<u64>) -> impl Iterator<Item = Input<Vec<u8>>> {
    let damaged = |seed| Input::new("damaged", seed, inputs::damaged(seed));
    tiny(generators::tiny_inputs(Profile::Damaged)).chain(seeds.map(damaged))
}

/// Scripts: what goes before those of the first profile, and so many of each.
pub fn scripts(profiles: &[(Profile, u64)]) -> impl Iterator<Item = Input<Vec<u8>>> + '_ {
    let (first, _) = profiles[0];
    let of_profile = |(profile, seeds): &(Profile, u64)| {
        let profile = *profile;
        (0..*seeds).map(move |seed| Input::new(profile.name(), seed, generate(seed, profile)))
    };
    tiny(generators::tiny_inputs(first)).chain(profiles.iter().flat_map(of_profile))
}

/// States handed in.
pub fn states(seeds: Range<u64>) -> impl Iterator<Item = Input<Hostile>> {
    let hostile = |seed| Input::new("hostile", seed, hostile::generate(seed));
    tiny(hostile::on_tiny(0)).chain(seeds.map(hostile))
}

/// States handed in; every other seed's is nearly full.
pub fn crowded_states(seeds: Range<u64>) -> impl Iterator<Item = Input<Hostile>> {
    let hostile = |seed| {
        let state = match seed % 2 {
            0 => hostile::generate(seed / 2),
            _ => hostile::crowded(seed / 2),
        };
        Input::new("handed in", seed, state)
    };
    tiny(hostile::on_tiny(0)).chain(seeds.map(hostile))
}

/// States handed in that are at a limit of calls (Q9, H1, H17); seeds take the limits in turn.
pub fn call_limits(seeds: Range<u64>) -> impl Iterator<Item = Input<Hostile>> {
    let at_limit = |seed| Input::new("limits of calls", seed, hostile::at_call_limits(seed));
    tiny(hostile::on_tiny(0)).chain(seeds.map(at_limit))
}
