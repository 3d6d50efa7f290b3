//! Generated inputs: a sheet and a list of requests; marks and arrivals.

mod doors;
mod lists;
mod plans;
mod tables;
mod times;
mod tiny;
mod two;

pub use doors::{doors_input, doors_text};
pub use lists::{any_request, request, requests, sure_call};
pub use plans::{Goal, Plan, Profile, BIG, FULL, LONG, MEDIUM, PROFILES, SMALL, TINY};
pub use tables::table;
pub use times::{doors_lists, Lists};
pub use tiny::{on_tiny, tiny_first, tiny_inputs};
pub use two::{two_lists, TwoLists};

use crate::damage::{damage, lengthen};
use crate::random::Random;
use crate::requests::Request;
use crate::script;
use crate::sheet;
use crate::table::Table;

/// The plan of the full ones that is for seeds of their own: its lists are long, and a few do.
const ALL_CALLS: usize = FULL.len() - 1;
const ALL_CALLS_AT: u64 = 5;

/// A sheet and a list of requests, as the program reads them.
pub fn generate(seed: u64, profile: Profile) -> Vec<u8> {
    let mut random = Random::new(seed ^ ((profile as u64) << 56));
    match profile {
        Profile::Small => input(&mut random, &SMALL),
        Profile::Medium => input(&mut random, &MEDIUM),
        Profile::Big => input(&mut random, &BIG),
        Profile::Full if seed % 11 == ALL_CALLS_AT => input(&mut random, &FULL[ALL_CALLS]),
        Profile::Full => one_of(&mut random, &FULL[..ALL_CALLS]),
        Profile::Long => one_of(&mut random, &LONG),
        Profile::Damaged => damaged(&mut random),
    }
}

fn one_of(random: &mut Random, plans: &[Plan]) -> Vec<u8> {
    let plan = random.pick(plans).clone();
    input(random, &plan)
}

/// A sheet and requests by a plan.
fn input(random: &mut Random, plan: &Plan) -> Vec<u8> {
    let (table, requests) = aimed(random, plan);
    text(&table, &requests)
}

/// The sheet of a table, and requests as far as an input may go (P1).
fn text(table: &Table, requests: &[Request]) -> Vec<u8> {
    let mut input = sheet::text(table);
    for request in requests {
        let line = script::line(request);
        if input.len() + line.len() > script::MAX_INPUT {
            break;
        }
        input.extend_from_slice(line.as_bytes());
    }
    input
}

/// A table and requests that reach the plan's goal, or the last of a few that
/// did not.
fn aimed(random: &mut Random, plan: &Plan) -> (Table, Vec<Request>) {
    let mut attempt = 1;
    loop {
        let table = table(random, plan);
        let listed = requests(random, plan, table.clone());
        if listed.reached || attempt == 6 {
            return (table, listed.requests);
        }
        attempt += 1;
    }
}

/// A small or medium input with a few things bad.
fn damaged(random: &mut Random) -> Vec<u8> {
    let plan = if random.chance(70) { SMALL } else { MEDIUM };
    let mut text = input(random, &plan);
    spoil(random, &mut text);
    text
}

/// Makes a few things bad in a text.
fn spoil(random: &mut Random, text: &mut Vec<u8>) {
    for _ in 0..random.weighted(&[0, 60, 25, 15]) {
        if random.chance(2) {
            lengthen(random, text);
        } else {
            damage(random, text);
        }
    }
}
