//! Hostile tables and states: reached by requests, then bent within the rules
//! of 2, filled with noise where anything may stand, and broken.

mod bending;
mod breaking;
mod limits;
mod noise;

pub use breaking::break_one;
pub use limits::{Limit, LIMITS};
pub use noise::noise;

use crate::check::{self, REASONS};
use crate::generators::{self, Plan, LONG, MEDIUM, SMALL, TINY};
use crate::model::Model;
use crate::random::Random;
use crate::raw::RawState;
use crate::requests::Request;
use crate::state::State;
use crate::table::{Table, MAX_ARGUMENTS};
use crate::tiny;
use bending::{bend, fill};

/// A hostile state and requests to put to it, each to the same state or to
/// what the one before left.
#[derive(Clone, Debug)]
pub struct Hostile {
    pub state: RawState,
    pub requests: Vec<Request>,
}

/// A hostile state from a seed.
pub fn generate(seed: u64) -> Hostile {
    let mut random = Random::new(seed ^ 0x0005_7a7e_0000_0000);
    if random.chance(8) {
        let limit = *random.pick(&LIMITS);
        return limits::at_limit(&mut random, limit);
    }
    let state = bent(&mut random);
    handed_in(&mut random, state)
}

/// One at a limit of calls (Q9, H1, H17); seeds take the limits in turn. `limit(seed)` is which.
pub fn at_call_limits(seed: u64) -> Hostile {
    let mut random = Random::new(seed ^ 0x000c_a115_0000_0000);
    limits::at_limit(&mut random, limit(seed))
}

/// The limit that a seed is about.
pub fn limit(seed: u64) -> Limit {
    LIMITS[(seed % LIMITS.len() as u64) as usize]
}

/// One in which hardly a place, cell or call is free.
pub fn crowded(seed: u64) -> Hostile {
    let mut random = Random::new(seed ^ 0x000c_4024_0000_0000);
    let mut state = bent(&mut random);
    for kind in 0..3 {
        if random.chance(60) {
            fill(&mut random, &mut state, kind);
        }
    }
    handed_in(&mut random, state)
}

/// One for each tiny sheet, in the order of P24.
pub fn on_tiny(seed: u64) -> Vec<Hostile> {
    let mut random = Random::new(seed ^ 0x0057_a7e7_1147_0000);
    let mut hostile = |table| {
        let state = bent_from(&mut random, &TINY, table);
        handed_in(&mut random, state)
    };
    tiny::tables().into_iter().map(&mut hostile).collect()
}

/// A state that requests led to, mostly bent.
fn bent(random: &mut Random) -> State {
    let plans = [SMALL, SMALL, MEDIUM, LONG[0].clone(), LONG[0].clone()];
    let plan = random.pick(&plans).clone();
    let table = generators::table(random, &plan);
    bent_from(random, &plan, table)
}

fn bent_from(random: &mut Random, plan: &Plan, table: Table) -> State {
    let mut state = generators::requests(random, plan, table).model.state;
    if random.chance(70) {
        for _ in 0..random.within((1, 12)) {
            bend(random, &mut state);
        }
    }
    state
}

/// Requests for a state, noise in its bytes, and rules broken.
fn handed_in(random: &mut Random, state: State) -> Hostile {
    let right = check::state(&RawState::of(&state)).ok().map(Model::new);
    let requests = (0..random.within((3, 10)))
        .map(|_| request(random, &state, right.as_ref()))
        .collect();
    let mut raw = RawState::of(&state);
    if random.chance(60) {
        noise(random, &mut raw);
    }
    if random.chance(45) {
        for _ in 0..random.weighted(&[0, 80, 20]) {
            let reason = *random.pick(&REASONS);
            break_one(random, &mut raw, reason);
        }
    }
    Hostile {
        state: raw,
        requests,
    }
}

/// A request; guided by the state if it is right.
fn request(random: &mut Random, state: &State, right: Option<&Model>) -> Request {
    let mut request = match right {
        Some(model) if random.chance(90) => {
            let mut plan = SMALL;
            plan.weights = [10, 30, 35, 20, 5];
            generators::request(random, &plan, model)
        }
        _ => generators::any_request(random, state),
    };
    if random.chance(4) {
        lengthen(random, &mut request);
    }
    request
}

/// Brings a call to more arguments than any signature has, which no script can (P7).
fn lengthen(random: &mut Random, request: &mut Request) {
    if let Request::Call { arguments, .. } = request {
        let more = *random.pick(&[1, 1, 2, 60]);
        arguments.resize(MAX_ARGUMENTS + more, 0);
    }
}
