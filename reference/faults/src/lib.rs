//! The reference model with deliberate faults, a copy for each file in edits/
//! (build.rs makes them). They exist so that tests can show that they find them.

use reference::raw::RawState;
use reference::refusal::Refusal;
use reference::requests::{Got, Request};
use reference::state::State;

/// Requests served one after the other: their results, and the state in the end.
pub type Run = fn(State, &[Request]) -> (Vec<Result<Got, Refusal>>, State);

/// A faulty model.
#[derive(Clone, Copy)]
pub struct Fault {
    /// The name of its edit.
    pub name: &'static str,
    pub run: Run,
}

/// The check of a state that is handed in: the state, or none for 2.
pub type Check = fn(&RawState) -> Option<State>;

/// A faulty check of what is handed in.
#[derive(Clone, Copy)]
pub struct CheckFault {
    /// The name of its edit.
    pub name: &'static str,
    pub check: Check,
}

/// The fault of a name.
pub fn named(name: &str) -> Fault {
    let found = ALL.iter().find(|fault| fault.name == name);
    *found.unwrap_or_else(|| panic!("no edit {name}"))
}

include!(concat!(env!("OUT_DIR"), "/faults.rs"));
