//! States at the limits of calls (Q9, H1, H17), and calls put to them by the subject at its limit
//! and by another.

use super::breaking::full_calls;
use super::{bent, noise, request, Hostile};
use crate::check;
use crate::model::Model;
use crate::random::Random;
use crate::raw::RawState;
use crate::requests::Request;
use crate::state::{Call, Cell, State, MAX_CALLS, MAX_CALLS_EACH, MAX_CELLS};
use crate::table::{MethodState, Signature, TypeNo, MAX_SUBJECTS};

/// How the calls of a state stand to their limits.
#[derive(Clone, Copy, PartialEq, Eq, Debug)]
pub enum Limit {
    /// So many calls of one subject, and few or many of others.
    Of(usize),
    /// The same, with some of them answered or all.
    Answered(usize),
    /// 32 of a subject counted, and records of it past the count too.
    PastTheCount,
    /// 32 of a subject through cells that it does not hold.
    ThroughOthersCells,
    /// More than 32 through the cells of a subject that made fewer.
    OthersThroughItsCells,
    /// 32 of each of sixteen subjects but for so many of one.
    AllBut(usize),
    /// 512 calls, 33 of one subject and 31 of another.
    AllWithOneMore,
    /// A count above 512, behind 512 right records.
    Count(u32),
}

/// Every limit, in the order that seeds take them.
pub const LIMITS: [Limit; 16] = [
    Limit::Of(MAX_CALLS_EACH - 1),
    Limit::Of(MAX_CALLS_EACH),
    Limit::Of(MAX_CALLS_EACH + 1),
    Limit::Answered(MAX_CALLS_EACH - 1),
    Limit::Answered(MAX_CALLS_EACH),
    Limit::Answered(MAX_CALLS_EACH + 1),
    Limit::Of(MAX_CALLS_EACH * 2),
    Limit::PastTheCount,
    Limit::ThroughOthersCells,
    Limit::OthersThroughItsCells,
    Limit::AllBut(0),
    Limit::AllBut(1),
    Limit::AllBut(2),
    Limit::AllWithOneMore,
    Limit::Count(MAX_CALLS as u32 + 1),
    Limit::Count(u32::MAX),
];

/// A state at one of these limits, with the calls of it and of others that the limit is about.
pub fn at_limit(random: &mut Random, limit: Limit) -> Hostile {
    let mut scene = Scene::new(random, limit);
    scene.calls(random, limit);
    scene.hand_in(random, limit)
}

/// A right state with a cell for one subject and one for another, both of a type with a method to
/// call that has no arguments, so that a call of it meets nothing behind 18 (C16).
struct Scene {
    state: State,
    caller: usize,
    other: usize,
    /// Their cells, and the method.
    cells: [usize; 2],
    method: usize,
}

impl Scene {
    fn new(random: &mut Random, limit: Limit) -> Scene {
        loop {
            let mut state = bent(random);
            state.table.subjects = match limit {
                Limit::AllBut(_) | Limit::AllWithOneMore | Limit::Count(_) => MAX_SUBJECTS,
                _ => state.table.subjects.max(random.within((2, MAX_SUBJECTS))),
            };
            state.calls.clear();
            let right = check::state(&RawState::of(&state)).is_ok();
            let room = state.cells.len() + 2 <= MAX_CELLS;
            let type_ = sheet_ref(random, &state);
            if let (true, true, Some(type_), false) = (right, room, type_, state.places.is_empty())
            {
                return Scene::in_state(random, state, type_);
            }
        }
    }

    fn in_state(random: &mut Random, mut state: State, type_: TypeNo) -> Scene {
        let method = random.below(state.table.methods);
        state.table.types[type_].methods[method] = MethodState::Avail(Signature::default());
        let caller = random.below(state.table.subjects);
        let other = (caller + random.within((1, state.table.subjects - 1))) % state.table.subjects;
        let cells = [caller, other].map(|holder| {
            let place = random.below(state.places.len());
            state.cells.push(Cell {
                holder,
                type_,
                place,
            });
            state.cells.len() - 1
        });
        Scene {
            state,
            caller,
            other,
            cells,
            method,
        }
    }

    /// Adds so many calls of a subject, each through one of these cells, or any.
    fn add(&mut self, random: &mut Random, caller: usize, count: usize, cells: &[usize]) {
        for _ in 0..count {
            let any = random.below(self.state.cells.len());
            self.state.calls.push(Call {
                caller,
                cell: random.pick_some(cells).copied().unwrap_or(any),
                method: random.below(self.state.table.methods),
                answered: false,
            });
        }
    }

    /// Adds calls of all subjects but the two: none, a few, or as many as each may make.
    fn add_others(&mut self, random: &mut Random) {
        let most = *random.pick(&[0, 3, MAX_CALLS_EACH]);
        for caller in 0..self.state.table.subjects {
            if caller != self.caller && caller != self.other {
                let count = random.within((0, most));
                self.add(random, caller, count, &[]);
            }
        }
    }

    fn calls(&mut self, random: &mut Random, limit: Limit) {
        let (caller, other) = (self.caller, self.other);
        let held = |state: &State, holder: usize| -> Vec<usize> {
            let cells = 0..state.cells.len();
            cells
                .filter(|cell| state.cells[*cell].holder == holder)
                .collect()
        };
        match limit {
            Limit::Of(count) | Limit::Answered(count) => self.add(random, caller, count, &[]),
            Limit::PastTheCount => self.add(random, caller, MAX_CALLS_EACH, &[]),
            Limit::ThroughOthersCells => {
                let cells = held(&self.state, other);
                self.add(random, caller, MAX_CALLS_EACH, &cells);
            }
            Limit::OthersThroughItsCells => {
                let cells = held(&self.state, other);
                let few = random.within((1, MAX_CALLS_EACH - 1));
                self.add(random, caller, MAX_CALLS_EACH, &cells);
                self.add(random, other, few, &cells);
            }
            Limit::AllBut(less) => {
                for one in 0..MAX_SUBJECTS {
                    let missing = if one == other { less } else { 0 };
                    self.add(random, one, MAX_CALLS_EACH - missing, &[]);
                }
            }
            Limit::AllWithOneMore => {
                for one in 0..MAX_SUBJECTS {
                    let count = match one {
                        one if one == caller => MAX_CALLS_EACH + 1,
                        one if one == other => MAX_CALLS_EACH - 1,
                        _ => MAX_CALLS_EACH,
                    };
                    self.add(random, one, count, &[]);
                }
            }
            Limit::Count(_) => {}
        }
        let alone = matches!(limit, Limit::AllBut(_) | Limit::AllWithOneMore);
        if !alone {
            self.add_others(random);
        }
        if limit != Limit::Of(MAX_CALLS_EACH + 1) {
            self.answer(random, limit);
        }
        shuffle(random, &mut self.state.calls);
    }

    /// Takes some calls as answered.
    fn answer(&mut self, random: &mut Random, limit: Limit) {
        let often = match limit {
            Limit::Answered(_) => *random.pick(&[5, 50, 100]),
            _ => *random.pick(&[0, 30]),
        };
        for call in &mut self.state.calls {
            call.answered = random.chance(often);
        }
        let caller = self.caller;
        let of_caller = |call: &&mut Call| call.caller == caller;
        if let (Limit::Answered(_), Some(call)) =
            (limit, self.state.calls.iter_mut().find(of_caller))
        {
            call.answered = true;
        }
    }

    /// A call without arguments by one of the two.
    fn call(&self, of_caller: bool) -> Request {
        let (subject, cell) = if of_caller {
            (self.caller, self.cells[0])
        } else {
            (self.other, self.cells[1])
        };
        Request::Call {
            subject: subject as i64,
            cell: cell as i64,
            method: self.method as i64,
            arguments: Vec::new(),
        }
    }

    /// Calls by both, those of the one that are refused for an earlier reason (6, 14, 15), and
    /// others.
    fn requests(&self, random: &mut Random) -> Vec<Request> {
        let mut requests = vec![self.call(true), self.call(false)];
        for _ in 0..random.within((0, 3)) {
            requests.push(self.call(random.chance(60)));
        }
        for (cell, method, argument) in [(1, 0, false), (0, 99, false), (0, 0, true)] {
            let one = Request::Call {
                subject: self.caller as i64,
                cell: self.cells[cell] as i64,
                method: self.method as i64 + method,
                arguments: vec![0; usize::from(argument)],
            };
            if random.chance(40) {
                requests.push(one);
            }
        }
        let right = check::state(&RawState::of(&self.state))
            .ok()
            .map(Model::new);
        for _ in 0..random.below(3) {
            requests.push(request(random, &self.state, right.as_ref()));
        }
        if random.chance(60) {
            shuffle(random, &mut requests);
        }
        requests
    }

    fn hand_in(self, random: &mut Random, limit: Limit) -> Hostile {
        let requests = self.requests(random);
        let mut raw = RawState::of(&self.state);
        if random.chance(50) {
            noise(random, &mut raw);
        }
        match limit {
            Limit::PastTheCount => {
                let calls = raw.calls as usize;
                for number in calls..MAX_CALLS.min(calls + 8) {
                    raw.call_mut(number)[0] = self.caller as u8;
                }
            }
            Limit::Count(count) => {
                full_calls(random, &mut raw);
                raw.calls = count;
            }
            _ => {}
        }
        Hostile {
            state: raw,
            requests,
        }
    }
}

fn sheet_ref(random: &mut Random, state: &State) -> Option<TypeNo> {
    let list: Vec<TypeNo> = (0..state.table.sheet_types)
        .filter(|number| state.table.is_sheet_ref(*number))
        .collect();
    random.pick_some(&list).copied()
}

fn shuffle<T>(random: &mut Random, list: &mut [T]) {
    for at in (1..list.len()).rev() {
        list.swap(at, random.below(at + 1));
    }
}
