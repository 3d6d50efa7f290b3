//! Prints about forty small lists of requests with their results: some
//! written by hand, the others chosen from generated ones so that together
//! they meet as much as possible.

use reference::coverage::{self, Seen};
use reference::dump::account;
use reference::generators::{generate, Profile};
use reference::script;
use reference::serving;
use reference::state::State;
use reference::table::{Kind, MethodState, Table};
use std::collections::BTreeSet;

fn main() {
    let mut number = 0;
    for (name, sheet, list) in by_hand() {
        let input = format!("{sheet}{list}");
        print_list(&mut number, &name, input.as_bytes());
    }
    for input in chosen(26) {
        print_list(&mut number, "generated", &input);
    }
}

fn print_list(number: &mut usize, name: &str, input: &[u8]) {
    *number += 1;
    println!("==== list {number}: {name}");
    print!("{}", account(input));
    println!();
}

/// One sheet from counts and types: each type is `w32`, `w64`, or category,
/// own and method states.
fn sheet(subjects: usize, broader: &[&str], types: &[&[&str]]) -> String {
    let methods = types
        .iter()
        .map(|one| one.len().saturating_sub(2))
        .max()
        .unwrap_or(1)
        .max(1);
    let mut text = format!(
        "guide=1\nsubjects={subjects}\nmethods={methods}\ncats={}\n",
        broader.len()
    );
    for one in broader {
        text.push_str(&format!("under={one}\n"));
    }
    text.push_str(&format!("types={}\n", types.len()));
    for (number, one) in types.iter().enumerate() {
        text.push_str(&format!("type={number}\n"));
        match one {
            [word] => text.push_str(&format!("rep={word}\ncat=0\n")),
            [category, own, states @ ..] => {
                text.push_str(&format!("rep=ref\ncat={category}\nown={own}\n"));
                for state in states {
                    text.push_str(&format!("m={state}\n"));
                }
            }
            [] => unreachable!("a type has words"),
        }
    }
    text.push_str("end=sheet\n");
    text
}

/// The lines of requests that stand in a row, with a comma between two.
fn asked(requests: &str) -> String {
    let line = |request: &str| format!("do={request}\n");
    requests.split(", ").map(line).collect()
}

fn by_hand() -> Vec<(String, String, String)> {
    let p = sheet(
        3,
        &[],
        &[
            &["w32"],
            &["0", "no", "avail()0", "avail(0)-", "avail()-"],
            &["0", "no", "avail()0", "denied", "denied"],
            &["0", "no", "avail()0", "optional(0)-", "denied"],
            &["0", "yes", "avail()0", "avail(0)-", "avail()-"],
            &["0", "no", "denied", "avail(0)-", "denied"],
        ],
    );
    let three = asked("new 0 1 4, move 0 0 1 2, move 1 1 2 3");
    // Answers with references, recursive: 0 class, 1 lesser, 2 optional.
    let recursive = sheet(
        2,
        &[],
        &[
            &["0", "no", "avail()0", "avail()0"],
            &["0", "no", "avail()1", "denied"],
            &["0", "no", "avail()2", "optional()2"],
            &["0", "yes", "avail()0", "avail()0"],
        ],
    );
    // Arguments and answers with references: method 0 takes and gives one.
    let arguments = sheet(
        3,
        &[],
        &[
            &["0", "no", "avail(1)1", "avail()0"],
            &["0", "no", "avail(1)1", "denied"],
            &["0", "no", "avail(2)2", "optional()2"],
            &["0", "no", "avail(2)1", "denied"],
            &["0", "yes", "avail(1)1", "avail()2"],
        ],
    );
    // Categories: 1 under 0, 2 under 1, 3 under 0 and 2.
    let categories = sheet(
        2,
        &["0", "1", "0,2"],
        &[
            &["3", "no", "avail()-"],
            &["2", "no", "avail()-"],
            &["1", "no", "unavail"],
            &["0", "no", "optional()-"],
            &["3", "yes", "optional()-"],
        ],
    );
    let after = |requests: &str| three.clone() + &asked(requests);
    let list = |name: &str, sheet: &str, rest: &str| (name.into(), sheet.into(), rest.into());
    vec![
        list(
            "case P",
            &p,
            &after("move 1 1 2 5, move 2 2 1 4, move 2 2 0 4"),
        ),
        list(
            "case P, 10 and then the same as if nothing was asked",
            &p,
            &after("move 2 2 2 5, move 2 2 2 3"),
        ),
        list(
            "case P, order of new's refusals",
            &p,
            &asked(
                "new 3 9 9, new -1 1 4, new 0 0 2, new 0 2 2, new 0 1 0, new 0 1 6, new 0 4 4, \
                 new 2 1 5",
            ),
        ),
        list(
            "case P, order of move's refusals",
            &p,
            &after(
                "move 3 9 9 9, move 0 9 3 9, move 0 1 1 9, move 0 99 1 2, move 1 1 1 6, \
                 move 1 1 1 0, move 1 1 1 4, move 1 1 0 4",
            ),
        ),
        list(
            "case P, calls",
            &p,
            &after(
                "call 1 1 2, call 2 2 1 5, call 2 2 0, call 1 1 0 3, call 0 0 1, \
                 call 0 0 1 2147483648, call 0 0 1 2147483647, call 0 0 1 -2147483648, \
                 call 0 0 1 -2147483649, call 0 0 3, call 0 0 -1, call 0 1 0, call 7 0 0",
            ),
        ),
        list(
            "case P, answers",
            &p,
            &after(
                "call 2 2 0, call 0 0 1 4, answer 1 0 7, answer 0 2 7, answer 0 0 -, \
                 answer 0 0 2147483648, answer 0 0 -2147483648, answer 0 0 -, answer 0 1 0, \
                 answer 0 1 -, answer 0 1 -, answer 3 0 -",
            ),
        ),
        list(
            "recursive answers: nested Sub, the adapter's answers restricted",
            &recursive,
            &asked(
                "new 0 0 1, move 0 0 1 2, call 1 1 0, new 0 0 0, answer 0 0 2, call 1 3 0, \
                 answer 0 1 2, move 1 1 0 3, move 1 1 1 1, move 1 1 1 0",
            ),
        ),
        list(
            "recursive answers: the owner gets its own back bare",
            &recursive,
            &asked(
                "new 0 0 3, move 0 0 1 1, move 1 1 1 2, move 1 2 0 3, move 1 2 1 3, \
                 call 0 3 1, answer 0 0 0",
            ),
        ),
        list(
            "references as arguments and answers through an adapter: nested Sup and Sub",
            &arguments,
            &asked(
                "new 0 0 1, move 0 0 1 2, new 1 0 3, move 1 2 1 2, call 1 1 0 2, call 1 1 0 3, \
                 answer 0 0 4, answer 0 1 0",
            ),
        ),
        list(
            "adapters behind adapters, unwrapping several",
            &arguments,
            &asked(
                "new 1 0 3, move 1 0 1 2, move 1 1 2 3, move 2 2 0 2, move 0 3 2 4, \
                 move 0 3 1 4, call 0 3 0 3, answer 1 0 5, call 1 4 0 4",
            ),
        ),
        list(
            "categories: 10 by category, adapters lose it, the owner gets it back",
            &categories,
            &asked(
                "new 0 0 2, new 0 0 3, move 0 0 1 3, move 0 1 1 4, move 1 2 0 4, new 0 1 4, \
                 new 1 1 2, move 1 4 0 4",
            ),
        ),
        list(
            "places: 128 and 129 (long)",
            &p,
            &asked("new 0 1 4").repeat(129),
        ),
        list(
            "cells: 256 and 257 (long)",
            &p,
            &(asked("new 0 1 4") + &asked("move 0 0 1 2").repeat(256)),
        ),
        list(
            "calls: 32 and 33 of one, another served (long)",
            &p,
            &[
                asked("new 0 1 4, move 0 0 1 2"),
                asked("call 0 0 0").repeat(33),
                asked("call 0 0 0 1, call 1 1 0"),
            ]
            .concat(),
        ),
        list(
            "calls: 512 of sixteen, and one more (long)",
            &p.replace("subjects=3", "subjects=16"),
            &sixteen(),
        ),
    ]
}

/// A cell for each of sixteen subjects, 32 calls of each by turns, and one more.
fn sixteen() -> String {
    let cells = (0..16).map(|one| format!("do=new {one} 1 4\n"));
    let calls = (0..513).map(|number| format!("do=call {0} {0} 0\n", number % 16));
    cells.chain(calls).collect()
}

/// Generated lists, chosen greedily by what they meet that earlier ones did
/// not, small ones first.
fn chosen(count: usize) -> Vec<Vec<u8>> {
    let mut candidates: Vec<(Vec<u8>, BTreeSet<String>)> = Vec::new();
    for seed in 0..60_000 {
        let input = generate(seed, Profile::Small);
        if input.len() > 700 {
            continue;
        }
        let features = features(&input);
        if features.len() >= 6 {
            candidates.push((input, features));
        }
    }
    let mut met: std::collections::BTreeMap<String, u32> = Default::default();
    let mut list = Vec::new();
    for _ in 0..count {
        let gain = |features: &BTreeSet<String>| -> u32 {
            features
                .iter()
                .map(|one| 1000 >> met.get(one).copied().unwrap_or(0).min(10))
                .sum()
        };
        let Some(best) = (0..candidates.len())
            .max_by_key(|at| gain(&candidates[*at].1) * 100 / candidates[*at].0.len() as u32)
        else {
            break;
        };
        let (input, features) = candidates.swap_remove(best);
        for one in features {
            *met.entry(one).or_default() += 1;
        }
        list.push(input);
    }
    list
}

fn features(input: &[u8]) -> BTreeSet<String> {
    let script = script::read(input).expect("generated inputs are right");
    let state = State::of_sheet(script.table);
    let mut features = of_seen(&coverage::serve(state.clone(), &script.requests));
    let (_, state) = serving::run(state, &script.requests);
    features.extend(of_table(&state.table));
    features
}

fn of_seen(seen: &Seen) -> BTreeSet<String> {
    let situations = seen.situations.keys().map(|one| format!("{one:?}"));
    let refused = seen.refused.keys().map(|one| format!("{one:?}"));
    situations.chain(refused).collect()
}

/// Which kinds of derived types name which others.
fn of_table(table: &Table) -> BTreeSet<String> {
    let kind = |number: usize| -> Option<Kind> {
        let index = number.checked_sub(table.sheet_types)?;
        Some(table.keys[index].kind)
    };
    let mut features = BTreeSet::new();
    for (index, key) in table.keys.iter().enumerate() {
        features.insert(format!(
            "{:?} of {:?} {:?}",
            key.kind,
            kind(key.left),
            kind(key.right)
        ));
        let one = &table.types[table.sheet_types + index];
        for signature in one.methods.iter().filter_map(MethodState::signature) {
            for argument in &signature.arguments {
                features.insert(format!("{:?} argument {:?}", key.kind, kind(*argument)));
            }
            if let Some(answer) = signature.answer {
                features.insert(format!("{:?} answer {:?}", key.kind, kind(answer)));
            }
        }
    }
    features
}
