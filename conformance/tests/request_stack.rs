//! The stack of every entry point on states, found by limits that shrink until a program of its own no longer comes to its end, and held to what the documents
//! say; then each runs on a main thread of twice that, and its whole output is the reference's.

use conformance::doors::{self, longest, MOST as MOST_TIMES};
use conformance::inputs::largest;
use conformance::process::{least_stack, limited_still, limited_to, run};
use conformance::runs::{self, ANSWER};
use conformance::said;
use conformance::states::{
    deep_requests, deep_state, of_table, with_511_calls, worst_requests, worst_state,
};
use conformance::stream::{numbers, to_bytes};
use reference::coverage::request_name;
use reference::entry;
use reference::raw::{RawState, RawTable};
use reference::refusal::Refusal;
use reference::requests::{Got, Request};
use reference::script;
use reference::sheet;
use reference::tiny;
use std::path::Path;
use std::process::Command;

const PROGRAM: &str = env!("CARGO_BIN_EXE_small_stack");

/// In so many KB everything comes to its end.
const MOST: usize = 1024;

/// What the program does, on which input, and what it has to print.
struct Work {
    name: String,
    word: &'static str,
    input: Vec<u8>,
    output: Vec<u8>,
    /// The most that it takes beside what the program itself does, in KB.
    said: usize,
}

impl Work {
    fn printed(&self, mut command: Command) -> Option<Vec<u8>> {
        command.arg(self.word);
        let output = run(command, &self.input);
        output.status.success().then_some(output.stdout)
    }

    fn need(&self) -> usize {
        let still = |stack| limited_still(stack, Path::new(PROGRAM));
        least_stack(MOST, |stack| self.printed(still(stack)).is_some())
    }
}

/// What is stored of a request's answer.
fn stored(result: Result<Got, Refusal>) -> [i64; 4] {
    let number = |one: usize| one as i64;
    match result {
        Err(refusal) => [i64::from(refusal), -1, -1, -1],
        Ok(Got::Cell { cell, place }) => [0, 2, number(cell), number(place)],
        Ok(Got::Call { call, adapters }) => [0, 2, number(call), number(adapters)],
        Ok(Got::Number(value)) => [0, 1, value, 0],
        Ok(Got::Nothing) => [0, 0, 0, 0],
    }
}

fn request(name: &str, state: &RawState, asked: &Request) -> Work {
    let mut after = state.clone();
    let result = entry::request(&mut after, asked);
    let line = script::line(asked);
    let input = [&to_bytes(&mut state.clone()), line.trim_end().as_bytes()].concat();
    Work {
        name: format!("{}, {name}: {result:?}", request_name(asked)),
        word: "request",
        input,
        output: [numbers(&stored(result)), to_bytes(&mut after)].concat(),
        said: match asked {
            Request::New { .. } => said::NEW,
            Request::Move { .. } => said::MOVE,
            Request::Call { .. } => said::CALL,
            Request::Answer { .. } => said::ANSWER,
        },
    }
}

/// The requests in one run.
fn run_of(name: &str, state: &RawState, requests: &[Request]) -> Work {
    let words: Vec<i64> = requests.iter().flat_map(runs::words).collect();
    let (mut after, mut answers) = (state.clone(), vec![0; words.len()]);
    let served = runs::run(&mut after, &words, &mut answers).expect("a state that is right");
    let answers = &answers[..served * ANSWER];
    Work {
        name: format!("a run, {name}"),
        word: "run",
        input: [to_bytes(&mut state.clone()), numbers(&words)].concat(),
        output: [
            numbers(&[0, served as i64]),
            numbers(answers),
            to_bytes(&mut after),
        ]
        .concat(),
        said: said::RUN,
    }
}

fn offers(name: &str, state: &RawState) -> Work {
    let chain = [3; 1000];
    assert_eq!(entry::offers(state, 0, &chain), Ok(true));
    let bytes = to_bytes(&mut state.clone());
    Work {
        name: format!("offers, a chain of 1000{name}"),
        word: "offers",
        input: [bytes.clone(), numbers(&[0]), numbers(&chain)].concat(),
        output: [numbers(&[0, 1]), bytes].concat(),
        said: said::OFFERS,
    }
}

fn load() -> Work {
    let table = largest();
    let mut state = of_table(RawTable::of(&table));
    Work {
        name: "load, the largest sheet".to_string(),
        word: "load",
        input: sheet::text(&table),
        output: [numbers(&[0, 0]), to_bytes(&mut state)].concat(),
        said: said::LOAD,
    }
}

fn tiny_sheets() -> Work {
    let bytes = to_bytes(&mut deep_state());
    let text = tiny::printed();
    Work {
        name: "every tiny sheet".to_string(),
        word: "tiny",
        input: bytes.clone(),
        output: [numbers(&[0, text.len() as i64]), text, bytes].concat(),
        said: said::TINY,
    }
}

/// Lists as long as they may be, all of which pair.
fn marks_and_arrivals() -> Work {
    let bytes = to_bytes(&mut deep_state());
    let lists = longest();
    let entries = [&lists.marks[..], &lists.arrivals].concat();
    let given = [lists.within, MOST_TIMES as u64].into_iter().chain(entries);
    let given: Vec<i64> = given.map(|one| one as i64).collect();
    assert_eq!(doors::ours(&lists), (0, [MOST_TIMES, 0, 0]));
    Work {
        name: "marks and arrivals, 1024 of each".to_string(),
        word: "doors",
        input: [bytes.clone(), numbers(&given)].concat(),
        output: [numbers(&[0, MOST_TIMES as i64, 0, 0]), bytes].concat(),
        said: said::DOORS,
    }
}

/// The program itself, which calls nothing.
fn nothing() -> Work {
    let bytes = to_bytes(&mut deep_state());
    Work {
        name: "the program alone".to_string(),
        word: "nothing",
        input: bytes.clone(),
        output: bytes,
        said: 0,
    }
}

/// Requests on Case P, each on what those before it left: all are accepted, and an adapter is made on the way.
fn small() -> Vec<Work> {
    let text = include_bytes!("../../examples/case-p.sheet");
    let mut state = of_table(RawTable::of(&sheet::read(text).expect("a sheet")));
    let lines = [
        "do=new 0 1 4",
        "do=move 0 0 2 3",
        "do=move 2 1 2 5",
        "do=call 2 2 1 7",
        "do=answer 0 0 -",
    ];
    let one = |line: &str| {
        let asked = script::parse(line.as_bytes()).expect("a request");
        let work = request("Case P", &state, &asked);
        entry::request(&mut state, &asked).expect("accepted");
        let said = match asked {
            Request::Call { .. } => said::SMALL_CALL,
            Request::Answer { .. } => said::SMALL_ANSWER,
            _ => work.said,
        };
        Work { said, ..work }
    };
    lines.into_iter().map(one).collect()
}

/// The deepest requests, in turn and in a run, on states with so many calls.
fn deepest(calls: &str, change: fn(RawState) -> RawState) -> Vec<Work> {
    let (deep, worst) = (change(deep_state()), change(worst_state(48, 40)));
    let nested = format!("118 new types nested{calls}");
    let layers = format!("40 adapters, 48 types{calls}");
    let mut all = Vec::new();
    all.extend(deep_requests().map(|one| request(&nested, &deep, &one)));
    all.extend(worst_requests().map(|one| request(&layers, &worst, &one)));
    all.push(run_of(&nested, &deep, &deep_requests()));
    all.push(run_of(&layers, &worst, &worst_requests()));
    all.push(offers(calls, &worst));
    all
}

fn all() -> Vec<Work> {
    let few = deepest("", |state| state);
    let many = deepest(", 511 calls", with_511_calls);
    let others = [load(), tiny_sheets(), marks_and_arrivals()];
    let deepest = few.into_iter().chain(many).chain(others);
    deepest.chain(small()).collect()
}

#[test]
fn twice_the_stack_that_is_needed() {
    let alone = nothing().need();
    println!("the program alone: {alone} KB");
    let mut above = Vec::new();
    for work in all() {
        let (need, name) = (work.need(), &work.name);
        let own = need - alone;
        println!("{name}: {need} KB, {own} of them its own");
        if own > work.said + said::ALLOWED {
            above.push(format!("{name}: {own} KB, said are {}", work.said));
        }
        let printed = work.printed(limited_to(2 * need, Path::new(PROGRAM)));
        assert!(printed.as_ref() == Some(&work.output), "{name}");
    }
    assert!(above.is_empty(), "more than is said: {above:#?}");
}

/// The numbers that what is measured is held to are those of the documents.
#[test]
fn the_documents_say_so() {
    let root = Path::new(env!("CARGO_MANIFEST_DIR")).join("..");
    for (file, words) in said::pages() {
        let page = std::fs::read_to_string(root.join(file)).expect("a page");
        let page = page.split_whitespace().collect::<Vec<&str>>().join(" ");
        assert!(page.contains(&words), "{file}: {words}");
    }
}
