//! The commands of the reference model.

use reference::check;
use reference::doors;
use reference::dump;
use reference::entry;
use reference::generators::{self, Profile};
use reference::hostile;
use reference::pairs;
use reference::report;
use reference::script;
use reference::tiny;
use std::io::{Read, Write};
use std::process::ExitCode;

const USAGE: &str = "usage: reference script|sheet|pairs|dump|account|doors < input
       reference tiny
       reference gen SEED small|medium|big|full|long|damaged|doors
       reference hostile SEED
       reference cover [SEEDS]
";

fn main() -> ExitCode {
    let arguments: Vec<String> = std::env::args().skip(1).collect();
    let words: Vec<&str> = arguments.iter().map(String::as_str).collect();
    match output(&words) {
        Some(output) => {
            let written = std::io::stdout().write_all(&output);
            ExitCode::from(u8::from(written.is_err()))
        }
        None => {
            eprint!("{USAGE}");
            ExitCode::from(2)
        }
    }
}

/// What a command prints; `None` if there is no such command.
fn output(words: &[&str]) -> Option<Vec<u8>> {
    match words {
        ["script"] => Some(script::run(&input())),
        ["sheet"] => Some(pairs::run_sheet(&input())),
        ["pairs"] => Some(pairs::run(&input())),
        ["dump"] => Some(dump::run(&input())),
        ["account"] => Some(dump::account(&input()).into_bytes()),
        ["doors"] => Some(doors::run(&input())),
        ["tiny"] => Some(tiny::printed()),
        ["gen", seed, "doors"] => Some(generators::doors_input(seed.parse().ok()?)),
        ["gen", seed, profile] => {
            let profile = Profile::of_name(profile)?;
            Some(generators::generate(seed.parse().ok()?, profile))
        }
        ["hostile", seed] => Some(hostile_text(seed.parse().ok()?).into_bytes()),
        ["cover"] => Some(report::collect(0..500).text().into_bytes()),
        ["cover", seeds] => {
            let seeds = seeds.parse().ok()?;
            Some(report::collect(0..seeds).text().into_bytes())
        }
        _ => None,
    }
}

fn input() -> Vec<u8> {
    let mut input = Vec::new();
    let read = std::io::stdin().read_to_end(&mut input);
    read.map(|_| input).unwrap_or_default()
}

/// A hostile state, why it gets 2 if it does, and its requests with results,
/// each put to what the one before left.
fn hostile_text(seed: u64) -> String {
    let hostile = hostile::generate(seed);
    let mut text = format!("{:?}", hostile.state);
    let reason = check::state(&hostile.state).err();
    text.push_str(&format!("reason for 2: {reason:?}\n"));
    let mut state = hostile.state.clone();
    for request in &hostile.requests {
        let result = entry::request(&mut state, request);
        text.push_str(&format!("{request:?} {result:?}\n"));
    }
    text
}
