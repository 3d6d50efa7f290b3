//! Whole scripts of 32,768 bytes, or nearly, through the C function: against the reference, which is clear before it is fast, and
//! against safe Rust of the same algorithm as the proved core's.

use crate::heavy::crowded;
use crate::measure::{head, measured, row, row_without_goal};
use crate::{requests, sheets};
use conformance::inputs::{table, with_48_types};
use conformance::states::of_table;
use conformance::worst_scripts::{layered, turned};
use pilgonca::script as printed;
use reference::damage::lines;
use reference::generators::{self, Plan, BIG, MEDIUM};
use reference::model::Model;
use reference::random::Random;
use reference::raw::RawTable;
use reference::refusal::{FORM, OUT_OF_RANGE};
use reference::script::{self, got_line, MAX_INPUT};
use reference::sheet;
use reference::state::State;
use reference::table::Table;
use std::hint::black_box;

/// A sheet and requests that have a fair chance, as many as there is room for. Long before that cells, places and calls are full,
/// so most of them are refused.
fn filled(table: &Table, plan: &Plan) -> Vec<u8> {
    let mut random = Random::new(1);
    let mut input = sheet::text(table);
    let mut model = Model::new(State::of_sheet(table.clone()));
    loop {
        let request = generators::request(&mut random, plan, &model);
        let line = script::line(&request);
        if input.len() + line.len() > MAX_INPUT {
            return input;
        }
        let _ = model.request(&request);
        input.extend_from_slice(line.as_bytes());
    }
}

/// An input with its last line again and again.
fn repeated(input: &[u8]) -> Vec<u8> {
    let last = lines(input).pop().expect("a line");
    let times = (MAX_INPUT - input.len()) / last.len();
    [input, &last.repeat(times)].concat()
}

/// The program in safe Rust, on a state in bytes.
fn in_bytes(input: &[u8]) -> Vec<u8> {
    let mut output = Vec::new();
    let mut print = |line: String| output.extend_from_slice(format!("{line}\n").as_bytes());
    let (text, rest) = script::split(input);
    let mut table = RawTable::default();
    if input.len() > MAX_INPUT {
        print(format!("no={OUT_OF_RANGE}"));
    } else if let Err((number, _)) = sheets::read(text, &mut table) {
        print(format!("no={number}"));
    } else {
        let mut state = of_table(table);
        for line in rest.split_inclusive(|byte| *byte == b'\n') {
            let Some(request) = line.strip_suffix(b"\n").and_then(script::parse) else {
                print(format!("no={FORM}"));
                break;
            };
            print(match requests::serve(&mut state, &request) {
                Ok(got) => got_line(got),
                Err(number) => format!("no={number}"),
            });
        }
    }
    output
}

/// Measures an input against both; all three have to print the same.
fn measure(name: &str, input: &[u8]) {
    let output = script::run(input);
    assert!(output == printed(input) && output == in_bytes(input));
    let lines = output.iter().filter(|byte| **byte == b'\n').count();
    let proved = || drop(black_box(printed(black_box(input))));
    let reference = measured(proved, || drop(black_box(script::run(black_box(input)))));
    let name = format!("script, {name}, {} bytes, {lines} requests", input.len());
    row(&format!("{name}: a request"), lines as u32, proved, || {
        drop(black_box(in_bytes(black_box(input))))
    });
    row_without_goal(&format!("{name}: all, to `reference`"), &reference);
}

/// Ordinary sheets, and the worst known.
pub fn all() {
    head("scripts");
    let case = include_bytes!("../../examples/case-p.sheet");
    let case = sheet::read(case).expect("a sheet");
    measure("Case P", &filled(&case, &MEDIUM));
    measure("generated, medium", &filled(&table(&MEDIUM, 3), &MEDIUM));
    measure("generated, 48 types", &filled(&with_48_types(), &BIG));
    measure(
        "calls through 40 adapters, 44 of 48 types reach one another",
        &layered(MAX_INPUT),
    );
    // most requests of a full input could be such calls
    measure(
        "calls through 25 adapters, 44 of 48 types reach one another at each",
        &turned(60),
    );
    measure(
        "moves refused with 11, 46 of 48 types reach one another",
        &repeated(&crowded()),
    );
}

#[cfg(test)]
mod tests {
    use super::*;
    use conformance::scripts::{damaged, Met};
    use conformance::tiny_first;
    use reference::generators::PROFILES;

    /// What is measured against does the same work.
    #[test]
    fn in_bytes_is_the_reference() {
        let mut met = Met::default();
        for script in tiny_first::scripts(&PROFILES.map(|profile| (profile, 30))) {
            met.same(&in_bytes, &script.of, &script.from);
        }
        for seed in 0..500 {
            met.same(&in_bytes, &damaged(seed), "damaged");
        }
        assert_eq!(met.missing(), [4, 19]);
    }
}
