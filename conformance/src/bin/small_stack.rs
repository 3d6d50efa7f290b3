//! small_stack WORK [FILE]: calls the proved core from the main thread, whose stack tests/small_stack.rs limits. Standard input and
//! output are bytes, numbers of eight each, low byte first.
//!
//!   derive     in: counts, kind, T, S, links, types. out: answer, number, count of types, types
//!   request    in: a state, a do= line without its LF. out: answer, three values, the state that is left
//!   run        in: a state, words. out: answer, how many were served, their answers, the state that is left
//!   offers     in: a state, cell, chain. out: answer, whether it is offered, the state
//!   load       in: a sheet. out: answer, offset, the state
//!   tiny       in: a state. out: answer, length, the tiny sheets, the state
//!   doors      in: a state, a tolerance, how many marks, the marks, the arrivals. out: answer, three counts, the state
//!   nothing    in: a state. out: the state
//!   sheet      in: a sheet. out: the answers of reading, pair table and writing, the pair table, the text written
//!   each FILE  in: inputs, each behind its length. out: what that program prints for each, behind its length
//!   overflow   goes through as much stack as the limit, and so must not come to its end

use conformance::process::{plain, printed_or_said, run, STACK};
use conformance::runs::ANSWER;
use conformance::served::{self, set_counts};
use conformance::stream::{empty, next_number, next_pieces, next_state, numbers, pieces, to_bytes};
use conformance::{counts, derive, pairs, read, write, Asked, Loaded, PAIRS_LENGTH};
use pilgonca::raw::{self, TINY_BYTES};
use reference::raw::{RawTable, BROADER_LENGTH, TYPES_LENGTH};
use reference::script;
use std::io::{Read, Write};
use std::path::PathBuf;

fn main() {
    let mut input = Vec::new();
    std::io::stdin().read_to_end(&mut input).expect("input");
    let output = match std::env::args().nth(1).as_deref() {
        Some("derive") => derived(&input),
        Some("request") => served(&input),
        Some("run") => ran(&input),
        Some("offers") => offered(&input),
        Some("load") => loaded(&input),
        Some("tiny") => tiny(&input),
        Some("doors") => doors(&input),
        Some("nothing") => to_bytes(&mut next_state(&mut &input[..])),
        Some("sheet") => sheet(&input),
        Some("each") => each(&input),
        Some("overflow") => vec![deep(STACK)],
        other => panic!("{other:?} is no work"),
    };
    std::io::stdout().write_all(&output).expect("output");
}

fn derived(mut input: &[u8]) -> Vec<u8> {
    let mut counts = std::array::from_fn(|_| next_number(&mut input) as usize);
    let asked = Asked {
        kind: next_number(&mut input) as usize,
        t: next_number(&mut input),
        s: next_number(&mut input),
    };
    let mut table = Box::<RawTable>::default();
    table.broader.copy_from_slice(&input[..BROADER_LENGTH]);
    table.type_bytes.copy_from_slice(&input[BROADER_LENGTH..]);
    let mut number = 0;
    let code = derive(&mut table, &mut counts, asked, &mut number);
    let mut output = numbers(&[code, number, counts[4]].map(|one| one as i64));
    output.extend_from_slice(&table.type_bytes);
    output
}

fn served(mut input: &[u8]) -> Vec<u8> {
    let mut state = next_state(&mut input);
    let (mut counts, mut values) = (served::counts(&state), [-1; 3]);
    let asked = script::parse(input).expect("a request");
    let code = served::request(&mut state, &mut counts, &asked, &mut values);
    set_counts(&mut state, counts);
    let mut output = numbers(&[code as i64]);
    output.extend(numbers(&values));
    output.extend(to_bytes(&mut state));
    output
}

/// The numbers up to the end.
fn all_numbers(mut input: &[u8]) -> Vec<i64> {
    let mut list = Vec::new();
    while !input.is_empty() {
        list.push(next_number(&mut input));
    }
    list
}

fn ran(mut input: &[u8]) -> Vec<u8> {
    let mut state = next_state(&mut input);
    let words = all_numbers(input);
    // a request has at least as many words as its answer
    let mut answers = vec![0; words.len()];
    let (mut counts, mut number) = (served::counts(&state), 0);
    let code = served::run(&mut state, &mut counts, &words, &mut answers, &mut number);
    set_counts(&mut state, counts);
    let mut output = numbers(&[code as i64, number as i64]);
    output.extend(numbers(&answers[..number * ANSWER]));
    output.extend(to_bytes(&mut state));
    output
}

fn offered(mut input: &[u8]) -> Vec<u8> {
    let mut state = next_state(&mut input);
    let cell = next_number(&mut input);
    let chain = all_numbers(input);
    let mut offered = 7;
    let code = served::offers(&state, served::counts(&state), cell, &chain, &mut offered);
    let mut output = numbers(&[code as i64, offered as i64]);
    output.extend(to_bytes(&mut state));
    output
}

fn loaded(input: &[u8]) -> Vec<u8> {
    let mut state = empty();
    let (mut counts, mut at) = ([7; 8], 7);
    let code = served::load(input, &mut state, &mut counts, &mut at);
    set_counts(&mut state, counts);
    let mut output = numbers(&[code as i64, at as i64]);
    output.extend(to_bytes(&mut state));
    output
}

fn tiny(mut input: &[u8]) -> Vec<u8> {
    let mut state = next_state(&mut input);
    let (mut buffer, mut length) = (vec![0; TINY_BYTES], 0);
    let code = raw::tiny(&mut buffer, &mut length);
    let numbers = numbers(&[code as i64, length as i64]);
    [numbers, buffer, to_bytes(&mut state)].concat()
}

fn doors(mut input: &[u8]) -> Vec<u8> {
    let mut state = next_state(&mut input);
    let times: Vec<u64> = all_numbers(input).iter().map(|one| *one as u64).collect();
    let (marks, arrivals) = times[2..].split_at(times[1] as usize);
    let mut counts = [7; 3];
    let code = raw::doors(marks, arrivals, times[0], &mut counts);
    let [pairs, marks, arrivals] = counts;
    let numbers = numbers(&[code, pairs, marks, arrivals].map(|one| one as i64));
    [numbers, to_bytes(&mut state)].concat()
}

fn sheet(input: &[u8]) -> Vec<u8> {
    let mut loaded = Box::new(Loaded {
        types: [0; TYPES_LENGTH],
        links: [0; BROADER_LENGTH],
        counts: [0; 5],
        at: 0,
    });
    let first = read(input, &mut loaded);
    let table = Box::new(loaded.table());
    let mut out = [0; PAIRS_LENGTH];
    let second = pairs(&table, counts(&table), &mut out);
    let mut buffer = vec![0; input.len()];
    let mut length = 0;
    let third = write(&table, counts(&table), &mut buffer, &mut length);
    let mut output = numbers(&[first, second, third].map(|one| one as i64));
    output.extend_from_slice(&out);
    output.extend_from_slice(&buffer[..length]);
    output
}

fn each(input: &[u8]) -> Vec<u8> {
    let program = PathBuf::from(std::env::args_os().nth(2).expect("a program"));
    let outputs = next_pieces(input).map(|input| printed_or_said(run(plain(&program), input)));
    pieces(&outputs.collect::<Vec<_>>())
}

/// Frames of at least one KB each.
fn deep(frames: usize) -> u8 {
    let frame = std::hint::black_box([frames as u8; 1024]);
    let below = if frames == 0 { 0 } else { deep(frames - 1) };
    frame[frames % 1024].wrapping_add(below)
}
