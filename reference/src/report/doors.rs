//! What lists of times, and inputs of the program `doors`, met (V, P27 to P29).

use super::slips::READERS;
use super::times::{HELD, UNFIT};
use crate::damage::lines;
use crate::doors::{self, Counts, Reason, REASONS};
use crate::generators::{doors_input, doors_lists, Lists};
use crate::refusal::{Refusal, FORM, OUT_OF_RANGE, UNFIT_TIMES};
use crate::script::MAX_INPUT;
use std::collections::BTreeMap;
use std::ops::Range;

/// What generated lists and inputs met.
#[derive(Clone, Debug, Default)]
pub struct Doors {
    /// What came of lists handed in and of inputs of the program.
    pub lists: Results,
    pub inputs: Results,
    /// Situations, by name.
    pub met: BTreeMap<String, u64>,
}

/// How many were accepted, and refused by number.
#[derive(Clone, Debug, Default)]
pub struct Results {
    pub accepted: u64,
    pub refused: BTreeMap<Refusal, u64>,
}

impl Results {
    fn add(&mut self, result: Result<Counts, Refusal>) {
        match result {
            Ok(_) => self.accepted += 1,
            Err(number) => *self.refused.entry(number).or_default() += 1,
        }
    }

    fn number(&self, number: Refusal) -> u64 {
        self.refused.get(&number).copied().unwrap_or(0)
    }

    /// Whether some were accepted, and refused by each of these numbers.
    fn due(&self, what: &str, numbers: &[Refusal]) -> Vec<(bool, String)> {
        let mut due = vec![(self.accepted > 0, format!("{what} accepted"))];
        due.extend(
            numbers
                .iter()
                .map(|number| (self.number(*number) > 0, format!("{what} {number}"))),
        );
        due
    }
}

impl Doors {
    /// The lists and the inputs of these seeds.
    pub fn collect(seeds: Range<u64>) -> Doors {
        let mut doors = Doors::default();
        for seed in seeds {
            doors.of_lists(&doors_lists(seed));
            doors.of_input(&doors_input(seed));
        }
        doors
    }

    fn of_lists(&mut self, lists: &Lists) {
        let (marks, arrivals, within) = lists;
        let result = doors::held(marks, arrivals, *within);
        self.lists.add(result);
        match (result, doors::reasons(marks, arrivals, *within).as_slice()) {
            (Ok(counts), _) => self.situations(HELD, |is_met| is_met(lists, counts)),
            (_, [only]) => {
                self.meet(alone(*only));
                self.situations(UNFIT, |is_met| is_met(lists));
            }
            _ => self.meet(SEVERAL.to_string()),
        }
    }

    fn of_input(&mut self, input: &[u8]) {
        let read = doors::read(input);
        let result = read.as_ref().map_err(|number| *number);
        self.inputs
            .add(result.and_then(|one| doors::held(&one.marks, &one.arrivals, one.within)));
        self.situations(INPUTS, |is_met| is_met(input));
        if read == Err(FORM) {
            let text = String::from_utf8_lossy(input);
            self.situations(READERS, |taken| {
                doors::read(taken(&text).as_bytes()).is_ok()
            });
        }
    }

    fn meet(&mut self, name: String) {
        *self.met.entry(name).or_default() += 1;
    }

    /// Counts the situations that are met.
    fn situations<T>(&mut self, situations: &[(&str, T)], is_met: impl Fn(&T) -> bool) {
        for (name, _) in situations.iter().filter(|(_, one)| is_met(one)) {
            self.meet(name.to_string());
        }
    }

    /// How often a refusal was met.
    pub fn number(&self, number: Refusal) -> u64 {
        self.lists.number(number) + self.inputs.number(number)
    }

    /// Whether each thing that ought to be met was, and its name.
    pub fn due(&self) -> Vec<(bool, String)> {
        let mut due = self.lists.due("lists of times", &[UNFIT_TIMES]);
        due.extend(
            self.inputs
                .due("inputs of doors", &[FORM, OUT_OF_RANGE, UNFIT_TIMES]),
        );
        let mut names = REASONS.map(alone).to_vec();
        names.push(SEVERAL.to_string());
        names.extend(HELD.iter().map(|(name, _)| name.to_string()));
        names.extend(UNFIT.iter().map(|(name, _)| name.to_string()));
        names.extend(INPUTS.iter().map(|(name, _)| name.to_string()));
        names.extend(READERS.iter().map(|(name, _)| name.to_string()));
        due.extend(
            names
                .into_iter()
                .map(|name| (self.met.contains_key(&name), name)),
        );
        due
    }

    /// The counters as text.
    pub fn text(&self) -> String {
        let mut text = String::new();
        for (what, results) in [
            ("lists of times", &self.lists),
            ("inputs of doors", &self.inputs),
        ] {
            text.push_str(&format!("{what}: accepted {}; refused", results.accepted));
            for (number, count) in &results.refused {
                text.push_str(&format!(" {number}:{count}"));
            }
            text.push('\n');
        }
        for (name, count) in &self.met {
            text.push_str(&format!("  {name}: {count}\n"));
        }
        text
    }
}

/// Lists with one reason.
fn alone(reason: Reason) -> String {
    format!("22: {reason:?} alone")
}

/// Lists with more than one reason.
const SEVERAL: &str = "22: several reasons";

/// A situation of an input of the program.
type Input = (&'static str, fn(&[u8]) -> bool);

const INPUTS: &[Input] = &[
    ("the longest text that is accepted", |input| {
        input.len() == LONGEST && is_accepted(input)
    }),
    ("32,768 bytes of the form", |input| {
        input.len() == MAX_INPUT && doors::parse(input).is_some()
    }),
    ("32,768 bytes of no form", |input| {
        input.len() == MAX_INPUT && doors::parse(input).is_none()
    }),
    ("32,769 bytes of the form", |input| {
        input.len() == MAX_INPUT + 1 && doors::parse(input).is_some()
    }),
    ("32,769 bytes of no form", |input| {
        input.len() == MAX_INPUT + 1 && doors::parse(input).is_none()
    }),
    ("1 where a line of its form is unfit", |input| {
        doors::read(input) == Err(FORM) && has_unfit_line(input)
    }),
];

/// The bytes of the longest text that V3 accepts (P29).
const LONGEST: usize = 22_541;

fn is_accepted(input: &[u8]) -> bool {
    doors::run(input).starts_with(b"got=")
}

/// Whether a line, alone with others that are right, gives 22.
fn has_unfit_line(input: &[u8]) -> bool {
    let unfit = |text: &[&[u8]]| doors::run(&text.concat()) == b"no=22\n";
    lines(input)
        .into_iter()
        .any(|line| unfit(&[line, b"\n\n"]) || unfit(&[b"within=0\n", line, b"\n"]))
}
