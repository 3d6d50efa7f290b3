//! What a set of generated inputs and handed-in states met.

mod doors;
mod limits;
mod slips;
mod times;

pub use doors::Doors;
use limits::LIMITS;

use crate::check::{self, Reason, REASONS};
use crate::coverage::{self, Seen, OF_ARGUMENTS, OF_REQUESTS};
use crate::damage::lines;
use crate::demand;
use crate::entry;
use crate::generators::{generate, on_tiny, PROFILES};
use crate::hostile::{self, Hostile};
use crate::random::Random;
use crate::raw::RawTable;
use crate::refusal::{
    Refusal, FORM, LATER_LAYER, OUT_OF_RANGE, SHORT_BUFFER, UNFIT_TIMES, UNKNOWN_TYPE,
};
use crate::requests::Request;
use crate::script::{self, MAX_CALL_ARGUMENTS};
use crate::sheet;
use crate::situations::{OF_CALL_COUNTS, OF_HANDED_IN, OF_SHEETS};
use crate::state::State;
use crate::table::MAX_ARGUMENTS;
use std::collections::BTreeMap;

/// What a set of generated inputs met.
#[derive(Clone, Debug, Default)]
pub struct Report {
    /// Inputs of the program by profile, and those on tiny sheets.
    pub inputs: BTreeMap<&'static str, u64>,
    /// Requests of scripts.
    pub scripts: Seen,
    /// Scripts that printed nothing but a refusal of their sheet, by number.
    pub sheets: BTreeMap<Refusal, u64>,
    /// Refused sheets by number and the kind of line that was refused.
    pub lines: BTreeMap<(Refusal, String), u64>,
    /// Scripts that were too long, and ones ended by a malformed `do=` line.
    pub too_long: u64,
    pub malformed: u64,
    /// One argument more than there may be: in the `m=` line that a sheet is refused at, in the
    /// `do=` line that ends a script, and in a type record that is handed in.
    pub five_in_line: u64,
    pub five_in_call: u64,
    pub five_in_record: u64,
    /// Runs whose book was held against the state, cells compared, and the
    /// inputs where demand 3 did not hold, by profile and seed.
    pub books: u64,
    pub cells: u64,
    pub broken: Vec<(&'static str, u64)>,
    /// Handed-in states: how many, how many of them right, reasons of 2.
    pub handed_in: u64,
    pub right: u64,
    pub reasons: BTreeMap<Reason, u64>,
    /// Their calls at the limits.
    pub limits: BTreeMap<&'static str, u64>,
    /// Requests on handed-in states.
    pub requests: Seen,
    /// Sheet write: done, 4, 2. Compare: answered, 7, 2.
    pub written: u64,
    pub short: u64,
    pub write_refused: u64,
    pub compared: u64,
    pub compare_unknown: u64,
    pub compare_refused: u64,
    /// Marks and arrivals.
    pub doors: Doors,
}

/// Generates inputs and handed-in states, on tiny sheets first, and reports what they met.
pub fn collect(seeds: std::ops::Range<u64>) -> Report {
    let mut report = Report::default();
    for (number, input) in (0..).zip(on_tiny(0)) {
        report.script("tiny", number, &input);
    }
    for profile in PROFILES {
        for seed in seeds.clone() {
            report.script(profile.name(), seed, &generate(seed, profile));
        }
    }
    for (number, hostile) in (0..).zip(hostile::on_tiny(0)) {
        report.hostile(number, &hostile);
    }
    for seed in seeds.start * 10..seeds.end * 10 {
        report.hostile(seed, &hostile::generate(seed));
    }
    report.doors = Doors::collect(seeds.start * 4..seeds.end * 4);
    report
}

impl Report {
    fn script(&mut self, profile: &'static str, seed: u64, input: &[u8]) {
        *self.inputs.entry(profile).or_default() += 1;
        let (run, found) = demand::run(input);
        if found.is_err() {
            self.broken.push((profile, seed));
        }
        let Some(model) = run.model else {
            self.refused_sheet(input);
            return;
        };
        self.books += 1;
        self.cells += model.state.cells.len() as u64;
        let Ok(script) = script::read(input) else {
            return;
        };
        self.malformed += u64::from(script.malformed);
        if script.malformed {
            let (_, rest) = script::split(input);
            let line = lines(rest)[script.requests.len()];
            self.five_in_call += u64::from(is_longer_call(line));
        }
        let state = State::of_sheet(script.table);
        self.scripts.add(&coverage::serve(state, &run.requests));
    }

    fn refused_sheet(&mut self, input: &[u8]) {
        if input.len() > script::MAX_INPUT {
            self.too_long += 1;
            return;
        }
        let (text, _) = script::split(input);
        if let Err((number, offset)) = sheet::read(text) {
            *self.sheets.entry(number).or_default() += 1;
            let kind = line_kind(&text[offset..]);
            let first = lines(&text[offset..]).first().copied();
            self.five_in_line += u64::from(number == FORM && first.is_some_and(is_longer_list));
            *self.lines.entry((number, kind)).or_default() += 1;
        }
    }

    fn hostile(&mut self, seed: u64, hostile: &Hostile) {
        let mut random = Random::new(seed);
        self.handed_in += 1;
        self.write(&mut random, &hostile.state.table);
        self.compare(&mut random, &hostile.state.table);
        let checked = check::state(&hostile.state);
        for (name, is_met) in LIMITS {
            let met = is_met(&hostile.state, &checked);
            *self.limits.entry(name).or_default() += u64::from(met);
        }
        match checked {
            Err(reason) => {
                *self.reasons.entry(reason).or_default() += 1;
                let five = reason == Reason::TooManyArguments && has_longer(&hostile.state.table);
                self.five_in_record += u64::from(five);
            }
            Ok(state) => {
                self.right += 1;
                self.requests
                    .add(&coverage::serve(state, &hostile.requests));
            }
        }
    }

    fn write(&mut self, random: &mut Random, table: &RawTable) {
        let length = check::table(table).map_or(500, |table| sheet::text(&table).len());
        let lengths = [0, length - 1, length, length + 1, 2 * length];
        let mut buffer = vec![170; *random.pick(&lengths)];
        match entry::write(table, &mut buffer) {
            Ok(_) => self.written += 1,
            Err(SHORT_BUFFER) => self.short += 1,
            Err(OUT_OF_RANGE) => self.write_refused += 1,
            Err(number) => panic!("sheet write refused with {number}"),
        }
    }

    fn compare(&mut self, random: &mut Random, table: &RawTable) {
        let types = table.types as usize % 400;
        let t = random.below(types + 2) as i64 - 1;
        let s = random.below(types + 2) as i64 - 1;
        match entry::compare(table, t, s) {
            Ok(_) => self.compared += 1,
            Err(UNKNOWN_TYPE) => self.compare_unknown += 1,
            Err(OUT_OF_RANGE) => self.compare_refused += 1,
            Err(number) => panic!("compare refused with {number}"),
        }
    }

    /// How often a refusal number was met, by anything at all.
    pub fn number(&self, number: Refusal) -> u64 {
        let sheets = self.sheets.get(&number).copied().unwrap_or(0);
        let rest = match number {
            1 => self.malformed,
            2 => self.too_long + self.reasons.values().sum::<u64>(),
            4 => self.short,
            _ => self.scripts.number(number) + self.requests.number(number),
        };
        sheets + rest + self.doors.number(number)
    }

    /// What ought to have been met and was not.
    pub fn missing(&self) -> Vec<String> {
        let met = self
            .of_sheets()
            .into_iter()
            .chain(self.of_requests())
            .chain(self.of_handed_in())
            .chain(self.doors.due());
        let missing = met.filter(|(met, _)| !met).map(|(_, what)| what);
        missing.collect()
    }

    /// Whether each refusal of sheets and inputs was met, and its name.
    fn of_sheets(&self) -> Vec<(bool, String)> {
        let sheets = (1..=3).map(|number| {
            let met = self.sheets.contains_key(&number);
            (met, format!("sheet {number}"))
        });
        let inputs = [
            (self.too_long > 0, "too long a script".to_string()),
            (self.malformed > 0, "a malformed do= line".to_string()),
        ];
        sheets.chain(inputs).collect()
    }

    /// The same of what requests on loaded sheets can meet.
    fn of_requests(&self) -> Vec<(bool, String)> {
        let mut met = Vec::new();
        for (name, numbers) in OF_REQUESTS {
            let accepted = self.scripts.accepted.contains_key(name);
            met.push((accepted, format!("{name} accepted")));
            for number in *numbers {
                let refused = self.scripts.refused.contains_key(&(name, *number));
                met.push((refused, format!("{name} {number}")));
            }
        }
        for situation in OF_SHEETS {
            let count = self.scripts.met(situation);
            met.push((count > 0, format!("{situation:?}")));
        }
        met.extend(of_positions(&self.scripts, &OF_ARGUMENTS));
        met.extend(of_long_calls(&self.scripts));
        met.push((
            self.five_in_line > 0,
            "five arguments in an m= line".to_string(),
        ));
        met.push((
            self.five_in_call > 0,
            "five arguments in a do= line".to_string(),
        ));
        met
    }

    /// The same of what is handed in.
    fn of_handed_in(&self) -> Vec<(bool, String)> {
        let situations = OF_HANDED_IN.iter().chain(&OF_CALL_COUNTS).map(|situation| {
            let met = self.requests.met(*situation) > 0;
            (met, format!("{situation:?} on a handed-in state"))
        });
        let later = ["call", "answer"].map(|name| {
            let met = self.requests.refused.contains_key(&(name, LATER_LAYER));
            (met, format!("{name} 19 on a handed-in state"))
        });
        let reasons =
            REASONS.map(|reason| (self.reasons.contains_key(&reason), format!("{reason:?}")));
        let limits = LIMITS.iter().map(|(name, _)| {
            let met = self.limits.get(name).is_some_and(|count| *count > 0);
            (met, name.to_string())
        });
        let tables = [
            (self.written, "sheet write"),
            (self.short, "sheet write 4"),
            (self.write_refused, "sheet write 2"),
            (self.compared, "compare"),
            (self.compare_unknown, "compare 7"),
            (self.compare_refused, "compare 2"),
        ]
        .map(|(count, what)| (count > 0, what.to_string()));
        let all = situations.chain(later).chain(reasons).chain(limits);
        let five = (
            self.five_in_record > 0,
            "five arguments in a type record".to_string(),
        );
        let positions = of_positions(&self.requests, &[LATER_LAYER]);
        let long = of_long_calls(&self.requests)
            .map(|(met, what)| (met, format!("{what}, on handed-in states")));
        let rest = tables.into_iter().chain(positions).chain(long);
        all.chain(rest).chain([five]).collect()
    }

    /// The report as text.
    pub fn text(&self) -> String {
        let mut text = format!("inputs {:?}\n", self.inputs);
        text.push_str(&format!(
            "demand 3: {} books, {} cells over all chains, broken {:?}\n",
            self.books, self.cells, self.broken
        ));
        text.push_str("refusal numbers met:");
        for number in (1..=LATER_LAYER).chain([UNFIT_TIMES]) {
            text.push_str(&format!(" {number}:{}", self.number(number)));
        }
        text.push_str("\n\nscripts\n");
        text.push_str(&self.text_of_scripts());
        text.push('\n');
        text.push_str(&self.text_of_handed_in());
        text.push('\n');
        text.push_str(&self.doors.text());
        text.push_str(&format!("\nmissing: {:?}\n", self.missing()));
        text
    }

    fn text_of_scripts(&self) -> String {
        let mut text = format!(
            "sheets refused {:?}, too long {}, malformed do= {}\n",
            self.sheets, self.too_long, self.malformed
        );
        for ((number, kind), count) in &self.lines {
            text.push_str(&format!("  {number} at {kind}: {count}\n"));
        }
        text + &self.scripts.text()
    }

    fn text_of_handed_in(&self) -> String {
        let mut text = format!(
            "handed in: {} states, {} right\n",
            self.handed_in, self.right
        );
        text.push_str(&format!(
            "sheet write: done {}, 4 {}, 2 {}; compare: answered {}, 7 {}, 2 {}\n",
            self.written,
            self.short,
            self.write_refused,
            self.compared,
            self.compare_unknown,
            self.compare_refused
        ));
        for (reason, count) in &self.reasons {
            text.push_str(&format!("  2 by {reason:?}: {count}\n"));
        }
        for (name, count) in &self.limits {
            text.push_str(&format!("  {name}: {count}\n"));
        }
        text.push_str(&format!(
            "  five arguments: m= lines {}, do= lines {}, type records {}\n",
            self.five_in_line, self.five_in_call, self.five_in_record
        ));
        text + &self.requests.text()
    }
}

/// Whether each of these numbers was met by a call at each position, and its name.
fn of_positions(seen: &Seen, numbers: &[Refusal]) -> Vec<(bool, String)> {
    let of_number = |number: Refusal| {
        (0..MAX_ARGUMENTS).map(move |position| {
            let met = seen.positions.contains_key(&(number, position));
            (met, format!("call {number} by argument {}", position + 1))
        })
    };
    numbers.iter().copied().flat_map(of_number).collect()
}

/// Of so many accepted calls at least one has three arguments, one four, one three references, and one four (T13).
const OFTEN: u64 = 20;

/// Whether calls with three and four arguments, and with as many references, were accepted often.
fn of_long_calls(seen: &Seen) -> impl Iterator<Item = (bool, String)> + '_ {
    let calls = seen.accepted.get("call").copied().unwrap_or(0);
    let kinds = [
        ("arguments", &seen.arguments),
        ("references", &seen.references),
    ];
    kinds.into_iter().flat_map(move |(what, counts)| {
        (MAX_ARGUMENTS - 1..=MAX_ARGUMENTS).map(move |many| {
            let count = counts.get(&many).copied().unwrap_or(0);
            let often = count > 0 && count * OFTEN >= calls;
            (
                often,
                format!("{many} {what} in one of {OFTEN} accepted calls"),
            )
        })
    })
}

/// Whether a `do=call` line has one argument too many and is right but for that (P7, P11).
fn is_longer_call(line: &[u8]) -> bool {
    let shorter = line.strip_suffix(b"\n").and_then(|line| {
        let last = line.iter().rposition(|byte| *byte == b' ')?;
        script::parse(&line[..last])
    });
    matches!(shorter, Some(Request::Call { arguments, .. }) if arguments.len() == MAX_CALL_ARGUMENTS)
}

/// Whether a line has a list of numbers with one more than a signature may have (S11).
fn is_longer_list(line: &[u8]) -> bool {
    let text = String::from_utf8_lossy(line);
    let list = text
        .split_once('(')
        .and_then(|(_, rest)| rest.split_once(')'));
    list.is_some_and(|(list, _)| list.split(',').count() == MAX_ARGUMENTS + 1)
}

/// Whether a method that is permitted counts one argument more than it may have (H3).
fn has_longer(table: &RawTable) -> bool {
    let methods =
        |number| (0..table.methods as usize).map(move |method| table.method(number, method));
    let mut all = (0..table.types as usize).flat_map(methods);
    all.any(|bytes| matches!(bytes[0], 1 | 2) && usize::from(bytes[1]) == MAX_ARGUMENTS + 1)
}

/// The word before `=` of the first line, or what else is there.
pub fn line_kind(rest: &[u8]) -> String {
    if rest.is_empty() {
        return "the end".to_string();
    }
    let Some(end) = rest.iter().position(|byte| *byte == b'\n') else {
        return "a line without LF".to_string();
    };
    let line = String::from_utf8_lossy(&rest[..end]).to_string();
    let known = [
        "guide", "subjects", "methods", "cats", "under", "types", "type", "rep", "cat", "own", "m",
        "end",
    ];
    match line.split_once('=') {
        Some((word, _)) if known.contains(&word) => word.to_string(),
        _ => "another line".to_string(),
    }
}
