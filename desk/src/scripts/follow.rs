//! A script's requests put to the core one by one.

use crate::reach::{Power, Reach};
use crate::reader::{Flaw, NO_LF};
use crate::scripts::requests::{read, split, Request};
use crate::scripts::trails::Trails;
use crate::scripts::trial::why;
use crate::scripts::why::Why;
use pilgonca::{
    Answered, Call, Called, Cell, CellInfo, Held, Method, Refusal, SheetRefused, Subject, Type,
    Visit,
};
use std::ops::Range;

/// What an accepted request came to.
#[derive(Clone, PartialEq, Eq, Debug)]
pub enum Got {
    Held(Held),
    Called(Called),
    Answered(Answered),
}

/// A request with what it came to.
#[derive(Debug)]
pub struct Step<'a> {
    pub line_number: usize,
    /// Without its LF.
    pub line: &'a [u8],
    pub request: Request,
    pub outcome: Result<Got, Refusal>,
    /// Where it failed, if it is refused.
    pub why: Option<Why>,
    /// The cells that it made.
    pub cells: Range<usize>,
}

/// A line that is no request, which ends the run (P11).
#[derive(Debug)]
pub struct Malformed<'a> {
    pub line_number: usize,
    /// Without its LF.
    pub line: &'a [u8],
    pub flaw: Flaw,
}

/// A script that was run.
pub struct Run<'a> {
    pub visit: Visit,
    pub steps: Vec<Step<'a>>,
    pub malformed: Option<Malformed<'a>>,
    pub trails: Trails,
    /// The state behind each request that made cells, and how many cells there were then: earlier states have more room.
    pub earlier: Vec<(usize, Visit)>,
    /// Whether it begins with a saved state: nothing is known of the requests before.
    pub saved: bool,
}

/// Runs the requests of a script up to the first line that is none.
pub fn follow(input: &[u8]) -> Result<Run<'_>, SheetRefused> {
    let mut run = Run::begun(Visit::load(split(input).0)?, false);
    for (line_number, line, request) in requests(input) {
        match request {
            Ok(request) => run.step(line_number, line, request),
            Err(flaw) => {
                run.malformed = Some(Malformed {
                    line_number,
                    line,
                    flaw,
                });
                break;
            }
        }
    }
    Ok(run)
}

/// The first line behind a script's sheet that is no request.
pub fn malformed(input: &[u8]) -> Option<Malformed<'_>> {
    requests(input).find_map(|(line_number, line, request)| {
        let flaw = request.err()?;
        Some(Malformed {
            line_number,
            line,
            flaw,
        })
    })
}

/// A line behind a sheet: its number, itself without its LF, and what it asks.
type Line<'a> = (usize, &'a [u8], Result<Request, Flaw>);

fn requests(input: &[u8]) -> impl Iterator<Item = Line<'_>> {
    let (sheet, requests) = split(input);
    let first = sheet.iter().filter(|byte| **byte == b'\n').count() + 1;
    let lines = requests.split_inclusive(|byte| *byte == b'\n').enumerate();
    lines.map(move |(index, whole)| {
        let line = whole.strip_suffix(b"\n").unwrap_or(whole);
        (first + index, line, request(whole))
    })
}

/// A line with its LF as a request.
fn request(whole: &[u8]) -> Result<Request, Flaw> {
    let Some(line) = whole.strip_suffix(b"\n") else {
        return Err(Flaw {
            mark: whole.len()..whole.len(),
            wrong: NO_LF.to_string(),
        });
    };
    read(line)
}

impl<'a> Run<'a> {
    /// No request yet, on the state of a sheet or on one that was saved.
    pub fn begun(visit: Visit, saved: bool) -> Run<'a> {
        Run {
            visit,
            steps: Vec::new(),
            malformed: None,
            trails: Trails::default(),
            earlier: Vec::new(),
            saved,
        }
    }

    /// What the holder of each cell can do with each method, or could while there was room; none where it has nothing to do with it.
    pub fn powers(&self) -> Result<Vec<Vec<Option<Power>>>, Refusal> {
        let mut all = Reach::of_visit(&self.visit)?;
        let reach = Reach::of(&self.visit.sheet());
        for (cell, powers) in self.visit.cells().zip(&mut all) {
            let full = |power: &Option<Power>| matches!(power, Some(Power::NoRoom(_)));
            if powers.iter().any(full) {
                self.once(&reach, &cell, powers)?;
            }
        }
        Ok(all)
    }

    /// Looks where the cell was new, for ways that there is no room for in the end.
    fn once(
        &self,
        reach: &Reach,
        cell: &CellInfo,
        powers: &mut [Option<Power>],
    ) -> Result<(), Refusal> {
        let number = usize::try_from(cell.number.0).unwrap_or(0);
        let Some((_, then)) = self.earlier.iter().find(|(count, _)| *count > number) else {
            return Ok(());
        };
        for (now, then) in powers.iter_mut().zip(reach.powers(then, cell)?) {
            match (&now, then) {
                (Some(Power::NoRoom(refusal)), Some(Power::Alone(path))) => {
                    *now = Some(Power::Once(path, *refusal));
                }
                (Some(Power::NoRoom(_)), Some(unsettled @ Power::Unsettled(_))) => {
                    *now = Some(unsettled);
                }
                _ => {}
            }
        }
        Ok(())
    }

    fn step(&mut self, line_number: usize, line: &'a [u8], request: Request) {
        let before = self.trails.count();
        let outcome = put(&mut self.visit, &request);
        let why = match outcome {
            Ok(_) => {
                self.trails.note(&self.visit, &request);
                None
            }
            // which left the state as it was (Q14)
            Err(refusal) => why(&self.visit, &request, refusal),
        };
        if self.trails.count() > before {
            self.earlier.push((self.trails.count(), self.visit.clone()));
        }
        self.steps.push(Step {
            line_number,
            line,
            request,
            outcome,
            why,
            cells: before..self.trails.count(),
        });
    }
}

/// Puts a request to the core.
pub fn put(visit: &mut Visit, request: &Request) -> Result<Got, Refusal> {
    match request {
        Request::New { subject, class, to } => visit
            .new_object(Subject(*subject), Type(*class), Type(*to))
            .map(Got::Held),
        Request::Move {
            subject,
            cell,
            receiver,
            to,
        } => visit
            .move_reference(
                Subject(*subject),
                Cell(*cell),
                Subject(*receiver),
                Type(*to),
            )
            .map(Got::Held),
        Request::Call {
            subject,
            cell,
            method,
            arguments,
        } => visit
            .call(Subject(*subject), Cell(*cell), Method(*method), arguments)
            .map(Got::Called),
        Request::Answer {
            subject,
            call,
            value,
        } => visit
            .answer(Subject(*subject), Call(*call), *value)
            .map(Got::Answered),
    }
}

/// What the program `script` prints for a request (P12, P13), without LF.
pub fn printed(outcome: &Result<Got, Refusal>) -> String {
    match outcome {
        Err(refusal) => format!("no={}", refusal.number()),
        Ok(Got::Held(held) | Got::Answered(Answered::Reference(held))) => {
            format!("got={} {}", held.cell, held.place)
        }
        Ok(Got::Called(called)) => format!("got={} {}", called.call, called.adapters),
        Ok(Got::Answered(Answered::Number(number))) => format!("got={number}"),
        Ok(Got::Answered(Answered::Nothing)) => "got=-".to_string(),
    }
}

/// All that the program would print for the run.
pub fn output(run: &Run) -> String {
    let steps = run.steps.iter().map(|step| printed(&step.outcome) + "\n");
    let end = run.malformed.iter().map(|_| "no=1\n".to_string());
    steps.chain(end).collect()
}
