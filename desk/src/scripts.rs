//! Scripts and saved states: the commands `desk run` and `desk audit`, and what they follow a script with. Without the feature `visits` there is `no_scripts`
//! instead.

mod audit;
pub mod callers;
mod calls;
pub mod follow;
pub mod requests;
mod run_picture;
mod run_plan;
mod run_tree;
mod run_words;
mod told;
pub mod trails;
pub mod trial;
pub mod why;

use crate::args::Asked;
use crate::commands::{hinted, saved_state, short, Desk, End, Stop};
use crate::diagnosis::Diagnosis;
use crate::explain::refused;
use crate::input::{self, is_saved};
use crate::names::Kind;
use crate::paint::Tone;
use crate::problem::Problem;
use crate::spoilt::spoilt;
use audit::{audit, Answer, Question};
use follow::{follow, malformed, output, Malformed, Run};
use pilgonca::{raw, Sheet, Visit};
use requests::{right, split};
use std::path::Path;
use told::Teller;

/// Told of a file that begins neither as a sheet nor as a saved state.
const NO_MARK: &str = "It is no saved state either: one begins with the bytes PILGONCA.";

/// A state cannot say that the script was cut short before it.
fn not_saved(file: &Path) -> String {
    let file = input::name(file);
    format!("The script is cut short, so the state is not saved: {file} is not written.")
}

/// The sheet of a script, or all of a text with no requests in it.
fn sheet_of(bytes: &[u8]) -> &[u8] {
    match split(bytes) {
        (sheet, requests) if requests.starts_with(b"do=") => sheet,
        _ => bytes,
    }
}

/// Whether a text is a sheet that is accepted, or a script with such a sheet and nothing but requests behind it, and not too long. No request is put to the
/// core: their form is read here, as `follow` reads it.
pub fn is_right(bytes: &[u8]) -> bool {
    let sheet = sheet_of(bytes);
    let is_script = || bytes.len() <= raw::MAX_SCRIPT && malformed(bytes).is_none();
    Sheet::read(sheet).is_ok() && (sheet == bytes || is_script())
}

/// P1.
fn short_enough(path: &Path, bytes: &[u8]) -> Result<(), String> {
    let (most, length) = (raw::MAX_SCRIPT, bytes.len());
    if length <= most {
        return Ok(());
    }
    let file = input::name(path);
    Err(format!(
        "{file}: refused with 2: a script has at most {most} bytes, and this has {length}"
    ))
}

impl Desk {
    pub fn run(
        &self,
        path: &Path,
        svg: Option<&Path>,
        save: Option<&Path>,
    ) -> Result<String, Stop> {
        let bytes = input::read(path)?;
        let run = self.followed(path, &bytes)?;
        let drawn = self.drawn(path, &run, svg)?;
        let teller = Teller {
            run: &run,
            names: &self.names,
            paint: self.paints.out,
        };
        let printed = drawn.unwrap_or_else(|| self.shown(|| teller.document(), || teller.told()));
        let ended = self.ended((path, &bytes), &run, printed);
        match (save, ended) {
            (Some(file), Ok(printed)) => {
                input::write(file, run.visit.save())?;
                Ok(printed)
            }
            (Some(file), Err(stop)) => Err(stop.noted(&not_saved(file))),
            (None, ended) => ended,
        }
    }

    /// The picture, where it is for standard output.
    fn drawn(&self, path: &Path, run: &Run, svg: Option<&Path>) -> Result<Option<String>, Stop> {
        let Some(file) = svg else {
            return Ok(None);
        };
        let script = short(path);
        let title = match &run.malformed {
            None => format!("References at the end of {script}"),
            Some(line) => {
                let line = line.line_number;
                format!("References up to line {line} of {script}, where the script is cut short")
            }
        };
        let picture = run_picture::picture(&title, run, &self.names).map_err(refused)?;
        Ok(input::put(file, picture)?)
    }

    pub fn audit(&self, path: &Path, asked: &Asked) -> Result<String, Stop> {
        let bytes = input::read(path)?;
        let run = self.audited(path, &bytes)?;
        let question = self.question(asked, &run)?;
        let audited = audit(&run, question, &self.names, self.paints.out, self.json);
        let audited = audited.map_err(refused)?;
        let ended = self.ended((path, &bytes), &run, audited.text);
        match (question.is_asked(), audited.answer, ended) {
            (true, Answer::No, Ok(printed)) => Err(Stop::no(printed)),
            (true, answer @ (Answer::Untold | Answer::Unsettled), Ok(printed)) => {
                let why = question.open(&self.names, answer);
                Err(Stop {
                    printed,
                    ..Stop::from(format!("{}: {why}", input::name(path)))
                })
            }
            // what was found before the line at fault is there
            (true, Answer::Yes, Err(stop)) => Err(Stop {
                end: End::Yes,
                ..stop
            }),
            (_, _, ended) => ended,
        }
    }

    /// What the words ask about, by number.
    fn question(&self, asked: &Asked, run: &Run) -> Result<Question, Stop> {
        let sheet = run.visit.sheet();
        let find = |kind: Kind, word: &Option<String>, count: usize| {
            let Some(word) = word else {
                return Ok(None);
            };
            let number = self.number(kind, word)?;
            let found = usize::try_from(number).ok().filter(|one| *one < count);
            let most = count - 1;
            let found = found
                .ok_or_else(|| format!("there is no {kind} {number}: the sheet has 0 to {most}"))?;
            Ok(Some(found))
        };
        Ok(Question {
            subject: find(Kind::Subject, &asked.subject, sheet.subjects()).map_err(Stop::usage)?,
            method: find(Kind::Method, &asked.method, sheet.methods()).map_err(Stop::usage)?,
            calls: asked.calls,
        })
    }

    /// What an audit is of: a saved state, known by its mark, or a script.
    fn audited<'a>(&self, path: &Path, bytes: &'a [u8]) -> Result<Run<'a>, Stop> {
        if !is_saved(bytes) {
            let neither = !bytes.starts_with(b"guide=");
            let run = self.followed(path, bytes);
            return run.map_err(|stop| if neither { stop.noted(NO_MARK) } else { stop });
        }
        let visit = Visit::from_saved(bytes);
        let visit = visit.map_err(|refused| format!("{}: {refused}", input::name(path)))?;
        self.names.fit(&visit.sheet())?;
        Ok(Run::begun(visit, true))
    }

    /// What keeps a text from being right.
    pub fn right(&self, path: &Path, bytes: &[u8]) -> Result<(), Stop> {
        let sheet = sheet_of(bytes);
        self.accepted_unnamed(path, sheet)?;
        if sheet == bytes {
            return Ok(());
        }
        short_enough(path, bytes)?;
        malformed(bytes).map_or(Ok(()), |line| Err(self.no_request((path, bytes), &line)))
    }

    /// A script that was run here and by the core's own run, with one outcome.
    fn followed<'a>(&self, path: &Path, bytes: &'a [u8]) -> Result<Run<'a>, Stop> {
        let file = input::name(path);
        if is_saved(bytes) {
            return Err(saved_state(path, "script"));
        }
        short_enough(path, bytes)?;
        let run = follow(bytes).map_err(|refused| self.refused(path, bytes, &refused))?;
        if output(&run).as_bytes() != pilgonca::script(bytes) {
            return Err(format!("{file}: desk read the requests otherwise than the core did; this is an error in desk").into());
        }
        self.names.fit(&run.visit.sheet())?;
        Ok(run)
    }

    /// What was printed, and the line that ended the run if one did.
    fn ended(&self, script: (&Path, &[u8]), run: &Run, printed: String) -> Result<String, Stop> {
        match &run.malformed {
            None => Ok(printed),
            Some(line) => Err(Stop {
                printed,
                ..self.no_request(script, line)
            }),
        }
    }

    /// A line of a script is no request.
    fn no_request(&self, (path, bytes): (&Path, &[u8]), line: &Malformed) -> Stop {
        let paint = self.paints.error;
        // it stands behind a sheet
        let spoilt = spoilt(bytes, bytes.len(), line.line);
        let found = Diagnosis {
            line_number: line.line_number,
            line: line.line,
            flaw: spoilt.unwrap_or_else(|| line.flaw.clone()),
            right: right(line.line),
        };
        let how = paint.of(Tone::Bad, "refused with 1");
        let words = format!("a line is {how}, and the run ends there");
        let problem = Problem::at(words, found.at(&input::name(path), Some(1), paint));
        Stop::refused(hinted(problem, path, bytes))
    }
}
