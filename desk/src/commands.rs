//! What each command does: from files to text.

use crate::args::{help, Args, Command, NamesFrom};
use crate::diagnosis::told;
use crate::explain::{explain, refused};
use crate::fix::mended;
use crate::input::{self, is_saved, Unusable};
use crate::json::Json;
use crate::names::{Kind, Names};
use crate::paint::Paint;
use crate::problem::Problem;
use crate::relation::Compared;
use crate::scripts::is_right;
use crate::words::{called, ranges};
use crate::{documents, matrix, pairs_picture, summary};
use pilgonca::{Refusal, Sheet, SheetRefused, Type};
use std::path::{Path, PathBuf};

/// Whether what goes to standard output and to standard error is coloured.
#[derive(Clone, Copy)]
pub struct Paints {
    pub out: Paint,
    pub error: Paint,
}

/// How a command ends.
#[derive(Clone, Copy, PartialEq, Eq, Debug)]
pub enum End {
    /// What is asked is so, or the input is accepted.
    Yes,
    /// It is not so.
    No,
    /// Input that is refused.
    Refused,
    /// A file that cannot be read or written.
    NoFile,
    /// Words that are not understood.
    BadUsage,
}

impl End {
    /// The exit status. Where the command asks a question that it answers, no answer must not pass for no.
    pub fn status(self, asks: bool) -> u8 {
        match self {
            End::Yes => 0,
            End::No => 1,
            End::Refused if asks => 3,
            End::Refused => 1,
            End::BadUsage => 2,
            End::NoFile => 3,
        }
    }
}

/// A command that does not simply succeed: what was to print before, the message if there is one, and how it ends.
#[derive(Debug)]
pub struct Stop {
    pub printed: String,
    pub problem: Option<Problem>,
    pub end: End,
}

impl Stop {
    fn at_once(problem: Problem, end: End) -> Stop {
        Stop {
            printed: String::new(),
            problem: Some(problem),
            end,
        }
    }

    /// Input that is refused, before anything was printed.
    pub fn refused(problem: Problem) -> Stop {
        Stop::at_once(problem, End::Refused)
    }

    /// Words that are not understood.
    pub fn usage(why: String) -> Stop {
        Stop::at_once(Problem::of(why), End::BadUsage)
    }

    /// The same with something more to say behind it.
    #[cfg(feature = "visits")]
    pub fn noted(mut self, note: &str) -> Stop {
        if let Some(problem) = &mut self.problem {
            problem.note = Some(note.to_string());
        }
        self
    }

    /// The answer no.
    pub fn no(printed: String) -> Stop {
        Stop {
            printed,
            problem: None,
            end: End::No,
        }
    }
}

impl From<String> for Stop {
    fn from(problem: String) -> Stop {
        Stop::refused(Problem::of(problem))
    }
}

impl From<Unusable> for Stop {
    fn from(Unusable(problem): Unusable) -> Stop {
        Stop::at_once(Problem::of(problem), End::NoFile)
    }
}

/// A command that is over: what goes to standard output and to standard error, and the exit status.
#[derive(Debug)]
pub struct Over {
    pub out: String,
    pub error: String,
    pub status: u8,
}

/// Does what is asked.
pub fn perform(args: &Args, paints: Paints) -> Over {
    let stop = answered(args, paints).map_or_else(
        |stop| stop,
        |printed| Stop {
            printed,
            problem: None,
            end: End::Yes,
        },
    );
    let status = stop.end.status(args.command.asks());
    let problem = stop.problem.as_ref();
    Over {
        error: problem.map_or(String::new(), Problem::message),
        out: match args.json {
            true => format!("{}\n", documents::document(args, &stop, status)),
            false => stop.printed,
        },
        status,
    }
}

fn answered(args: &Args, paints: Paints) -> Result<String, Stop> {
    let plain = Paints {
        out: Paint::PLAIN,
        error: Paint::PLAIN,
    };
    let desk = Desk {
        names: names(args)?,
        paints: if args.json { plain } else { paints },
        json: args.json,
    };
    match &args.command {
        Command::Help => Ok(help()),
        Command::Version => Ok(format!("desk {}\n", env!("CARGO_PKG_VERSION"))),
        Command::Check(path) => desk.check(path),
        Command::Fix { sheet, out } => desk.fix(sheet, out.as_deref()),
        Command::Pairs { sheet, plain, svg } => desk.pairs(sheet, *plain, svg.as_deref()),
        Command::Compare { sheet, from, to } => desk.compare(sheet, from, to),
        Command::Run { script, svg, save } => desk.run(script, svg.as_deref(), save.as_deref()),
        Command::Audit { script, asked } => desk.audit(script, asked),
        Command::Powers(path) => desk.powers(path),
        Command::Diff { old, new } => desk.diff(old, new),
        Command::Tiny { number, list, out } => desk.tiny(number.as_deref(), *list, out.as_deref()),
        Command::Doors(asked) => desk.doors(asked),
        Command::Explain(number) => desk.explain(number),
    }
}

/// The names that are asked for, or that stand beside a file that is.
fn names(args: &Args) -> Result<Names, Stop> {
    let (path, how) = match &args.names {
        NamesFrom::File(path) => (path.clone(), ""),
        NamesFrom::Nowhere => return Ok(Names::default()),
        NamesFrom::Beside => match beside(&args.command) {
            Some(path) => (path, " (found beside the file; --no-names leaves it out)"),
            None => return Ok(Names::default()),
        },
    };
    let file = input::name(&path) + how;
    Ok(Names::read(&file, &input::read(&path)?)?)
}

/// X.names beside X.sheet, X.script or X.state.
fn beside(command: &Command) -> Option<PathBuf> {
    let files = command.files().into_iter();
    let files = files.filter(|file| *file != Path::new("-"));
    let mut beside = files.map(|file| (file, file.with_extension("names")));
    let found = beside.find(|(file, names)| file != names && names.is_file());
    found.map(|(_, names)| names)
}

/// What the commands share; desk run and desk audit are in `scripts`, desk powers, desk diff, desk tiny and desk doors in modules of those names.
pub struct Desk {
    pub names: Names,
    pub paints: Paints,
    pub json: bool,
}

impl Desk {
    /// What was found, as JSON where that is asked for.
    pub fn shown(&self, json: impl FnOnce() -> Json, words: impl FnOnce() -> String) -> String {
        match self.json {
            true => json().to_string(),
            false => words(),
        }
    }

    fn check(&self, path: &Path) -> Result<String, Stop> {
        let sheet = self.sheet(path)?;
        let (file, names) = (input::name(path), &self.names);
        Ok(self.shown(
            || documents::check(&sheet, names),
            || summary::summary(&file, &sheet, names, self.paints.out),
        ))
    }

    fn pairs(&self, path: &Path, plain: bool, svg: Option<&Path>) -> Result<String, Stop> {
        let bytes = input::read(path)?;
        let plain = plain.then(|| matrix::plain(&bytes));
        let sheet = self.accepted(path, &bytes).map_err(|stop| Stop {
            printed: plain.clone().unwrap_or_default(),
            ..stop
        })?;
        if let Some(file) = svg {
            let title = format!("What can become what: {}", short(path));
            let picture = pairs_picture::picture(&title, &sheet, &self.names);
            if let Some(picture) = input::put(file, picture)? {
                return Ok(picture);
            }
        }
        Ok(plain.unwrap_or_else(|| {
            self.shown(
                || documents::pairs(&sheet, &self.names),
                || matrix::matrix(&sheet, &self.names, self.paints.out),
            )
        }))
    }

    fn compare(&self, path: &Path, from: &str, to: &str) -> Result<String, Stop> {
        let sheet = self.sheet(path)?;
        let [s, t] = [self.type_(from)?, self.type_(to)?];
        let answers = sheet.compare(t, s).map_err(|refusal| {
            let unknown = [s, t]
                .into_iter()
                .find(|one| sheet.type_info(*one).is_none());
            let unknown = unknown.map_or(String::new(), |one| format!("there is no type {one}: "));
            let (number, last) = (refusal.number(), sheet.sheet_types() - 1);
            Stop::usage(format!(
                "refused with {number}: {unknown}the sheet has types 0 to {last}"
            ))
        })?;
        let (Some(t), Some(s)) = (sheet.type_info(t), sheet.type_info(s)) else {
            return Err(refused(Refusal::UnknownType).into());
        };
        let compared = Compared::of(&sheet, [&t, &s], &answers, &self.names);
        let printed = self.shown(
            || documents::compare(&compared, &self.names),
            || compared.words(&self.names, self.paints.out),
        );
        match compared.becomes {
            true => Ok(printed),
            false => Err(Stop::no(printed)),
        }
    }

    fn explain(&self, number: &str) -> Result<String, Stop> {
        let found = number.parse().ok().and_then(Refusal::from_number);
        let refusal = found.ok_or_else(|| {
            let all: Vec<i64> = Refusal::ALL.iter().map(|one| one.number().into()).collect();
            Stop::usage(format!(
                "{number:?} is no refusal: they have the numbers {}",
                ranges(&all)
            ))
        })?;
        Ok(explain(refusal, self.paints.out))
    }

    /// The sheet of a file.
    fn sheet(&self, path: &Path) -> Result<Sheet, Stop> {
        self.accepted(path, &input::read(path)?)
    }

    /// A sheet that is accepted, with names that fit it.
    pub fn accepted(&self, path: &Path, bytes: &[u8]) -> Result<Sheet, Stop> {
        let sheet = self.accepted_unnamed(path, bytes)?;
        self.names.fit(&sheet)?;
        Ok(sheet)
    }

    /// A sheet that is accepted, whatever the names are for.
    pub fn accepted_unnamed(&self, path: &Path, bytes: &[u8]) -> Result<Sheet, Stop> {
        Sheet::read(bytes).map_err(|refused| self.refused(path, bytes, &refused))
    }

    /// The end of a command whose sheet is refused; what stands behind the sheet in the file does not matter.
    pub fn refused(&self, path: &Path, bytes: &[u8], refused: &SheetRefused) -> Stop {
        if is_saved(bytes) {
            return saved_state(path, "sheet");
        }
        let file = input::name(path);
        let problem = told(&file, bytes, refused, &self.names, self.paints.error);
        Stop::refused(hinted(problem, path, bytes))
    }

    /// A type by its number or its name.
    fn type_(&self, word: &str) -> Result<Type, Stop> {
        let number = self.number(Kind::Type, word);
        number.map(Type).map_err(Stop::usage)
    }

    /// Something by its number or its name.
    pub fn number(&self, kind: Kind, word: &str) -> Result<i64, String> {
        if let Ok(number) = word.parse() {
            return Ok(number);
        }
        let number = self.names.number(kind, word);
        let number = number.ok_or_else(|| {
            let names = match self.names.all(kind) {
                names if names.is_empty() => " (names come from a file: --names FILE, or X.names beside X.sheet, X.script or X.state)".to_string(),
                names => format!(" (the names: {names})"),
            };
            format!("no {kind} is named {word:?}{names}")
        })?;
        Ok(number as i64)
    }
}

/// With the word that desk fix mends what is wrong, where it does.
pub fn hinted(mut problem: Problem, path: &Path, bytes: &[u8]) -> Problem {
    let mended = mended(bytes);
    if !mended.changes.is_empty() && is_right(&mended.text) {
        let (called, file) = (called(), path.display());
        problem.note = Some(format!(
            "{called} fix {file} prints what was meant; --out FILE writes it there."
        ));
    }
    problem
}

/// A saved state, where something else is due.
pub fn saved_state(path: &Path, due: &str) -> Stop {
    let (file, called) = (input::name(path), called());
    format!("{file}: this is a saved state, which {called} audit takes, and no {due}").into()
}

/// The last part of a path, for a title.
pub fn short(path: &Path) -> String {
    path.file_name()
        .map_or_else(|| input::name(path), |name| input::name(Path::new(name)))
}
