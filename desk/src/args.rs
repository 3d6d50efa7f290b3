//! The words of the command line.

use crate::doors::decimal;
use crate::words::called;
use std::ffi::{OsStr, OsString};
use std::path::{Path, PathBuf};

const USAGE: &str = "\
desk: sheets and scripts at the desk; every answer is the proved core's

  desk check SHEET            whether the sheet is accepted, and what it has;
                              else the line at fault, and what would be right
  desk fix SHEET or SCRIPT    the text that was meant, where mail or an editor
                              spoilt it; --out FILE writes it there
  desk pairs SHEET            which type can become which; --plain prints it
                              as the program pairs does
  desk compare SHEET FROM TO  whether type FROM can become type TO, and why not;
                              both are numbers or names
  desk run SCRIPT             each request and its answer in words; --save STATE
                              writes the state at the end to this file
  desk audit SCRIPT           for each object and method who can call it or come
                              to, how it came to them, and the calls made
  desk audit STATE            the same of a saved state, as a device can write
                              it: it does not have how things came about
      --subject S --method M  only these: could S have called M?
      --calls                 only the calls: did S call M?
  desk powers SHEET           for each type what its holder can call, can come
                              to call alone, and never can
  desk diff OLD NEW           what a new version of a sheet gives and takes
  desk tiny                   every tiny sheet, as the program tiny prints them,
                              for tests; --out FILE writes them there
  desk tiny N                 the tiny sheet with this number, 0 to 129
      --list                  in words: what each of them says
  desk doors MARKS ARRIVALS --within MS
                              times of marks against those of a door counter:
                              how many are pairs within so many milliseconds,
                              and which are in none. Both files have times in
                              milliseconds, as a list or as CSV
      --column C              the column of CSV with the times, by its name or
                              number; --marks-column, --arrivals-column for
                              one of the files
      --list                  every entry that is in no pair, not only twenty
  desk explain N              what the refusal with this number means
  desk help, -h, --help       this text
  desk --version, -V          the version

  --names FILE                names to print: lines such as `type 2 reader`,
                              `subject 0 desk`, `method 1 mark`,
                              `category 1 visits`. X.names beside X.sheet,
                              X.script or X.state is found; --no-names leaves
                              it out
  --json                      one JSON document, as desk/schema/desk.json says:
                              of check, pairs, compare, run, audit, powers,
                              diff, tiny, doors
  --svg FILE                  draws pairs, or the references at the end of run

--names=FILE is --names FILE. Behind -- no word is an option. A file that is
called - is standard input, or standard output for --svg and --out. Where
NO_COLOR is set, or TERM is dumb, nothing is coloured.

Exit status: 0 yes or accepted, 1 no or refused, 2 words that desk does not
understand, 3 what cannot be read or written. A run whose requests are refused
ends with 0: these are its answers. Some commands answer by the status: compare
(0 FROM can become TO, also where that has a condition), diff (0 the sheets say
the same), doors (0 every mark is in a pair), audit with --subject, --method or
--calls. There refused input is 3 too, so that no answer is taken for no.
";

/// The help; where the program is called otherwise, it says so.
pub fn help() -> String {
    let called = called();
    if called == "desk" {
        return USAGE.to_string();
    }
    format!("{USAGE}\nHere desk stands for {called}.\n")
}

/// What is asked.
#[derive(Clone, PartialEq, Eq, Debug)]
pub enum Command {
    Help,
    Version,
    Check(PathBuf),
    Fix {
        sheet: PathBuf,
        out: Option<PathBuf>,
    },
    Pairs {
        sheet: PathBuf,
        plain: bool,
        svg: Option<PathBuf>,
    },
    Compare {
        sheet: PathBuf,
        from: String,
        to: String,
    },
    Run {
        script: PathBuf,
        svg: Option<PathBuf>,
        save: Option<PathBuf>,
    },
    /// Of a script, or of a saved state.
    Audit {
        script: PathBuf,
        asked: Asked,
    },
    Powers(PathBuf),
    Diff {
        old: PathBuf,
        new: PathBuf,
    },
    Tiny {
        /// One of them, or all.
        number: Option<String>,
        list: bool,
        out: Option<PathBuf>,
    },
    Doors(DoorsAsked),
    Explain(String),
}

impl Command {
    /// Whether it asks a question that its exit status answers.
    pub fn asks(&self) -> bool {
        match self {
            Command::Audit { asked, .. } => *asked != Asked::default(),
            Command::Diff { .. } | Command::Compare { .. } | Command::Doors(_) => true,
            _ => false,
        }
    }

    /// The files that names may stand beside, the nearest first.
    pub fn files(&self) -> Vec<&Path> {
        match self {
            Command::Help
            | Command::Version
            | Command::Explain(_)
            | Command::Tiny { .. }
            | Command::Doors(_) => Vec::new(),
            Command::Check(file) | Command::Powers(file) => vec![file],
            Command::Fix { sheet, .. }
            | Command::Pairs { sheet, .. }
            | Command::Compare { sheet, .. } => vec![sheet],
            Command::Run { script, .. } | Command::Audit { script, .. } => vec![script],
            Command::Diff { old, new } => vec![new, old],
        }
    }
}

/// What an audit is asked about, in the words of the command line.
#[derive(Clone, Default, PartialEq, Eq, Debug)]
pub struct Asked {
    pub subject: Option<String>,
    pub method: Option<String>,
    pub calls: bool,
}

impl Asked {
    fn of(words: &Words) -> Asked {
        Asked {
            subject: words.text("--subject"),
            method: words.text("--method"),
            calls: words.has("--calls"),
        }
    }
}

/// Two files of times, and how they are to be held against each other.
#[derive(Clone, PartialEq, Eq, Debug)]
pub struct DoorsAsked {
    /// The marks, and the arrivals.
    pub files: [PathBuf; 2],
    /// The column of each that has the times, by name or number, where that is asked for.
    pub columns: [Option<String>; 2],
    /// The tolerance; one past 64 bits counts as the largest, which the core refuses too.
    pub within: u64,
    /// Whether every unpaired entry is named.
    pub list: bool,
}

impl DoorsAsked {
    fn of(words: &Words, rest: &[OsString]) -> Result<DoorsAsked, String> {
        let called = called();
        let [marks, arrivals] = rest else {
            return Err(format!(
                "{called} doors takes two files, the marks first, and --within"
            ));
        };
        if [marks, arrivals].iter().all(|file| *file == "-") {
            return Err("only one of the two lists can be standard input".to_string());
        }
        let column = |name: &str| words.text(name).or_else(|| words.text("--column"));
        Ok(DoorsAsked {
            files: [marks, arrivals].map(PathBuf::from),
            columns: ["--marks-column", "--arrivals-column"].map(column),
            within: within(words.text("--within"))?,
            list: words.has("--list"),
        })
    }
}

/// A tolerance as it is typed.
fn within(word: Option<String>) -> Result<u64, String> {
    let right = "milliseconds in digits alone, 0 to 60000, as --within 1000 for a second";
    let Some(word) = word else {
        return Err(format!("--within is missing: {right}"));
    };
    decimal(word.as_bytes()).ok_or_else(|| format!("--within takes {right}, and not {word:?}"))
}

/// Where names come from.
#[derive(Clone, Default, PartialEq, Eq, Debug)]
pub enum NamesFrom {
    #[default]
    Beside,
    File(PathBuf),
    Nowhere,
}

/// A command, and what goes for all of them.
#[derive(Clone, PartialEq, Eq, Debug)]
pub struct Args {
    pub command: Command,
    /// Its word.
    pub name: String,
    pub names: NamesFrom,
    pub json: bool,
}

/// An option: what its word is, if it takes one, and the commands that it is for.
struct Choice {
    name: &'static str,
    takes: Option<&'static str>,
    of: &'static [&'static str],
}

const SHOWN: &[&str] = &[
    "check", "pairs", "compare", "run", "audit", "powers", "diff", "tiny", "doors",
];
const NAMED: &[&str] = &[
    "check", "fix", "pairs", "compare", "run", "audit", "powers", "diff",
];

const A_COLUMN: &str = "the name or the number of a column";

const CHOICES: [Choice; 15] = [
    Choice::new("--names", Some("a file"), NAMED),
    Choice::new("--no-names", None, NAMED),
    Choice::new("--json", None, SHOWN),
    Choice::new("--svg", Some("a file"), &["pairs", "run"]),
    Choice::new("--plain", None, &["pairs"]),
    Choice::new("--save", Some("a file"), &["run"]),
    Choice::new("--out", Some("a file"), &["fix", "tiny"]),
    Choice::new("--subject", Some("a number or a name"), &["audit"]),
    Choice::new("--method", Some("a number or a name"), &["audit"]),
    Choice::new("--calls", None, &["audit"]),
    Choice::new("--list", None, &["tiny", "doors"]),
    Choice::new("--within", Some("milliseconds"), &["doors"]),
    Choice::new("--column", Some(A_COLUMN), &["doors"]),
    Choice::new("--marks-column", Some(A_COLUMN), &["doors"]),
    Choice::new("--arrivals-column", Some(A_COLUMN), &["doors"]),
];

impl Choice {
    const fn new(
        name: &'static str,
        takes: Option<&'static str>,
        of: &'static [&'static str],
    ) -> Choice {
        Choice { name, takes, of }
    }

    fn find(word: &str) -> Result<&'static Choice, String> {
        let mut choices = CHOICES.iter();
        let found = choices.find(|choice| choice.name == word);
        found.ok_or_else(|| format!("there is no option {word:?}"))
    }
}

/// The words with the options taken out.
#[derive(Default)]
struct Words {
    plain: Vec<OsString>,
    /// Options, with their words where they take one.
    options: Vec<(&'static Choice, OsString)>,
}

impl Words {
    fn has(&self, name: &str) -> bool {
        self.options.iter().any(|(choice, _)| choice.name == name)
    }

    fn file(&self, name: &str) -> Option<PathBuf> {
        let mut options = self.options.iter();
        let (_, word) = options.find(|(choice, _)| choice.name == name)?;
        Some(word.into())
    }

    fn text(&self, name: &str) -> Option<String> {
        self.file(name).map(|word| word.to_string_lossy().into())
    }

    fn add(&mut self, choice: &'static Choice, word: OsString) -> Result<(), String> {
        if self.has(choice.name) {
            return Err(format!("{} is given twice", choice.name));
        }
        self.options.push((choice, word));
        Ok(())
    }

    /// Whether the options are for this command, and go together.
    fn fit(&self, command: &str) -> Result<(), String> {
        for (Choice { name, of, .. }, _) in &self.options {
            if !of.contains(&command) {
                return Err(format!("{name} is for {} {}", called(), of.join(", ")));
            }
        }
        let printed = |name: &str| self.file(name).is_some_and(|file| file == *"-");
        if printed("--save") {
            return Err("--save takes a file: a state is not printed".to_string());
        }
        let drawn = printed("--svg");
        let both = [
            ("--names", self.has("--no-names"), "--no-names"),
            ("--plain", self.has("--json"), "--json"),
            ("--list", self.has("--json"), "--json"),
            ("--out", self.has("--json"), "--json"),
            ("--out", self.has("--list"), "--list"),
            ("--svg", drawn && self.has("--json"), "--json"),
            ("--svg", drawn && self.has("--plain"), "--plain"),
        ];
        match both.iter().find(|(one, other, _)| self.has(one) && *other) {
            Some((one, _, other)) => Err(format!("{one} and {other} do not go together")),
            None => Ok(()),
        }
    }
}

/// What the words ask for, or why they ask for nothing.
pub fn parse(words: impl Iterator<Item = OsString>) -> Result<Args, String> {
    let words: Vec<OsString> = words.collect();
    if let Some(command) = asked_anywhere(&words) {
        return Ok(Args {
            command,
            name: String::new(),
            names: NamesFrom::Nowhere,
            json: false,
        });
    }
    let words = sorted(words.into_iter())?;
    let mut plain = words.plain.iter();
    let name = plain.next().map_or("help".into(), |name| name.clone());
    let name = name.to_string_lossy().into_owned();
    let command = command(&name, &words, plain.as_slice())?;
    words.fit(&name)?;
    let names = match words.file("--names") {
        Some(file) => NamesFrom::File(file),
        None if words.has("--no-names") => NamesFrom::Nowhere,
        None => NamesFrom::Beside,
    };
    Ok(Args {
        command,
        name,
        names,
        json: words.has("--json"),
    })
}

/// Help or the version, wherever they are asked for in front of `--`, whatever else is there.
fn asked_anywhere(words: &[OsString]) -> Option<Command> {
    let mut words = words.iter().take_while(|word| *word != "--");
    words.find_map(|word| match word.to_str() {
        Some("-h" | "--help") => Some(Command::Help),
        Some("-V" | "--version") => Some(Command::Version),
        _ => None,
    })
}

fn sorted(mut words: impl Iterator<Item = OsString>) -> Result<Words, String> {
    let mut found = Words::default();
    while let Some(word) = words.next() {
        if word == "--" {
            found.plain.extend(words);
            break;
        }
        let Some(text) = option(&word) else {
            found.plain.push(word);
            continue;
        };
        let (name, value) = match text.split_once('=') {
            Some((name, _)) => (name, Some(behind(&word, name.len() + 1))),
            None => (text.as_str(), None),
        };
        let choice = Choice::find(name)?;
        let value = match (choice.takes, value) {
            (None, Some(_)) => return Err(format!("{name} takes nothing")),
            (None, None) => OsString::new(),
            (Some(_), Some(value)) => value,
            (Some(what), None) => words.next().ok_or(format!("{name} takes {what}"))?,
        };
        found.add(choice, value)?;
    }
    Ok(found)
}

/// A word that is an option; a number below 0 is none, and neither is `-` alone.
fn option(word: &OsStr) -> Option<String> {
    let text = word.to_string_lossy();
    let is_option = text.starts_with('-') && text != "-" && text.parse::<i64>().is_err();
    is_option.then(|| text.into_owned())
}

/// The rest of a word, whatever bytes it has.
fn behind(word: &OsStr, length: usize) -> OsString {
    use std::os::unix::ffi::OsStrExt;
    OsStr::from_bytes(&word.as_bytes()[length..]).to_owned()
}

fn command(name: &str, words: &Words, rest: &[OsString]) -> Result<Command, String> {
    let file = |what: &str| match rest {
        [file] => Ok(PathBuf::from(file)),
        _ => Err(format!("{} {name} takes one {what}", called())),
    };
    Ok(match name {
        "help" => Command::Help,
        "check" => Command::Check(file("sheet")?),
        "fix" => Command::Fix {
            sheet: file("sheet or script")?,
            out: words.file("--out"),
        },
        "pairs" => Command::Pairs {
            sheet: file("sheet")?,
            plain: words.has("--plain"),
            svg: words.file("--svg"),
        },
        "compare" => compare(rest)?,
        "run" => Command::Run {
            script: file("script")?,
            svg: words.file("--svg"),
            save: words.file("--save"),
        },
        "audit" => Command::Audit {
            script: file("script or saved state")?,
            asked: Asked::of(words),
        },
        "powers" => Command::Powers(file("sheet")?),
        "diff" => diff(rest)?,
        "tiny" => Command::Tiny {
            number: tiny(rest)?,
            list: words.has("--list"),
            out: words.file("--out"),
        },
        "doors" => Command::Doors(DoorsAsked::of(words, rest)?),
        "explain" => Command::Explain(file("number")?.to_string_lossy().into_owned()),
        _ => return Err(format!("there is no command {name:?}")),
    })
}

fn compare(rest: &[OsString]) -> Result<Command, String> {
    let [sheet, from, to] = rest else {
        let called = called();
        return Err(format!(
            "{called} compare takes a sheet and two types, FROM and TO"
        ));
    };
    let [from, to] = [from, to].map(|word| word.to_string_lossy().into_owned());
    let sheet = sheet.into();
    Ok(Command::Compare { sheet, from, to })
}

fn tiny(rest: &[OsString]) -> Result<Option<String>, String> {
    match rest {
        [] => Ok(None),
        [number] => Ok(Some(number.to_string_lossy().into_owned())),
        _ => {
            let called = called();
            Err(format!(
                "{called} tiny takes the number of one tiny sheet, or nothing"
            ))
        }
    }
}

fn diff(rest: &[OsString]) -> Result<Command, String> {
    let [old, new] = rest else {
        let called = called();
        return Err(format!("{called} diff takes two sheets, the old one first"));
    };
    Ok(Command::Diff {
        old: old.into(),
        new: new.into(),
    })
}
