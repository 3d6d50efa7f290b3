//! `desk doors`: the times of marks held against those of a door counter. The counts are the core's, and so is which entries stay unpaired.

mod cells;
mod fault;
mod times;
mod unfit;
mod unpaired;

pub use times::decimal;

use crate::args::DoorsAsked;
use crate::commands::{saved_state, Desk, Stop};
use crate::documents;
use crate::explain::refused;
use crate::input::{self, is_saved};
use crate::paint::{Paint, Tone};
use crate::spoilt::utf16;
use crate::words::{called, plural, under};
use fault::Fault;
use pilgonca::raw::MAX_TOLERANCE;
use pilgonca::{doors, Doors, Refusal};
use std::path::Path;
use times::{Times, Unread};
use unfit::unfit;
use unpaired::{agreed, unpaired, Unpaired};

/// So many unpaired entries of a list are named where --list does not ask for all.
const NAMED: usize = 20;

/// One of the two lists, as its file has it.
pub struct List {
    /// What an entry of it is: a mark, or an arrival.
    pub what: &'static str,
    pub file: String,
    text: Vec<u8>,
    pub read: Times,
}

/// Two lists that the core has counted.
pub struct Held {
    /// The marks, and the arrivals.
    pub lists: [List; 2],
    pub within: u64,
    pub counts: Doors,
    pub unpaired: [Vec<Unpaired>; 2],
}

impl List {
    fn times(&self) -> Vec<u64> {
        self.read.entries.iter().map(|entry| entry.time).collect()
    }
}

impl Desk {
    pub fn doors(&self, asked: &DoorsAsked) -> Result<String, Stop> {
        let [marks, arrivals] = &asked.files;
        let [of_marks, of_arrivals] = &asked.columns;
        let marks = self.times("mark", marks, of_marks.as_deref())?;
        let arrivals = self.times("arrival", arrivals, of_arrivals.as_deref())?;
        let held = self.held([marks, arrivals], asked.within)?;
        let printed = self.shown(
            || documents::doors(&held),
            || held.words(asked.list, self.paints.out),
        );
        match held.counts.unpaired_marks {
            0 => Ok(printed),
            _ => Err(Stop::no(printed)),
        }
    }

    /// The list of a file.
    fn times(&self, what: &'static str, path: &Path, column: Option<&str>) -> Result<List, Stop> {
        let text = input::read(path)?;
        if is_saved(&text) {
            return Err(saved_state(path, "list of times"));
        }
        let file = input::name(path);
        let read = readable(&text).and_then(|()| Times::read(&text, column));
        let read = read.map_err(|why| match why {
            Unread::Column(why) => Stop::usage(format!("{file}: {why}")),
            Unread::Fault(fault) => {
                let words = format!("the list of {what}s cannot be read");
                Stop::refused(fault.told(&text, (&file, None), words, self.paints.error))
            }
        })?;
        Ok(List {
            what,
            file,
            text,
            read,
        })
    }

    /// What the core counts, and by its counts which entries stay unpaired.
    fn held(&self, lists: [List; 2], within: u64) -> Result<Held, Stop> {
        let [marks, arrivals] = lists.each_ref().map(List::times);
        let counted = |marks: &[u64], arrivals: &[u64]| doors(marks, arrivals, within);
        let counts = counted(&marks, &arrivals).map_err(|why| self.unfit(why, &lists, within))?;
        let of_marks = unpaired(&marks, |part| Ok(counted(part, &arrivals)?.pairs));
        let of_arrivals = unpaired(&arrivals, |part| Ok(counted(&marks, part)?.pairs));
        let unpaired = [of_marks.map_err(refused)?, of_arrivals.map_err(refused)?];
        agreed(&counts, unpaired[0].len(), unpaired[1].len())?;
        Ok(Held {
            lists,
            within,
            counts,
            unpaired,
        })
    }

    /// The end of a command whose lists the core refuses.
    fn unfit(&self, refusal: Refusal, lists: &[List; 2], within: u64) -> Stop {
        let number = refusal.number();
        if within > MAX_TOLERANCE {
            let why = format!("--within is above {MAX_TOLERANCE}, the largest tolerance");
            return Stop::usage(format!("refused with {number}: {why}"));
        }
        let found = lists
            .iter()
            .find_map(|list| Some((list, unfit(&list.read.entries, list.what)?)));
        let Some((list, fault)) = found else {
            return format!(
                "the lists are {}; desk finds no reason, which is a fault of desk",
                refused(refusal)
            )
            .into();
        };
        let paint = self.paints.error;
        let how = paint.of(Tone::Bad, &format!("refused with {number}"));
        let words = format!("the list of {}s is {how}", list.what);
        Stop::refused(fault.told(&list.text, (&list.file, Some(number)), words, paint))
    }
}

/// What is no list of times at all, and would be told by its parts.
fn readable(text: &[u8]) -> Result<(), Unread> {
    let first = text.split(|byte| *byte == b'\n').next().unwrap_or_default();
    let (wrong, right) = if utf16(text).is_some() {
        let wrong = "the file is UTF-16: it has two bytes for each character";
        (
            wrong.to_string(),
            "the same saved as UTF-8, or as CSV with UTF-8".to_string(),
        )
    } else if first.starts_with(b"within=") {
        let wrong = "this is an input of the program doors, which has both lists in it";
        let called = called();
        let right =
            format!("./run doors FILE; {called} doors takes a file of marks and one of arrivals");
        (wrong.to_string(), right)
    } else {
        return Ok(());
    };
    Err(Unread::Fault(Fault {
        bytes: 0..first.len(),
        wrong,
        right,
    }))
}

impl Held {
    fn words(&self, all: bool, paint: Paint) -> String {
        let Held {
            lists: [marks, arrivals],
            unpaired: [of_marks, of_arrivals],
            counts,
            within,
        } = self;
        let head = format!(
            "marks     {}\narrivals  {}\nwithin    {within} ms\n",
            marks.title(),
            arrivals.title()
        );
        let counted = format!(
            "\n  pairs              {}\n  unpaired marks     {}\n  unpaired arrivals  {}\n",
            counts.pairs, counts.unpaired_marks, counts.unpaired_arrivals
        );
        let answer = match counts.unpaired_marks {
            0 => paint.of(Tone::Good, "yes"),
            _ => paint.of(Tone::Bad, "no"),
        };
        [
            head,
            counted,
            self.named(marks, arrivals.what, cut(of_marks, all), paint),
            self.named(arrivals, marks.what, cut(of_arrivals, all), paint),
            format!("\n{}", under("", &self.certain())),
            format!("\nDoes an arrival account for every mark? {answer}\n"),
        ]
        .concat()
    }

    /// Unpaired entries of a list, each with its number in it, its line and its time; and how many more there are.
    fn named(&self, list: &List, other: &str, cut: (&[Unpaired], usize), paint: Paint) -> String {
        let (shown, more) = cut;
        if shown.is_empty() {
            return String::new();
        }
        let (what, within) = (list.what, self.within);
        let rows = shown.iter().map(|one| {
            let entry = &list.read.entries[one.number];
            let why = match one.near {
                true => format!("every {other} near it is in another pair"),
                false => format!("no {other} is within {within} ms"),
            };
            let (line, time) = (entry.line, entry.time);
            [
                format!("{what} {}", one.number),
                format!("line {line}"),
                format!("{time} ms"),
                why,
            ]
        });
        let more = match more {
            0 => String::new(),
            more => format!("  and {more} more; --list names them all\n"),
        };
        let title = paint.of(Tone::Strong, &format!("Unpaired {what}s"));
        format!("\n{title}\n{}{more}", in_columns(&rows.collect::<Vec<_>>()))
    }

    /// What is certain of every pairing, and what is one choice of several (V6, V7; why, says `unpaired`).
    fn certain(&self) -> String {
        let within = self.within;
        let every = || self.unpaired.iter().flatten();
        let mut text = format!("The counts are certain: no pairing within {within} ms has more pairs, so none leaves fewer unpaired.");
        if every().any(|one| !one.near) {
            text += &format!(" An entry with none of the other list within {within} ms is unpaired in every pairing.");
        }
        if every().any(|one| one.near) {
            text += " An entry whose near ones are in other pairs is one choice of several: another pairing of as many pairs has it, \
                     and leaves another of its list unpaired instead.";
        }
        text
    }
}

/// So many as are named, and how many more there are.
fn cut(unpaired: &[Unpaired], all: bool) -> (&[Unpaired], usize) {
    let shown = if all {
        unpaired.len()
    } else {
        NAMED.min(unpaired.len())
    };
    (&unpaired[..shown], unpaired.len() - shown)
}

/// Rows with two spaces between columns.
fn in_columns(rows: &[[String; 4]]) -> String {
    let width = |column: usize| rows.iter().map(|row| row[column].len()).max().unwrap_or(0);
    let [first, second, third] = [0, 1, 2].map(width);
    let line = |[one, two, three, four]: &[String; 4]| {
        format!("  {one:first$}  {two:second$}  {three:third$}  {four}\n")
    };
    rows.iter().map(line).collect()
}

impl List {
    /// How many there are, and where from.
    fn title(&self) -> String {
        let count = plural(self.read.entries.len(), "time");
        let column = self.read.column.as_ref().map(|column| match &column.name {
            Some(name) => format!(", column {} ({name})", column.number),
            None => format!(", column {}", column.number),
        });
        format!("{count} of {}{}", self.file, column.unwrap_or_default())
    }
}
