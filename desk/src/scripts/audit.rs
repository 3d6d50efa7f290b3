//! The referee's questions: for each object and method, who can call it or come to, how the references came to them, and which calls were made.

mod document;

use crate::names::{Kind, Names};
use crate::paint::{Paint, Tone};
use crate::reach::Power;
use crate::scripts::calls::Calls;
use crate::scripts::follow::Run;
use crate::scripts::trails::layers;
use crate::words::under;
use pilgonca::{CellInfo, Place, PlaceInfo, PlaceKind, Refusal, Sheet};

/// In front of all that is told of a saved state.
const SAVED: &str = "\
This is a saved state. It has the references, what they lead to, and the calls, not the requests that led to
it. Who gave a reference to whom and as which types, what a call was given and answered with, and what was
refused cannot be known from it. The core found it sound. That requests led to it, as what follows takes for
granted, cannot be seen from its bytes.

";

/// In front of all that is told of a sheet alone.
const NO_REQUESTS: &str =
    "There are no requests: this is a sheet alone, and nobody was given a reference.\n";

const HEAD: &str = "\
Who could call what. Nothing is ever taken away: who held a reference at any time holds it at the end,
";

const COVERS_ALL: &str = "so this covers the whole visit.\n";
const COVERS_SAVED: &str = "so this covers the visit until the state was saved.\n";

const TERMS: &str = "
  can call          the type of the cell lets its holder call the method, given arguments that fit
  can come to call  its holder can hand the reference to itself as the types named, and then call it
  offers            the method is there, and no type that the reference can be handed on as lets it be called
  no room           no way to call it was found, and the state has no room to try further ones
  not settled       no way to call it was found in so many steps, and there are further ones
";

const WAYS: &str = "how they came, since the object was made or its owner last took it back";
const LAYERS: &str = "types behind them";

/// What of a run is asked about.
#[derive(Clone, Copy, Default, PartialEq, Eq, Debug)]
pub struct Question {
    pub subject: Option<usize>,
    pub method: Option<usize>,
    /// Which calls were made, and not who could make them.
    pub calls: bool,
}

impl Question {
    /// Whether it has an answer that is yes or no.
    pub fn is_asked(&self) -> bool {
        *self != Question::default()
    }

    pub fn is_about(&self, subject: i64, method: usize) -> bool {
        let of_subject = self.subject.is_none_or(|one| one as i64 == subject);
        of_subject && self.method.is_none_or(|one| one == method)
    }

    /// Who is asked about, and which method; nothing for any.
    pub fn of(&self, names: &Names) -> [Option<String>; 2] {
        let words = |kind, number: Option<usize>| Some(names.words(kind, number? as i64));
        [
            words(Kind::Subject, self.subject),
            words(Kind::Method, self.method),
        ]
    }

    /// In a sentence: `anybody`, `method 1 (mark)`.
    fn words(&self, names: &Names) -> [String; 2] {
        let [subject, method] = self.of(names);
        [
            subject.unwrap_or_else(|| "anybody".to_string()),
            method.unwrap_or_else(|| "anything".to_string()),
        ]
    }

    /// In a message, where there is no answer; whether a call was made always has one.
    pub fn open(&self, names: &Names, answer: Answer) -> String {
        let [subject, method] = self.words(names);
        let whether = format!("whether {subject} could have called {method}");
        match answer {
            Answer::Untold => format!("the state does not tell {whether}"),
            _ => format!("{whether} is not settled"),
        }
    }

    /// As a question, with its answer.
    fn answered(&self, names: &Names, answer: Answer) -> String {
        let [subject, method] = self.words(names);
        let answer = match answer {
            Answer::Yes => "yes".to_string(),
            Answer::No => "no".to_string(),
            Answer::NotUpTo(line) => {
                format!("not up to line {line}, where the script is cut short")
            }
            Answer::Untold => {
                "the state does not tell: it has no room now, and had before".to_string()
            }
            Answer::Unsettled => "that is not settled".to_string(),
        };
        match self.calls {
            true => format!("Did {subject} call {method}? {answer}\n"),
            false => format!("Could {subject} have called {method}? {answer}\n"),
        }
    }
}

#[derive(Clone, Copy, PartialEq, Eq, Debug)]
pub enum Answer {
    Yes,
    No,
    /// The script is cut short at this line, and what stands behind it was not taken.
    NotUpTo(usize),
    /// A saved state is full: there was room once for ways that can no more be tried.
    Untold,
    /// There are more ways than were tried.
    Unsettled,
}

impl Answer {
    fn of(yes: bool, run: &Run) -> Answer {
        match (yes, &run.malformed) {
            (true, _) => Answer::Yes,
            (false, None) => Answer::No,
            (false, Some(line)) => Answer::NotUpTo(line.line_number),
        }
    }
}

/// The report, and the answer to the question.
pub struct Audited {
    pub text: String,
    pub answer: Answer,
}

/// The answer for a whole run. What a cell offers, and what its holder can come to call, is asked of the core.
pub fn audit(
    run: &Run,
    question: Question,
    names: &Names,
    paint: Paint,
    json: bool,
) -> Result<Audited, Refusal> {
    let sheet = run.visit.sheet();
    let sheet = &sheet;
    let calls = Calls {
        run,
        sheet,
        question,
        names,
        paint,
    };
    let auditor = match question.calls {
        true => None,
        false => Some(Auditor {
            run,
            sheet,
            question,
            names,
            paint,
            powers: run.powers()?,
        }),
    };
    let answer = match &auditor {
        Some(auditor) => auditor.answer(),
        None => Answer::of(calls.count() > 0, run),
    };
    let text = match json {
        true => document::document(auditor.as_ref(), &calls, answer).to_string(),
        false => report(auditor.as_ref(), &calls, answer),
    };
    Ok(Audited { text, answer })
}

/// The whole in words; there is no auditor where only calls are asked for.
fn report(auditor: Option<&Auditor>, calls: &Calls, answer: Answer) -> String {
    let (run, question) = (calls.run, calls.question);
    let before = match run.saved {
        true => SAVED.to_string(),
        false if run.steps.is_empty() && run.malformed.is_none() => format!("{NO_REQUESTS}\n"),
        false => cut_short(run).map_or(String::new(), |cut| cut + "\n"),
    };
    let objects = auditor.map_or(String::new(), |auditor| auditor.told() + "\n");
    let answered = match question.is_asked() {
        true => format!("\n{}", question.answered(calls.names, answer)),
        false => String::new(),
    };
    format!("{before}{objects}{}{answered}", calls.told())
}

/// In the report itself: it may go on without what went to standard error.
pub fn cut_short(run: &Run) -> Option<String> {
    let malformed = run.malformed.as_ref()?;
    Some(format!(
        "The script is cut short: line {} is no request, and nothing from there on was taken.\n",
        malformed.line_number
    ))
}

struct Auditor<'a> {
    run: &'a Run<'a>,
    sheet: &'a Sheet,
    question: Question,
    names: &'a Names,
    paint: Paint,
    /// By cell and method.
    powers: Vec<Vec<Option<Power>>>,
}

impl Auditor<'_> {
    /// All objects.
    fn told(&self) -> String {
        let visit = &self.run.visit;
        let objects: String = visit.places().map(|place| self.object(&place)).collect();
        let covers = match &self.run.malformed {
            Some(line) => format!(
                "so this covers the visit up to line {}.\n",
                line.line_number
            ),
            None if self.run.saved => COVERS_SAVED.to_string(),
            None => COVERS_ALL.to_string(),
        };
        let head = format!("{HEAD}{covers}{TERMS}");
        match objects.is_empty() {
            true => format!("{head}\nNo object was made.\n"),
            false => head + &objects,
        }
    }

    /// What the question is about, by cell.
    fn asked(&self, object: Option<Place>, method: usize) -> Vec<(CellInfo, &Power)> {
        let visit = &self.run.visit;
        let cells = visit.cells().zip(&self.powers);
        let cells = cells.filter(|(cell, _)| {
            let of_object = object.is_none() || visit.base_of(cell.place) == object;
            of_object && self.question.is_about(cell.holder.0, method)
        });
        cells
            .filter_map(|(cell, powers)| Some((cell, powers.get(method)?.as_ref()?)))
            .collect()
    }

    fn answer(&self) -> Answer {
        let any = |test: fn(&Power) -> bool| {
            (0..self.sheet.methods()).any(|method| {
                let asked = self.asked(None, method);
                asked.iter().any(|(_, power)| test(power))
            })
        };
        let full = |power: &Power| matches!(power, Power::NoRoom(_));
        let unsettled = |power: &Power| matches!(power, Power::Unsettled(_));
        match any(Power::is_yes) {
            false if any(unsettled) => Answer::Unsettled,
            false if self.run.saved && any(full) => Answer::Untold,
            yes => Answer::of(yes, self.run),
        }
    }

    /// All about one object; nothing for an adapter.
    fn object(&self, place: &PlaceInfo) -> String {
        let PlaceKind::Object { class, owner } = place.kind else {
            return String::new();
        };
        let title = format!(
            "The object at place {}: {}, owned by {}",
            place.number,
            self.names.words(Kind::Type, class.0),
            self.names.words(Kind::Subject, owner.0)
        );
        let mut text = format!("\n{}\n", self.paint.of(Tone::Strong, &title));
        let mut shown: Vec<CellInfo> = Vec::new();
        for method in 0..self.sheet.methods() {
            if self.question.method.is_none_or(|one| one == method) {
                let cells = self.asked(Some(place.number), method);
                text += &self.method(method, &cells);
                shown.extend(cells.into_iter().map(|(cell, _)| cell));
            }
        }
        shown.sort_by_key(|cell| cell.number);
        shown.dedup();
        text + &self.ways(&shown)
    }

    /// Who can do what with a method.
    fn method(&self, method: usize, cells: &[(CellInfo, &Power)]) -> String {
        let title = self.names.words(Kind::Method, method as i64);
        if cells.is_empty() {
            let nobody = match self.question.subject {
                Some(number) => format!("not {}", self.names.words(Kind::Subject, number as i64)),
                None => "nobody".to_string(),
            };
            let nobody = self.paint.of(Tone::Quiet, &nobody);
            return format!("  {title}: {nobody}\n");
        }
        let lines = cells.iter().map(|(cell, power)| {
            let head = format!("    {}  ", self.holder(cell));
            under(&head, &self.power(power))
        });
        format!("  {title}\n{}", lines.collect::<String>())
    }

    /// Who holds a cell, and its number.
    fn holder(&self, cell: &CellInfo) -> String {
        let subject = |number: i64| self.names.words(Kind::Subject, number);
        let subjects = 0..self.sheet.subjects();
        let widths = subjects.map(|number| subject(number as i64).chars().count());
        let width = widths.max().unwrap_or(0);
        format!("{:width$}  cell {:<3}", subject(cell.holder.0), cell.number)
    }

    fn power(&self, power: &Power) -> String {
        let before = match power {
            Power::NoRoom(_) if self.run.saved => {
                "; whether there was one while there was room, the state does not tell"
            }
            _ => "",
        };
        power.words(self.names) + before
    }

    fn way(&self, cell: &CellInfo) -> String {
        let (run, sheet, names) = (self.run, self.sheet, self.names);
        match run.trails.of(cell.number) {
            Some(trail) => trail.words(sheet, names),
            None => layers(&run.visit, sheet, cell, names),
        }
    }

    /// How cells came to their holders, or of a saved state what is left of it.
    fn ways(&self, cells: &[CellInfo]) -> String {
        let title = if self.run.saved { LAYERS } else { WAYS };
        let rows = cells.iter().map(|cell| {
            let head = format!("    cell {:<3}  ", cell.number);
            under(&head, &self.way(cell))
        });
        let rows: String = rows.collect();
        match rows.is_empty() {
            true => rows,
            false => format!("  {title}\n{rows}"),
        }
    }
}
