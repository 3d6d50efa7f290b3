//! How many calls each subject has made, and how many it has left: it has 32 in a visit, answered or not, and nobody else takes of them (Q9).

use crate::json::Json;
use crate::names::{Kind, Names};
use pilgonca::raw::MAX_CALLS_EACH;
use pilgonca::{Subject, Visit};

/// A subject, and how many calls it has made.
#[derive(Clone, Copy, PartialEq, Eq, Debug)]
pub struct Caller {
    pub subject: Subject,
    pub made: usize,
}

/// Every subject of the sheet, in turn.
pub fn callers(visit: &Visit) -> Vec<Caller> {
    let subjects = (0..visit.sheet().subjects()).map(|number| Subject(number as i64));
    let caller = |subject| Caller {
        subject,
        made: made_by(visit, subject),
    };
    subjects.map(caller).collect()
}

/// How many calls a subject has made.
pub fn made_by(visit: &Visit, subject: Subject) -> usize {
    let calls = visit.calls();
    calls.filter(|call| call.caller == subject).count()
}

/// Of a subject that has none left.
pub fn all_made(subject: Subject, names: &Names) -> String {
    let subject = names.words(Kind::Subject, subject.0);
    format!("{subject} has made all of its {MAX_CALLS_EACH} calls")
}

impl Caller {
    pub fn left(&self) -> usize {
        // the core takes no state with more (H17)
        MAX_CALLS_EACH.saturating_sub(self.made)
    }

    pub fn document(&self, names: &Names) -> Json {
        Json::Object(vec![
            ("subject", Json::named(Kind::Subject, self.subject.0, names)),
            ("made", self.made.into()),
            ("left", self.left().into()),
        ])
    }
}

/// A line for each, the numbers one below the other.
pub fn told(callers: &[Caller], names: &Names) -> String {
    let subject = |caller: &Caller| names.words(Kind::Subject, caller.subject.0);
    let widths = callers.iter().map(|one| subject(one).chars().count());
    let width = widths.max().unwrap_or(0);
    let lines = callers.iter().map(|caller| {
        let (subject, made) = (subject(caller), caller.made);
        let left = match caller.left() {
            0 => "none".to_string(),
            left => left.to_string(),
        };
        format!("  {subject:width$}  made {made:>2} of {MAX_CALLS_EACH}, {left} left\n")
    });
    lines.collect()
}
