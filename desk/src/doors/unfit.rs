//! Why the core refuses a list of times with 22: it is looked at once more, after the core has refused it (V3).

use super::fault::Fault;
use super::times::Entry;
use pilgonca::raw::{LAST_TIME, MAX_TIMES};

/// The first entry of a list that V3 refuses. `what` an entry is: a mark, or an arrival.
pub fn unfit(entries: &[Entry], what: &str) -> Option<Fault> {
    let mut before: Option<&Entry> = None;
    for (number, entry) in entries.iter().enumerate() {
        let found = too_many(number, entries.len(), what)
            .or_else(|| too_late(entry))
            .or_else(|| falls(entry, before?, number, what));
        if let Some((wrong, right)) = found {
            let bytes = entry.bytes.clone();
            return Some(Fault {
                bytes,
                wrong,
                right,
            });
        }
        before = Some(entry);
    }
    None
}

fn too_many(number: usize, count: usize, what: &str) -> Option<(String, String)> {
    (number == MAX_TIMES).then(|| {
        let wrong = format!("the list is too long: {count} {what}s, and from here on they are more than {MAX_TIMES}");
        let right = format!(
            "at most {MAX_TIMES} {what}s; a longer list is held in parts, both lists cut in a gap that is longer than the tolerance"
        );
        (wrong, right)
    })
}

fn too_late(entry: &Entry) -> Option<(String, String)> {
    (entry.time > LAST_TIME).then(|| {
        let wrong = format!("the time is out of range: it is above {LAST_TIME}");
        let right = format!(
            "0 to {LAST_TIME} milliseconds, which are 49 days: both lists counted from one moment before the first of them, and not from 1970"
        );
        (wrong, right)
    })
}

fn falls(entry: &Entry, before: &Entry, number: usize, what: &str) -> Option<(String, String)> {
    let (time, last) = (entry.time, before.time);
    (time < last).then(|| {
        let (index, line) = (number - 1, before.line);
        let wrong = format!(
            "the time falls: {time} stands behind {last}, which is {what} {index}, line {line}"
        );
        (
            wrong,
            format!("{last} or later here, or a list in the order of its times"),
        )
    })
}
