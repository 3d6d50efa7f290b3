//! Worked examples as people read them: lines `REQUEST -> PRINTED`, in the comment files of examples/ and in docs/GUIDE.md.
//!
//! `REQUEST (N times) -> FIRST .. LAST` stands for N such lines, in which each number counts in equal steps from first to last.

/// Stands for a sheet that is refused, in place of a request.
pub const SHEET: &str = "the sheet";

/// A request's line and the line printed for it, both without LF.
#[derive(Clone, PartialEq, Eq, Debug)]
pub struct Step {
    pub request: String,
    pub printed: String,
}

/// The steps that lines show; lines of another form are left out.
pub fn steps<'a>(lines: impl Iterator<Item = &'a str>) -> Vec<Step> {
    lines
        .filter_map(|line| line.split_once(" -> "))
        .flat_map(|(request, printed)| expanded(request.trim(), printed.trim()))
        .collect()
}

fn expanded(request: &str, printed: &str) -> Vec<Step> {
    let (request, times) = repeated(request);
    let (first, last) = printed.split_once(" .. ").unwrap_or((printed, printed));
    (0..times)
        .map(|index| Step {
            request: request.to_string(),
            printed: between(first, last, index, times),
        })
        .collect()
}

/// A request without `(N times)`, and N.
fn repeated(request: &str) -> (&str, usize) {
    let found = request
        .strip_suffix(" times)")
        .and_then(|rest| rest.split_once(" ("));
    match found {
        Some((request, times)) => (request, times.parse().expect("a number of times")),
        None => (request, 1),
    }
}

/// One of so many lines from the first to the last.
fn between(first: &str, last: &str, index: usize, times: usize) -> String {
    if first == last {
        return first.to_string();
    }
    let words = first.split(' ').zip(last.split(' '));
    let words = words.map(|(first, last)| {
        let number = |word: &str| -> i64 {
            let digits = word.strip_prefix("got=").unwrap_or(word);
            digits.parse().expect("a number")
        };
        let (from, to, steps) = (number(first), number(last), times as i64 - 1);
        assert_eq!((to - from) % steps, 0, "{first} to {last} in {steps} steps");
        (from + (to - from) / steps * index as i64).to_string()
    });
    let words: Vec<String> = words.collect();
    format!("got={}", words.join(" "))
}

/// The requests, each with its LF; none for a refused sheet.
pub fn requests(steps: &[Step]) -> String {
    let lines = steps.iter().filter(|step| step.request != SHEET);
    lines.map(|step| format!("{}\n", step.request)).collect()
}

/// What is printed.
pub fn printed(steps: &[Step]) -> String {
    let lines = steps.iter().map(|step| format!("{}\n", step.printed));
    lines.collect()
}

#[cfg(test)]
mod tests {
    use super::*;

    #[test]
    fn lines_are_expanded() {
        let text = "words\n  do=a 1   -> got=-\nmore\ndo=b (3 times) -> got=1 9 .. got=5 9\ndo=c (2 times) -> no=8\n";
        let steps = steps(text.lines());
        assert_eq!(requests(&steps), "do=a 1\ndo=b\ndo=b\ndo=b\ndo=c\ndo=c\n");
        assert_eq!(
            printed(&steps),
            "got=-\ngot=1 9\ngot=3 9\ngot=5 9\nno=8\nno=8\n"
        );
    }
}
