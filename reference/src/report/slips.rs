//! Likely slips in holding marks against arrivals, and in reading them. Where a slip changes the result, an input
//! shows who made it.

use crate::generators::Lists;

/// Pairs where each mark in its turn takes the arrival that a choice finds among the near ones that are left.
pub fn greedy((marks, arrivals, within): &Lists, choice: fn(u64, &[u64]) -> Option<u64>) -> usize {
    let mut left = arrivals.clone();
    let takes = |mark: &&u64| {
        let near: Vec<u64> = left
            .iter()
            .copied()
            .filter(|arrival| mark.abs_diff(*arrival) <= *within)
            .collect();
        let taken =
            choice(**mark, &near).and_then(|time| left.iter().position(|arrival| *arrival == time));
        taken.map(|at| left.remove(at)).is_some()
    };
    marks.iter().filter(takes).count()
}

/// The nearest of some arrivals.
pub fn nearest(mark: u64, near: &[u64]) -> Option<u64> {
    near.iter()
        .copied()
        .min_by_key(|arrival| mark.abs_diff(*arrival))
}

/// The latest of some arrivals.
pub fn latest(_: u64, near: &[u64]) -> Option<u64> {
    near.iter().copied().max()
}

/// Pairs of the first mark and the first arrival, the second ones, and so on.
pub fn in_place((marks, arrivals, within): &Lists) -> usize {
    let both = marks.iter().zip(arrivals);
    both.filter(|(mark, arrival)| mark.abs_diff(**arrival) <= *within)
        .count()
}

/// Marks that an arrival is near to, whoever else it is near to.
pub fn shared((marks, arrivals, within): &Lists) -> usize {
    let has = |mark: &&u64| {
        arrivals
            .iter()
            .any(|arrival| mark.abs_diff(*arrival) <= *within)
    };
    marks.iter().filter(has).count()
}

/// A reader that overlooks something: its name, and what an input is to it.
type Reader = (&'static str, fn(&str) -> String);

/// Readers that accept what P28 refuses.
pub const READERS: &[Reader] = &[
    ("1 by a leading zero", without_zeros),
    ("1 by a plus", |text| text.replace('+', "")),
    ("1 by a minus", |text| text.replace('-', "")),
    ("1 by two spaces", |text| text.replace("  ", " ")),
    ("1 by a space at the end", |text| text.replace(" \n", "\n")),
    ("1 by a space in front", |text| text.replace("\n ", "\n")),
    ("1 by a space in front of all", |text| {
        text.trim_start_matches(' ').to_string()
    }),
    ("1 by a space behind the key", |text| {
        text.replace("= ", "=")
    }),
    ("1 by a tab", |text| text.replace('\t', " ")),
    ("1 by a comma", |text| text.replace(',', " ")),
    ("1 by a CR", |text| text.replace('\r', "")),
    ("1 by letters and others", digits_alone),
    ("1 by no LF at the end", |text| {
        if text.ends_with('\n') {
            String::new()
        } else {
            text.to_string() + "\n"
        }
    }),
    ("1 by a line missing at the end", |text| {
        if text.ends_with('\n') {
            text.to_string() + "\n"
        } else {
            String::new()
        }
    }),
    ("1 by more than three lines", |text| {
        text.split_inclusive('\n').take(3).collect()
    }),
    ("1 by a blank line in front", |text| {
        text.trim_start_matches('\n').to_string()
    }),
    ("1 by a blank line between", |text| {
        text.replace("\n\n", "\n")
    }),
    ("1 by another key", |text| {
        text.split_once('=')
            .map_or(String::new(), |(_, rest)| format!("within={rest}"))
    }),
    ("1 by no key", |text| format!("within={text}")),
    ("1 by a key further down", |text| {
        let keys = ["\nmarks=", "\narrivals=", "\nwithin=", "\n="];
        keys.iter()
            .fold(text.to_string(), |text, key| text.replace(key, "\n"))
    }),
    ("1 by no tolerance", |text| {
        text.replace("within=\n", "within=0\n")
    }),
];

fn without_zeros(text: &str) -> String {
    let mut kept = String::new();
    let mut letters = text.chars().peekable();
    while let Some(letter) = letters.next() {
        let is_first = !kept.ends_with(|last: char| last.is_ascii_digit());
        let is_last = !letters.peek().is_some_and(char::is_ascii_digit);
        if letter != '0' || !is_first || is_last {
            kept.push(letter);
        }
    }
    kept
}

/// What is behind the key, with nothing but digits, spaces and LF.
fn digits_alone(text: &str) -> String {
    let is_kept = |letter: &char| letter.is_ascii_digit() || matches!(letter, ' ' | '\n');
    let (key, rest) = text.split_once('=').unwrap_or((text, ""));
    format!("{key}={}", rest.chars().filter(is_kept).collect::<String>())
}
