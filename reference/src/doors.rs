//! Marks against the door counter (V), and the program `doors` (P27 to P29). The most pairs are those of a largest
//! matching of a graph in which everybody near is joined; that the lists rise is only checked.

use crate::matching::{self, Graph};
use crate::refusal::{Refusal, FORM, OUT_OF_RANGE, UNFIT_TIMES};
use crate::script::MAX_INPUT;

/// The most entries of a list (V1).
pub const MAX_TIMES: usize = 1_024;

/// The latest time (V1).
pub const MAX_TIME: u64 = 4_294_967_295;

/// The largest tolerance (V1).
pub const MAX_TOLERANCE: u64 = 60_000;

/// The result (V6): pairs, unpaired marks, unpaired arrivals.
#[derive(Clone, Copy, PartialEq, Eq, Debug)]
pub struct Counts {
    pub pairs: usize,
    pub marks: usize,
    pub arrivals: usize,
}

/// Why lists and a tolerance are refused (V3).
#[derive(Clone, Copy, PartialEq, Eq, PartialOrd, Ord, Debug)]
pub enum Reason {
    MarksTooMany,
    ArrivalsTooMany,
    MarkTooLate,
    ArrivalTooLate,
    MarksFall,
    ArrivalsFall,
    ToleranceTooLarge,
}

/// Every reason.
pub const REASONS: [Reason; 7] = [
    Reason::MarksTooMany,
    Reason::ArrivalsTooMany,
    Reason::MarkTooLate,
    Reason::ArrivalTooLate,
    Reason::MarksFall,
    Reason::ArrivalsFall,
    Reason::ToleranceTooLarge,
];

/// Marks held against arrivals (V6), or 22 (V3).
pub fn held(marks: &[u64], arrivals: &[u64], within: u64) -> Result<Counts, Refusal> {
    if !reasons(marks, arrivals, within).is_empty() {
        return Err(UNFIT_TIMES);
    }
    let pairs = most_pairs(marks, arrivals, |mark, arrival| {
        mark.abs_diff(arrival) <= within
    });
    Ok(Counts {
        pairs,
        marks: marks.len() - pairs,
        arrivals: arrivals.len() - pairs,
    })
}

/// Every reason for 22 that is there (V3).
pub fn reasons(marks: &[u64], arrivals: &[u64], within: u64) -> Vec<Reason> {
    let there = |reason: &Reason| match reason {
        Reason::MarksTooMany => marks.len() > MAX_TIMES,
        Reason::ArrivalsTooMany => arrivals.len() > MAX_TIMES,
        Reason::MarkTooLate => is_too_late(marks),
        Reason::ArrivalTooLate => is_too_late(arrivals),
        Reason::MarksFall => falls(marks),
        Reason::ArrivalsFall => falls(arrivals),
        Reason::ToleranceTooLarge => within > MAX_TOLERANCE,
    };
    REASONS.into_iter().filter(there).collect()
}

fn is_too_late(times: &[u64]) -> bool {
    times.iter().any(|time| *time > MAX_TIME)
}

fn falls(times: &[u64]) -> bool {
    times.windows(2).any(|two| two[1] < two[0])
}

/// The most pairs, each of a mark and an arrival that are near, with nobody in two of them (V5, V6).
pub fn most_pairs(marks: &[u64], arrivals: &[u64], near: impl Fn(u64, u64) -> bool) -> usize {
    let near_to = |mark: &u64| {
        (0..arrivals.len())
            .filter(|at| near(*mark, arrivals[*at]))
            .collect()
    };
    matching::largest(&Graph {
        edges: marks.iter().map(near_to).collect(),
        right: arrivals.len(),
    })
}

/// An input of the program, as it is read.
#[derive(Clone, PartialEq, Eq, Debug)]
pub struct Input {
    pub marks: Vec<u64>,
    pub arrivals: Vec<u64>,
    pub within: u64,
}

/// What the program prints for an input (P29).
pub fn run(input: &[u8]) -> Vec<u8> {
    let result = read(input).and_then(|input| held(&input.marks, &input.arrivals, input.within));
    let line = match result {
        Ok(counts) => format!(
            "got={} {} {}\n",
            counts.pairs, counts.marks, counts.arrivals
        ),
        Err(number) => format!("no={number}\n"),
    };
    line.into_bytes()
}

/// Reads an input: 2 where it is too long, whatever it holds (P1), 1 where it is not of the form (P28).
pub fn read(input: &[u8]) -> Result<Input, Refusal> {
    if input.len() > MAX_INPUT {
        return Err(OUT_OF_RANGE);
    }
    parse(input).ok_or(FORM)
}

/// The form of P27: three lines and nothing behind the LF of the last.
pub fn parse(input: &[u8]) -> Option<Input> {
    let lines: Vec<&[u8]> = input
        .strip_suffix(b"\n")?
        .split(|byte| *byte == b'\n')
        .collect();
    let [within, marks, arrivals] = lines.as_slice() else {
        return None;
    };
    Some(Input {
        within: decimal(within.strip_prefix(b"within=")?)?,
        marks: times(marks)?,
        arrivals: times(arrivals)?,
    })
}

/// A line of times; an empty one has none (P27).
fn times(line: &[u8]) -> Option<Vec<u64>> {
    if line.is_empty() {
        return Some(Vec::new());
    }
    line.split(|byte| *byte == b' ').map(decimal).collect()
}

/// A decimal (S3, S21). One too large for a word stays at the largest, which is above every limit (S2).
fn decimal(text: &[u8]) -> Option<u64> {
    let (first, rest) = text.split_first()?;
    let leading_zero = *first == b'0' && !rest.is_empty();
    if leading_zero || !text.iter().all(u8::is_ascii_digit) {
        return None;
    }
    let next = |value: u64, digit: &u8| {
        value
            .saturating_mul(10)
            .saturating_add(u64::from(digit - b'0'))
    };
    Some(text.iter().fold(0, next))
}
