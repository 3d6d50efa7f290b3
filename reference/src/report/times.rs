//! Situations of lists of times that are worth meeting (V).

use super::slips::{greedy, in_place, latest, nearest, shared};
use crate::doors::{most_pairs, Counts, MAX_TIME, MAX_TIMES, MAX_TOLERANCE};
use crate::generators::Lists;

/// A situation of lists that are accepted, told from them and their counts.
pub type Held = (&'static str, fn(&Lists, Counts) -> bool);

pub const HELD: &[Held] = &[
    ("nobody", |(marks, arrivals, _), _| {
        marks.is_empty() && arrivals.is_empty()
    }),
    ("marks alone", |(marks, arrivals, _), _| {
        !marks.is_empty() && arrivals.is_empty()
    }),
    ("arrivals alone", |(marks, arrivals, _), _| {
        marks.is_empty() && !arrivals.is_empty()
    }),
    ("pairs alone", |_, counts| {
        unpaired(counts, (false, false)) && counts.pairs > 0
    }),
    ("pairs and unpaired marks", |_, counts| {
        unpaired(counts, (true, false)) && counts.pairs > 0
    }),
    ("pairs and unpaired arrivals", |_, counts| {
        unpaired(counts, (false, true)) && counts.pairs > 0
    }),
    ("pairs and unpaired of both", |_, counts| {
        unpaired(counts, (true, true)) && counts.pairs > 0
    }),
    ("nobody near", |_, counts| {
        unpaired(counts, (true, true)) && counts.pairs == 0
    }),
    ("equal marks", |(marks, _, _), _| has_equal(marks)),
    ("equal arrivals", |(_, arrivals, _), _| has_equal(arrivals)),
    ("a mark and an arrival equal", |lists, _| {
        pairs(lists, |mark, arrival, _| mark == arrival) > 0
    }),
    ("marks at both ends", |(marks, _, _), _| {
        has_both_ends(marks)
    }),
    ("arrivals at both ends", |(_, arrivals, _), _| {
        has_both_ends(arrivals)
    }),
    ("1,024 marks", |(marks, arrivals, _), _| {
        marks.len() == MAX_TIMES && arrivals.len() < MAX_TIMES
    }),
    ("1,024 arrivals", |(marks, arrivals, _), _| {
        marks.len() < MAX_TIMES && arrivals.len() == MAX_TIMES
    }),
    ("1,024 of both", |(marks, arrivals, _), _| {
        marks.len() == MAX_TIMES && arrivals.len() == MAX_TIMES
    }),
    ("1,024 pairs", |_, counts| counts.pairs == MAX_TIMES),
    ("tolerance 0", |(_, _, within), counts| {
        *within == 0 && counts.pairs > 0
    }),
    ("tolerance 60,000", |(_, _, within), counts| {
        *within == MAX_TOLERANCE && counts.pairs > 0
    }),
    ("a tolerance apart", |lists, _| {
        lists.2 > 0
            && pairs(lists, |mark, arrival, within| {
                mark.abs_diff(arrival) == within
            }) > 0
    }),
    ("fewer by less than the tolerance", |lists, counts| {
        pairs(lists, |mark, arrival, within| {
            mark.abs_diff(arrival) < within
        }) < counts.pairs
    }),
    ("more by one more than the tolerance", |lists, counts| {
        pairs(lists, |mark, arrival, within| {
            mark.abs_diff(arrival) <= within + 1
        }) > counts.pairs
    }),
    (
        "fewer without arrivals before their mark",
        |lists, counts| pairs(lists, is_behind) < counts.pairs,
    ),
    (
        "fewer without arrivals behind their mark",
        |lists, counts| {
            pairs(lists, |mark, arrival, within| {
                is_behind(arrival, mark, within)
            }) < counts.pairs
        },
    ),
    ("more by differences of 32 bits", |lists, counts| {
        pairs(lists, is_near_in_32_bits) > counts.pairs
    }),
    ("fewer by the nearest that is left", |lists, counts| {
        greedy(lists, nearest) < counts.pairs
    }),
    ("fewer by the latest that is left", |lists, counts| {
        greedy(lists, latest) < counts.pairs
    }),
    ("fewer by the same place in both lists", |lists, counts| {
        in_place(lists) < counts.pairs
    }),
    ("more by arrivals that are taken twice", |lists, counts| {
        shared(lists) > counts.pairs
    }),
];

/// A situation of lists that have one reason to be refused (V3).
pub type Unfit = (&'static str, fn(&Lists) -> bool);

pub const UNFIT: &[Unfit] = &[
    ("22: 1,025 marks", |(marks, _, _)| {
        marks.len() == MAX_TIMES + 1
    }),
    ("22: 1,025 arrivals", |(_, arrivals, _)| {
        arrivals.len() == MAX_TIMES + 1
    }),
    ("22: a mark at 4294967296", |(marks, _, _)| {
        marks.contains(&(MAX_TIME + 1))
    }),
    ("22: an arrival at 4294967296", |(_, arrivals, _)| {
        arrivals.contains(&(MAX_TIME + 1))
    }),
    ("22: the largest number for a mark", |(marks, _, _)| {
        marks.contains(&u64::MAX)
    }),
    (
        "22: the largest number for an arrival",
        |(_, arrivals, _)| arrivals.contains(&u64::MAX),
    ),
    ("22: tolerance 60,001", |(_, _, within)| {
        *within == MAX_TOLERANCE + 1
    }),
    (
        "22: the largest number for the tolerance",
        |(_, _, within)| *within == u64::MAX,
    ),
    ("22: low bits that are fit", |(_, _, within)| {
        *within > MAX_TOLERANCE && *within % (1 << 16) <= MAX_TOLERANCE
    }),
    ("22: the second mark falls", |(marks, _, _)| {
        falls_at(marks).next() == Some(1)
    }),
    ("22: the second arrival falls", |(_, arrivals, _)| {
        falls_at(arrivals).next() == Some(1)
    }),
    ("22: the last mark falls", |(marks, _, _)| {
        falls_at(marks).any(|at| at + 1 == marks.len())
    }),
    ("22: the last arrival falls", |(_, arrivals, _)| {
        falls_at(arrivals).any(|at| at + 1 == arrivals.len())
    }),
    ("22: a mark falls by 1", |(marks, _, _)| {
        falls_at(marks).any(|at| marks[at] + 1 == marks[at - 1])
    }),
    ("22: an arrival falls by 1", |(_, arrivals, _)| {
        falls_at(arrivals).any(|at| arrivals[at] + 1 == arrivals[at - 1])
    }),
];

/// Where times are below the ones before them.
fn falls_at(times: &[u64]) -> impl Iterator<Item = usize> + '_ {
    (1..times.len()).filter(|at| times[*at] < times[*at - 1])
}

/// The most pairs by another word for near, given a mark, an arrival and the tolerance.
fn pairs((marks, arrivals, within): &Lists, near: impl Fn(u64, u64, u64) -> bool) -> usize {
    most_pairs(marks, arrivals, |mark, arrival| {
        near(mark, arrival, *within)
    })
}

/// Whether there are unpaired marks, and arrivals.
fn unpaired(counts: Counts, there: (bool, bool)) -> bool {
    (counts.marks > 0, counts.arrivals > 0) == there
}

fn has_equal(times: &[u64]) -> bool {
    times.windows(2).any(|two| two[0] == two[1])
}

fn has_both_ends(times: &[u64]) -> bool {
    times.first() == Some(&0) && times.last() == Some(&MAX_TIME)
}

/// Whether the second time is near the first and not before it.
fn is_behind(first: u64, second: u64, within: u64) -> bool {
    second >= first && second - first <= within
}

fn is_near_in_32_bits(mark: u64, arrival: u64, within: u64) -> bool {
    let apart = (mark as u32).wrapping_sub(arrival as u32);
    u64::from(apart.min(apart.wrapping_neg())) <= within
}
