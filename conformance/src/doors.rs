//! Marks against arrivals (V): the proved function and program beside the reference, and lists to hold against each other.

use crate::process::{built, limited, printed_each, printed_or_said, run};
use pilgonca::raw;
use reference::doors;
use reference::external::difference;
use reference::generators;
use std::path::Path;

/// The most entries of a list, the last time and the largest tolerance (V1).
pub const MOST: usize = 1024;
pub const LAST: u64 = 4_294_967_295;
pub const WIDEST: u64 = 60_000;

/// The refusal of a list that is too long, falls or leaves its range, and of a tolerance too large (V3).
const UNFIT: usize = 22;

/// What stands in the counts before.
pub const UNSET: [usize; 3] = [0x5a5a, 0xa5a5, 0x3c3c];

/// What is handed in.
#[derive(Clone, PartialEq, Eq, Debug)]
pub struct Lists {
    pub marks: Vec<u64>,
    pub arrivals: Vec<u64>,
    pub within: u64,
}

impl Lists {
    pub fn new(marks: &[u64], arrivals: &[u64], within: u64) -> Lists {
        Lists {
            marks: marks.to_vec(),
            arrivals: arrivals.to_vec(),
            within,
        }
    }

    pub fn generated(seed: u64) -> Lists {
        let (marks, arrivals, within) = generators::doors_lists(seed);
        Lists {
            marks,
            arrivals,
            within,
        }
    }

    /// The arrivals as marks, and the marks as arrivals.
    pub fn exchanged(&self) -> Lists {
        Lists::new(&self.arrivals, &self.marks, self.within)
    }

    /// The input of the program that has them (P27).
    pub fn text(&self) -> Vec<u8> {
        let [marks, arrivals] = [&self.marks, &self.arrivals].map(|list| {
            let words: Vec<String> = list.iter().map(u64::to_string).collect();
            words.join(" ")
        });
        format!("within={}\n{marks}\n{arrivals}\n", self.within).into_bytes()
    }
}

/// A mark every 2 s, and each arrival 1.5 s behind its mark.
pub fn typical(count: usize) -> Lists {
    let marks: Vec<u64> = (0..count as u64).map(|number| 2000 * number).collect();
    let arrivals: Vec<u64> = marks.iter().map(|mark| mark + 1500).collect();
    Lists::new(&marks, &arrivals, 2000)
}

/// All times equal.
pub fn equal(count: usize) -> Lists {
    Lists::new(&vec![7000; count], &vec![7000; count], 2000)
}

/// Of the lists that V3 accepts, those of the longest input: every time has ten digits (P29).
pub fn longest() -> Lists {
    let times: Vec<u64> = (0..MOST as u64)
        .map(|number| LAST - 70_000 * number)
        .collect();
    let rising: Vec<u64> = times.into_iter().rev().collect();
    Lists::new(&rising, &rising, WIDEST)
}

/// What a function returns, and what stands in the counts then.
pub type Answer = (usize, [usize; 3]);

pub fn proved(lists: &Lists) -> Answer {
    let mut counts = UNSET;
    let code = raw::doors(&lists.marks, &lists.arrivals, lists.within, &mut counts);
    (code, counts)
}

/// The reference's; where it refuses nothing is stored (E12).
pub fn ours(lists: &Lists) -> Answer {
    match doors::held(&lists.marks, &lists.arrivals, lists.within) {
        Ok(counts) => (0, [counts.pairs, counts.marks, counts.arrivals]),
        Err(number) => (number as usize, UNSET),
    }
}

/// Puts lists to a function and to the reference, whose answer is returned; a difference is shown on the shortest lists found.
pub fn same(function: &dyn Fn(&Lists) -> Answer, lists: &Lists, from: &str) -> Answer {
    let answer = ours(lists);
    if function(lists) != answer {
        let small = shortened(lists, &|lists| function(lists) != ours(lists));
        let (theirs, ours) = (function(&small), ours(&small));
        panic!("{from}: gives {theirs:?} for {ours:?} on {small:?}");
    }
    answer
}

/// Lists that are still wrong with as much as possible left out: pieces of any length at first, then shorter ones.
fn shortened(lists: &Lists, wrong: &dyn Fn(&Lists) -> bool) -> Lists {
    type Side = fn(&mut Lists) -> &mut Vec<u64>;
    let sides: [Side; 2] = [|lists| &mut lists.marks, |lists| &mut lists.arrivals];
    let mut small = lists.clone();
    let mut piece = lists.marks.len().max(lists.arrivals.len());
    while piece > 0 {
        for side in sides {
            let mut at = 0;
            while at < side(&mut small).len() {
                let mut next = small.clone();
                let list = side(&mut next);
                list.drain(at..list.len().min(at + piece));
                if wrong(&next) {
                    small = next;
                } else {
                    at += piece;
                }
            }
        }
        piece /= 2;
    }
    small
}

/// Lists at both sides of every limit (V1 to V3), and what the function returns for each.
pub fn limits() -> Vec<(Lists, usize)> {
    let [lengths, times, tolerances, steps] = [lengths(), times(), tolerances(), steps()];
    let all = [lengths, times, tolerances, steps].concat();
    // what holds of marks holds of arrivals
    let exchanged = all.iter().map(|(lists, code)| (lists.exchanged(), *code));
    let exchanged: Vec<(Lists, usize)> = exchanged.collect();
    [all, exchanged].concat()
}

/// Lists of 1,024 and more: the other one empty, short, full, or as long.
fn lengths() -> Vec<(Lists, usize)> {
    let mut found = Vec::new();
    for (count, code) in [
        (MOST - 1, 0),
        (MOST, 0),
        (MOST + 1, UNFIT),
        (MOST + 2, UNFIT),
        (2 * MOST, UNFIT),
        (4 * MOST, UNFIT),
    ] {
        for lists in [typical(count), equal(count)] {
            for other in [0, 1, MOST, count] {
                let arrivals = &typical(other).arrivals;
                found.push((Lists::new(&lists.marks, arrivals, lists.within), code));
            }
        }
    }
    found
}

/// Times up to the last, and above it: such that look like small ones in 32 bits, and in 64 with a tolerance added.
fn times() -> Vec<(Lists, usize)> {
    let mut found = Vec::new();
    let above = [
        1,
        2,
        8,
        1 << 32,
        1 << 62,
        u64::MAX - LAST - 1,
        u64::MAX - LAST,
    ];
    let last = [(LAST - 1, 0), (LAST, 0)];
    let above = above.map(|beyond| (LAST + beyond, UNFIT));
    for (time, code) in last.into_iter().chain(above) {
        let full: Vec<u64> = (0..MOST as u64 - 1).chain([time]).collect();
        let half: Vec<u64> = (0..MOST as u64 / 2).chain(vec![time; MOST / 2]).collect();
        for marks in [&[time][..], &[time, time], &[0, 3, time], &half, &full] {
            for arrivals in [&[][..], &[0, 5, 7], &[5, LAST]] {
                found.push((Lists::new(marks, arrivals, WIDEST), code));
            }
        }
    }
    // above in the middle, and behind it a time that falls back
    found.push((Lists::new(&[0, LAST + 1, 7], &[7], 0), UNFIT));
    found
}

/// Tolerances up to 60,000, and above: such that look like small ones in 16 and in 32 bits.
fn tolerances() -> Vec<(Lists, usize)> {
    let right = [0, 1, WIDEST - 1, WIDEST].map(|within| (within, 0));
    let wrong = [WIDEST + 1, 1 << 16, 1 << 32, (1 << 32) + 5, u64::MAX];
    let wrong = wrong.map(|within| (within, UNFIT));
    let mut found = Vec::new();
    for (within, code) in right.into_iter().chain(wrong) {
        for (mark, arrival) in [(0, 60_000), (5, 5), (LAST, LAST - 60_000), (0, LAST)] {
            found.push((Lists::new(&[mark], &[arrival], within), code));
        }
        found.push((Lists::new(&[], &[], within), code));
    }
    found
}

/// Neighbours that are equal and that fall, at the first, a middle and the last place.
fn steps() -> Vec<(Lists, usize)> {
    let mut found = Vec::new();
    for count in [2, 3, 8, MOST] {
        let lists = typical(count).exchanged();
        for at in [1, count / 2, count - 1] {
            let before = lists.marks[at - 1];
            for (time, code) in [
                (before, 0),
                (before + 1, 0),
                (before - 1, UNFIT),
                (0, UNFIT),
            ] {
                let mut other = lists.clone();
                other.marks[at] = time;
                found.push((other, code));
            }
        }
    }
    let pairs = [([0, 0], 0), ([1, 0], UNFIT)];
    let last = [([LAST, LAST], 0), ([LAST, 0], UNFIT)];
    for (marks, code) in pairs.into_iter().chain(last) {
        found.push((Lists::new(&marks, &[], 0), code));
    }
    found
}

/// Inputs made by hand, and what is printed for each (P27 to P29).
pub const INPUTS: &[(&str, &str)] = &[
    ("within=0\n\n\n", "got=0 0 0\n"),
    ("within=60000\n\n\n", "got=0 0 0\n"),
    ("within=60001\n\n\n", "no=22\n"),
    ("within=0\n0\n0\n", "got=1 0 0\n"),
    ("within=0\n\n0\n", "got=0 0 1\n"),
    ("within=0\n0\n\n", "got=0 1 0\n"),
    ("within=0\n0 0\n0\n", "got=1 1 0\n"),
    ("within=1\n4294967294\n4294967295\n", "got=1 0 0\n"),
    ("within=0\n4294967295\n4294967296\n", "no=22\n"),
    ("within=0\n4294967296\n\n", "no=22\n"),
    ("within=0\n1 0\n\n", "no=22\n"),
    ("within=0\n\n1 1 2 1\n", "no=22\n"),
    // 2 to the 63rd and to the 64th, and near them
    ("within=9223372036854775807\n\n\n", "no=22\n"),
    ("within=9223372036854775808\n\n\n", "no=22\n"),
    ("within=9223372036854775809\n\n\n", "no=22\n"),
    ("within=9223372036854775810\n\n\n", "no=22\n"),
    ("within=0\n9223372036854775808\n\n", "no=22\n"),
    ("within=0\n\n9223372036854775809\n", "no=22\n"),
    ("within=0\n9223372036854775810\n\n", "no=22\n"),
    ("within=18446744073709551616\n\n\n", "no=22\n"),
    ("within=0\n18446744073709551616\n\n", "no=22\n"),
    ("within=0\n0\n18446744073709551617\n", "no=22\n"),
    ("within=0\n18446744073709551615\n\n", "no=22\n"),
    ("within=0\n0 36893488147419103232\n\n", "no=22\n"),
    // not three lines
    ("", "no=1\n"),
    ("\n", "no=1\n"),
    ("\n\n\n", "no=1\n"),
    ("within=0", "no=1\n"),
    ("within=0\n", "no=1\n"),
    ("within=0\n\n", "no=1\n"),
    ("within=0\n\n0", "no=1\n"),
    ("within=0\n\n\n\n", "no=1\n"),
    ("within=0\n\n\n ", "no=1\n"),
    ("within=1\n1\n2\n3\n", "no=1\n"),
    ("within=1\n1\n2\n\0", "no=1\n"),
    // no tolerance
    ("within=\n\n\n", "no=1\n"),
    ("within=00\n\n\n", "no=1\n"),
    ("within=+1\n\n\n", "no=1\n"),
    ("within=-1\n\n\n", "no=1\n"),
    ("within= 1\n\n\n", "no=1\n"),
    ("within=1 \n\n\n", "no=1\n"),
    ("within=1 2\n\n\n", "no=1\n"),
    ("Within=1\n\n\n", "no=1\n"),
    (" within=1\n\n\n", "no=1\n"),
    ("1\n\n\n", "no=1\n"),
    // no list
    ("within=1\r\n\r\n\r\n", "no=1\n"),
    ("within=1\n1\r\n2\r\n", "no=1\n"),
    ("within=1\n 1\n\n", "no=1\n"),
    ("within=1\n1 \n\n", "no=1\n"),
    ("within=1\n1  2\n\n", "no=1\n"),
    ("within=1\n01\n\n", "no=1\n"),
    ("within=1\n\n00\n", "no=1\n"),
    ("within=1\n1,2\n\n", "no=1\n"),
    ("within=1\n1\t2\n\n", "no=1\n"),
    ("within=1\n-0\n\n", "no=1\n"),
    ("within=1\n0x1\n\n", "no=1\n"),
    ("within=1\n1\n \n", "no=1\n"),
    // a limit that is not kept, and the form wrong behind it
    ("within=60001\n\n", "no=1\n"),
    ("within=99999999999999999999999\n1 \n\n", "no=1\n"),
    ("within=1\n4294967296\n2 \n", "no=1\n"),
    ("within=1\n2 1\n01\n", "no=1\n"),
    ("within=1\n2 1\n1", "no=1\n"),
];

/// What the program prints in a stack of 256 KB.
pub fn printed(input: &[u8]) -> Vec<u8> {
    printed_or_said(run(limited(&built("doors")), input))
}

/// Puts inputs to the program and to the reference, whose outputs are returned; a difference is shown on the smallest input found.
pub fn all_same(starter: &Path, inputs: &[Vec<u8>]) -> Vec<Vec<u8>> {
    let theirs = printed_each(starter, &built("doors"), inputs);
    let ours: Vec<Vec<u8>> = inputs.iter().map(|input| doors::run(input)).collect();
    for ((input, theirs), ours) in inputs.iter().zip(&theirs).zip(&ours) {
        if theirs != ours {
            let text = String::from_utf8_lossy(theirs);
            panic!("{text}{:?}", difference(input, &printed, &doors::run));
        }
    }
    ours
}
