//! Marks and arrivals by another way than the core's pass: the most pairs by the reference's matching, in whatever order the entries are, and by it whether an
//! entry can be in a pair.

use reference::doors;
use reference::random::Random;

#[derive(Clone, Debug)]
pub struct Lists {
    pub marks: Vec<u64>,
    pub arrivals: Vec<u64>,
    pub within: u64,
}

/// Whether two entries may be a pair (V4).
fn near(one: u64, other: u64, within: u64) -> bool {
    one.abs_diff(other) <= within
}

/// How many pairs a pairing has at most (V6).
pub fn most_pairs(lists: &Lists) -> usize {
    doors::most_pairs(&lists.marks, &lists.arrivals, |mark, arrival| {
        near(mark, arrival, lists.within)
    })
}

/// Whether some pairing of the most pairs has this entry: with one that is near it taken away, the rest has one pair less.
pub fn can_be_paired(mark: usize, lists: &Lists) -> bool {
    let most = most_pairs(lists);
    let arrivals = 0..lists.arrivals.len();
    let mut near =
        arrivals.filter(|one| near(lists.marks[mark], lists.arrivals[*one], lists.within));
    near.any(|arrival| {
        let mut rest = lists.clone();
        rest.marks.remove(mark);
        rest.arrivals.remove(arrival);
        most_pairs(&rest) + 1 == most
    })
}

/// So many times up to a last one, in order.
fn times(random: &mut Random, count: usize, last: usize) -> Vec<u64> {
    let mut times: Vec<u64> = (0..count).map(|_| random.below(last + 1) as u64).collect();
    times.sort_unstable();
    times
}

impl Lists {
    /// Up to nine entries each, close together, so that most have others near them.
    pub fn small(seed: u64) -> Lists {
        let mut random = Random::new(seed);
        let last = 5 + random.below(30);
        let [marks, arrivals] = [(); 2].map(|()| {
            let count = random.below(10);
            times(&mut random, count, last)
        });
        Lists {
            marks,
            arrivals,
            within: random.below(6) as u64,
        }
    }

    /// Lists of hundreds, up to the last time that there is.
    pub fn long(seed: u64) -> Lists {
        let mut random = Random::new(seed);
        let spread = 5_000_000;
        let [marks, arrivals] = [(); 2].map(|()| {
            let times = times(&mut random, 400, spread).into_iter();
            times
                .map(|time| time + u64::from(u32::MAX) - spread as u64)
                .collect()
        });
        Lists {
            marks,
            arrivals,
            within: *random.pick(&[5_000, 20_000, 60_000]),
        }
    }

    /// With the sides exchanged.
    pub fn turned(&self) -> Lists {
        Lists {
            marks: self.arrivals.clone(),
            arrivals: self.marks.clone(),
            within: self.within,
        }
    }
}
