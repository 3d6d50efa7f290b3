//! Marks against arrivals (V) in safe Rust, as the proved function does it: both lists are checked, and then gone through once (V8).

use crate::measure::{head, row};
use conformance::doors::{equal, proved, typical, Lists, LAST, MOST, WIDEST};
use reference::refusal::{Refusal, UNFIT_TIMES};
use std::hint::black_box;

/// The counts of V6, or 22. Called, as the proved function is: inlined, it takes more or less time by where it stands.
#[inline(never)]
fn held(marks: &[u64], arrivals: &[u64], within: u64) -> Result<[usize; 3], Refusal> {
    if within > WIDEST || !fits(marks) || !fits(arrivals) {
        return Err(UNFIT_TIMES);
    }
    let [mut mark, mut arrival, mut pairs] = [0; 3];
    while mark < marks.len() && arrival < arrivals.len() {
        if marks[mark] + within < arrivals[arrival] {
            mark += 1;
        } else if arrivals[arrival] + within < marks[mark] {
            arrival += 1;
        } else {
            pairs += 1;
            mark += 1;
            arrival += 1;
        }
    }
    Ok([pairs, marks.len() - pairs, arrivals.len() - pairs])
}

/// Whether a list keeps V1 and V2, each time by itself.
fn fits(times: &[u64]) -> bool {
    let mut low = 0;
    times.len() <= MOST
        && times.iter().all(|time| {
            let fits = low <= *time && *time <= LAST;
            low = *time;
            fits
        })
}

/// How often a call is made for one look at the clock, which takes about as long as the shortest call.
const CALLS: u32 = 20;

/// Measures lists, which have to be accepted by both sides with the same counts.
fn measure(name: &str, lists: &Lists) {
    let Lists {
        marks,
        arrivals,
        within,
    } = lists;
    let ours = held(marks, arrivals, *within).expect("lists that are right");
    assert_eq!(proved(lists), (0, ours), "{name}");
    row(
        &format!("doors, {} entries a list, {name}", marks.len()),
        CALLS,
        || {
            for _ in 0..CALLS {
                black_box(proved(black_box(lists)));
            }
        },
        || {
            for _ in 0..CALLS {
                let _ = black_box(held(black_box(marks), black_box(arrivals), *within));
            }
        },
    );
}

/// Lists of every length, typical ones and such with all times equal.
pub fn all() {
    head("marks and arrivals");
    for count in [128, 256, 512, MOST] {
        measure("a mark each 2 s, arrivals 1.5 s behind", &typical(count));
        measure("all times equal", &equal(count));
    }
}

#[cfg(test)]
mod tests {
    use super::*;
    use conformance::doors::{limits, ours, UNSET};

    /// What is measured against does the same work.
    #[test]
    fn is_the_reference() {
        let generated = (0..3000).map(Lists::generated);
        let limits = limits().into_iter().map(|(lists, _)| lists);
        let mut met = [0; 2];
        for lists in generated.chain(limits) {
            let found = match held(&lists.marks, &lists.arrivals, lists.within) {
                Ok(counts) => (0, counts),
                Err(refusal) => (refusal as usize, UNSET),
            };
            assert_eq!(found, ours(&lists), "{lists:?}");
            met[usize::from(found.0 != 0)] += 1;
        }
        assert!(met.iter().all(|count| *count > 500), "{met:?}");
    }
}
