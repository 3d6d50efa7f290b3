//! Lists of times and a tolerance, handed in as numbers (V1): right ones of many kinds, and ones that V3 refuses.

use crate::doors::{Reason, MAX_TIME, MAX_TIMES, MAX_TOLERANCE, REASONS};
use crate::random::Random;

/// Marks, arrivals and a tolerance.
pub type Lists = (Vec<u64>, Vec<u64>, u64);

/// The kinds of right lists.
const RIGHT: [fn(&mut Random) -> Lists; 19] = [
    nobody,
    one_side,
    tiny,
    short,
    medium,
    any_length,
    full,
    longest,
    few_times,
    one_time,
    at_both_ends,
    at_opposite_ends,
    without_tolerance,
    with_most_tolerance,
    chained,
    clustered,
    at_the_edge,
    as_logged,
    far_apart,
];

/// How many kinds there are: right ones, one for each reason of V3, and one of several reasons.
const KINDS: usize = RIGHT.len() + REASONS.len() + 1;

/// Lists, each kind in its turn.
pub fn doors_lists(seed: u64) -> Lists {
    let mut random = Random::new(seed ^ 0x00d0_0125_0000_0000);
    let kind = (seed % KINDS as u64) as usize;
    match kind.checked_sub(RIGHT.len()) {
        None => RIGHT[kind](&mut random),
        Some(at) => unfit(&mut random, REASONS.get(at).copied()),
    }
}

/// Right lists of any kind.
pub fn right(random: &mut Random) -> Lists {
    let make = random.pick(&RIGHT);
    make(random)
}

/// Right lists that are short.
pub fn right_and_short(random: &mut Random) -> Lists {
    match random.chance(50) {
        true => tiny(random),
        false => short(random),
    }
}

/// Lists that are right but for one reason, or for a few of them.
pub fn unfit(random: &mut Random, reason: Option<Reason>) -> Lists {
    let mut lists = right(random);
    let few = random.within((2, 4));
    match reason {
        Some(reason) => spoil(random, &mut lists, reason),
        None => (0..few).for_each(|_| {
            let reason = *random.pick(&REASONS);
            spoil(random, &mut lists, reason);
        }),
    }
    lists
}

/// Gives lists a reason to be refused, and no other (V3).
fn spoil(random: &mut Random, lists: &mut Lists, reason: Reason) {
    let (marks, arrivals, within) = lists;
    match reason {
        Reason::MarksTooMany => too_many(random, marks),
        Reason::ArrivalsTooMany => too_many(random, arrivals),
        Reason::MarkTooLate => too_late(random, marks),
        Reason::ArrivalTooLate => too_late(random, arrivals),
        Reason::MarksFall => fall(random, marks),
        Reason::ArrivalsFall => fall(random, arrivals),
        Reason::ToleranceTooLarge => *within = above(random, MAX_TOLERANCE),
    }
}

/// One entry more than there may be, or some more: the last one again.
fn too_many(random: &mut Random, times: &mut Vec<u64>) {
    let more = random.within((1, 300));
    let count = MAX_TIMES + random.pick(&[1, 1, 2, more, MAX_TIMES]);
    times.resize(count, times.last().copied().unwrap_or(0));
}

/// The last entry, or the last few, above the latest time.
fn too_late(random: &mut Random, times: &mut Vec<u64>) {
    let late = above(random, MAX_TIME);
    times.pop();
    let first = [times.len(), random.below(times.len() + 1)];
    let first = *random.pick(&first);
    times[first..].fill(late);
    times.push(late);
}

/// A number above a limit: one more, the largest, or one whose low 16, 32 or 63 bits are small.
fn above(random: &mut Random, limit: u64) -> u64 {
    let low = random.below(1_000) as u64;
    let numbers = [
        limit + 1,
        limit + 1,
        u64::MAX,
        u64::MAX,
        (1 << 16) + low,
        (1 << 32) + low,
        (1 << 63) + low,
    ];
    let fit: Vec<u64> = numbers.into_iter().filter(|one| *one > limit).collect();
    *random.pick(&fit)
}

/// A time below the one before it, behind the first, in the middle or at the end: lower by 1, 0, or anything between.
fn fall(random: &mut Random, times: &mut Vec<u64>) {
    while times.len() < 3 {
        times.push(MAX_TIME);
    }
    let last = times.len() - 1;
    let at = *random.pick(&[1, times.len() / 2, last]);
    // whatever is before the fall is above 0, and what is there before rises
    for time in &mut times[at - 1..] {
        *time = (*time).max(1);
    }
    let before = times[at - 1];
    let lower = random.number() % before;
    times[at] = *random.pick(&[before - 1, before - 1, 0, lower]);
}

/// A tolerance: its ends, small ones, and any.
fn tolerance(random: &mut Random) -> u64 {
    let small = random.within((1, 10)) as u64;
    let any = random.below(MAX_TOLERANCE as usize + 1) as u64;
    *random.pick(&[0, 1, small, any, any, MAX_TOLERANCE - 1, MAX_TOLERANCE])
}

/// So many times from a first one to a last one, in order.
fn times(random: &mut Random, count: usize, (first, last): (u64, u64)) -> Vec<u64> {
    let mut time = |_| first + random.number() % (last - first + 1);
    let mut times: Vec<u64> = (0..count).map(&mut time).collect();
    times.sort_unstable();
    times
}

/// Where so many times go that stand, on average, a part of the tolerance or a few tolerances apart.
fn range(random: &mut Random, count: usize, within: u64) -> (u64, u64) {
    let percent = *random.pick(&[10, 50, 100, 200, 500]);
    let length = (count as u64 * (within + 1) * percent / 100).clamp(1, MAX_TIME);
    let any = random.number() % (MAX_TIME - length + 1);
    let first = *random.pick(&[0, MAX_TIME - length, any]);
    (first, first + length)
}

/// Two lists of up to so many times in one range.
fn mixed(random: &mut Random, most: usize, within: u64) -> Lists {
    let (marks, arrivals) = (random.below(most + 1), random.below(most + 1));
    let range = range(random, marks.max(arrivals), within);
    (
        times(random, marks, range),
        times(random, arrivals, range),
        within,
    )
}

/// The same lists, or marks and arrivals exchanged.
fn either_way(random: &mut Random, (marks, arrivals, within): Lists) -> Lists {
    match random.chance(50) {
        true => (marks, arrivals, within),
        false => (arrivals, marks, within),
    }
}

fn nobody(random: &mut Random) -> Lists {
    (Vec::new(), Vec::new(), tolerance(random))
}

fn one_side(random: &mut Random) -> Lists {
    let count = *random.pick(&[1, 2, 50, MAX_TIMES]);
    let within = tolerance(random);
    let list = times(random, count, (0, MAX_TIME));
    either_way(random, (list, Vec::new(), within))
}

/// Few entries in so little room that they contend for each other.
fn tiny(random: &mut Random) -> Lists {
    let (marks, arrivals) = (random.within((1, 6)), random.within((1, 6)));
    let range = (0, random.within((2, 12)) as u64);
    let within = random.below(5) as u64;
    (
        times(random, marks, range),
        times(random, arrivals, range),
        within,
    )
}

fn short(random: &mut Random) -> Lists {
    let within = tolerance(random);
    mixed(random, 12, within)
}

fn medium(random: &mut Random) -> Lists {
    let within = tolerance(random);
    mixed(random, 100, within)
}

fn any_length(random: &mut Random) -> Lists {
    let within = tolerance(random);
    mixed(random, MAX_TIMES, within)
}

/// As many as there may be, in both lists or in one.
fn full(random: &mut Random) -> Lists {
    let within = tolerance(random);
    let other = *random.pick(&[MAX_TIMES, MAX_TIMES, MAX_TIMES - 1, 1]);
    let range = range(random, MAX_TIMES, within);
    let lists = (
        times(random, MAX_TIMES, range),
        times(random, other, range),
        within,
    );
    either_way(random, lists)
}

/// Lists whose text is the longest that V3 accepts (P29): every number has all its digits.
fn longest(random: &mut Random) -> Lists {
    let within = random.within((10_000, MAX_TOLERANCE as usize)) as u64;
    let first = *random.pick(&[1_000_000_000, MAX_TIME - 50_000_000]);
    let mut list = || times(random, MAX_TIMES, (first, MAX_TIME));
    (list(), list(), within)
}

/// Many entries at a few times that are near their neighbours or just not.
fn few_times(random: &mut Random) -> Lists {
    let within = tolerance(random);
    let step = within + random.below(2) as u64;
    let first = random.number() % (MAX_TIME - 10 * (step + 1));
    let distinct = random.within((1, 6));
    let mut list = || {
        let count = random.below(200);
        let mut list: Vec<u64> = (0..count)
            .map(|_| first + step * random.below(distinct) as u64)
            .collect();
        list.sort_unstable();
        list
    };
    (list(), list(), within)
}

/// Every mark at one time, and every arrival at one: the same, as far as the tolerance goes, or one further.
fn one_time(random: &mut Random) -> Lists {
    let within = tolerance(random);
    let apart = *random.pick(&[0, within, within + 1]);
    let first = *random.pick(&[0, 1_000, MAX_TIME - apart]);
    let mut many = || *random.pick(&[1, 7, MAX_TIMES - 1, MAX_TIMES, MAX_TIMES, MAX_TIMES]);
    let lists = (vec![first; many()], vec![first + apart; many()], within);
    either_way(random, lists)
}

/// Entries at and close to the first time and the last one, and some in the middle.
fn at_both_ends(random: &mut Random) -> Lists {
    let within = tolerance(random);
    let mut list = || {
        let mut list = vec![0, MAX_TIME];
        for _ in 0..random.below(40) {
            let off = random.number() % (within + 3);
            list.push(*random.pick(&[0, MAX_TIME, off, MAX_TIME - off, 1 << 31, (1 << 31) - off]));
        }
        list.sort_unstable();
        let (first, behind) = (random.below(2), list.len() - random.below(2));
        list[first..behind].to_vec()
    };
    (list(), list(), within)
}

/// Marks close to the first time and arrivals close to the last one, which a difference of 32 bits would bring together.
fn at_opposite_ends(random: &mut Random) -> Lists {
    let within = tolerance(random).max(1);
    let (marks, arrivals) = (random.within((1, 20)), random.within((1, 20)));
    let early = times(random, marks, (0, within));
    let late = times(random, arrivals, (MAX_TIME - within, MAX_TIME));
    either_way(random, (early, late, within))
}

/// Only equal times are near.
fn without_tolerance(random: &mut Random) -> Lists {
    let last = random.within((1, 60)) as u64;
    let (marks, arrivals) = (random.below(50), random.below(50));
    (
        times(random, marks, (0, last)),
        times(random, arrivals, (0, last)),
        0,
    )
}

fn with_most_tolerance(random: &mut Random) -> Lists {
    mixed(random, 60, MAX_TOLERANCE)
}

/// Chains in which each entry reaches as far as the one before it and the one behind: the nearer of the two is the
/// wrong one to take, since that leaves both ends of the chain alone.
fn chained(random: &mut Random) -> Lists {
    let within = tolerance(random).max(3);
    let (mut marks, mut arrivals) = (Vec::new(), Vec::new());
    let mut time = random.below(1_000_000) as u64;
    for _ in 0..random.within((1, 8)) {
        for _ in 0..random.within((1, 6)) {
            arrivals.push(time);
            time += within - random.below(2) as u64;
            marks.push(time);
            time += random.within((1, 2)) as u64;
        }
        time += 2 * within;
    }
    either_way(random, (marks, arrivals, within))
}

/// Groups with everybody in one near each other, and nobody of two.
fn clustered(random: &mut Random) -> Lists {
    let within = tolerance(random);
    let (mut marks, mut arrivals) = (Vec::new(), Vec::new());
    let mut first = random.below(1_000) as u64;
    for _ in 0..random.within((1, 12)) {
        let range = (first, first + within);
        let (some, others) = (random.below(30), random.below(30));
        marks.extend(times(random, some, range));
        arrivals.extend(times(random, others, range));
        first += 2 * within + 1 + random.below(3) as u64;
    }
    (marks, arrivals, within)
}

/// Arrivals just near a mark and just not, before it and behind.
fn at_the_edge(random: &mut Random) -> Lists {
    let within = tolerance(random);
    let count = random.within((1, 30));
    let range = (within + 1, within + 1 + 3 * (within + 1) * count as u64);
    let marks = times(random, count, range);
    let mut arrivals: Vec<u64> = marks
        .iter()
        .map(|mark| {
            let off = *random.pick(&[within, within, within + 1, within.saturating_sub(1)]);
            *random.pick(&[mark + off, mark - off])
        })
        .collect();
    arrivals.sort_unstable();
    either_way(random, (marks, arrivals, within))
}

/// What a door sees: most marks have an arrival nearby, some have none, and some arrivals have no mark.
fn as_logged(random: &mut Random) -> Lists {
    let within = random.within((100, 5_000)) as u64;
    let (mut marks, mut arrivals) = (Vec::new(), Vec::new());
    let mut time = 1_000_000;
    for _ in 0..random.within((1, 300)) {
        time += random.below(20_000) as u64;
        let seen = time + random.below(2 * within as usize) as u64 - within * 9 / 10;
        if random.chance(90) {
            marks.push(time);
        }
        if random.chance(90) {
            arrivals.push(seen);
        }
    }
    arrivals.sort_unstable();
    (marks, arrivals, within)
}

/// Nobody is near anybody.
fn far_apart(random: &mut Random) -> Lists {
    let within = tolerance(random);
    let (first, second) = (random.within((1, 40)), random.within((1, 40)));
    let middle = MAX_TIME / 2;
    let early = times(random, first, (0, middle));
    let late = times(random, second, (middle + within + 1, MAX_TIME));
    either_way(random, (early, late, within))
}
