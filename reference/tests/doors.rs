//! Marks against the door counter (V), and the program `doors` (P27 to P29): cases by hand, the matching against all
//! pairings, the order of refusals, the limits, and what the generated lists and inputs meet.

use reference::doors::{self, held, reasons, Counts, Reason, MAX_TIME, MAX_TIMES, MAX_TOLERANCE};
use reference::external::difference;
use reference::generators::{doors_input, doors_lists, doors_text, Lists};
use reference::matching::{largest, Graph};
use reference::random::Random;
use reference::report::Doors;
use std::collections::BTreeSet;

fn printed(input: &str) -> String {
    String::from_utf8(doors::run(input.as_bytes())).unwrap()
}

/// The three counts, the input being right.
fn counts(marks: &[u64], arrivals: &[u64], within: u64) -> [usize; 3] {
    let counts = held(marks, arrivals, within).unwrap();
    [counts.pairs, counts.marks, counts.arrivals]
}

/// 0, 500 and 500 have 400 and 1500 between them; 2000 has 2500; 9000 and 20000 have nobody.
#[test]
fn a_worked_case() {
    let input = "within=1000\n0 500 500 2000 9000\n400 1500 2500 2500 20000\n";
    assert_eq!(printed(input), "got=3 2 2\n");
}

#[test]
fn cases_by_hand() {
    assert_eq!(printed("within=0\n\n\n"), "got=0 0 0\n");
    assert_eq!(printed("within=60000\n\n1 2 3\n"), "got=0 0 3\n");
    assert_eq!(printed("within=60000\n1 2 3\n\n"), "got=0 3 0\n");
    // V4: a difference just as large, on either side, and one more
    assert_eq!(printed("within=5\n10\n15\n"), "got=1 0 0\n");
    assert_eq!(printed("within=5\n10\n5\n"), "got=1 0 0\n");
    assert_eq!(printed("within=5\n10\n16\n"), "got=0 1 1\n");
    assert_eq!(printed("within=5\n10\n4\n"), "got=0 1 1\n");
    // V2: equal ones are entries of their own, and each is in one pair at most
    assert_eq!(printed("within=0\n7 7 7\n7 7\n"), "got=2 1 0\n");
    assert_eq!(printed("within=9\n7\n7 7 8 9\n"), "got=1 0 3\n");
    // 5 is nearer to 6, and 11 has nobody but 6
    assert_eq!(printed("within=5\n5 11\n0 6\n"), "got=2 0 0\n");
    // the ends of the range are far from each other
    assert_eq!(printed("within=60000\n0\n4294967295\n"), "got=0 1 1\n");
    assert_eq!(
        printed("within=0\n0 4294967295\n0 4294967295\n"),
        "got=2 0 0\n"
    );
    // four marks are near to the same two arrivals, one to nobody
    assert_eq!(printed("within=10\n0 1 2 3 100\n5 6 50\n"), "got=2 3 1\n");
}

/// The most pairs by a search through all pairings: the first mark stays alone, or has any that is near.
fn most_pairs_by_search(near: &[Vec<usize>], taken: &mut BTreeSet<usize>) -> usize {
    let Some((first, rest)) = near.split_first() else {
        return 0;
    };
    let mut most = most_pairs_by_search(rest, taken);
    for arrival in first {
        if taken.insert(*arrival) {
            most = most.max(1 + most_pairs_by_search(rest, taken));
            taken.remove(arrival);
        }
    }
    most
}

fn by_search(near: &[Vec<usize>]) -> usize {
    most_pairs_by_search(near, &mut BTreeSet::new())
}

/// Who is near whom, from the words of V4.
fn near((marks, arrivals, within): &Lists) -> Vec<Vec<usize>> {
    let is_near = |mark: u64, arrival: u64| mark <= arrival + within && arrival <= mark + within;
    let near_to = |mark: &u64| {
        let all = 0..arrivals.len();
        all.filter(|at| is_near(*mark, arrivals[*at])).collect()
    };
    marks.iter().map(near_to).collect()
}

/// Tiny lists, so crowded that entries contend for each other.
fn tiny_lists(random: &mut Random) -> Lists {
    let last = random.within((0, 14));
    let mut list = || {
        let count = random.below(7);
        let mut list: Vec<u64> = (0..count).map(|_| random.below(last + 1) as u64).collect();
        list.sort_unstable();
        list
    };
    (list(), list(), random.below(6) as u64)
}

/// V6, by all pairings there are.
#[test]
fn no_pairing_has_more() {
    let mut random = Random::new(22);
    for _ in 0..6_000 {
        let lists = tiny_lists(&mut random);
        let most = by_search(&near(&lists));
        let (marks, arrivals, within) = &lists;
        let due = [most, marks.len() - most, arrivals.len() - most];
        assert_eq!(counts(marks, arrivals, *within), due, "{lists:?}");
    }
}

/// The same of graphs that no lists have, and in which the first choice is often a wrong one.
#[test]
fn a_largest_matching_of_any_graph() {
    let mut random = Random::new(1);
    for _ in 0..6_000 {
        let (left, right) = (random.below(7), random.below(7));
        let percent = random.within((5, 95));
        let mut some = || (0..right).filter(|_| random.chance(percent)).collect();
        let edges: Vec<Vec<usize>> = (0..left).map(|_| some()).collect();
        let due = by_search(&edges);
        assert_eq!(
            largest(&Graph {
                edges: edges.clone(),
                right
            }),
            due,
            "{edges:?}"
        );
    }
}

/// Larger graphs, made of a matching of everybody, edges that mislead, and any numbering.
#[test]
fn a_matching_of_everybody_is_found() {
    let mut random = Random::new(2);
    for count in [1, 2, 3, 10, 50, 200, MAX_TIMES] {
        // a permutation, by sorting random numbers
        let mut order: Vec<(u64, usize)> = (0..count).map(|at| (random.number(), at)).collect();
        order.sort_unstable();
        let edges = (0..count).map(|left| {
            let mut edges: Vec<usize> = (0..random.below(4)).map(|_| random.below(count)).collect();
            edges.push(order[left].1);
            edges
        });
        let edges = edges.collect();
        assert_eq!(
            largest(&Graph {
                edges,
                right: count
            }),
            count
        );
    }
}

/// V6: the result stays where marks and arrivals change places, and where time runs backwards.
#[test]
fn the_result_does_not_depend_on_sides() {
    for seed in 0..300 {
        let (marks, arrivals, within) = doors_lists(seed);
        let result = held(&marks, &arrivals, within);
        let swapped = result.map(|one| Counts {
            pairs: one.pairs,
            marks: one.arrivals,
            arrivals: one.marks,
        });
        assert_eq!(held(&arrivals, &marks, within), swapped, "{seed}");
        if result.is_ok() {
            let back = |times: &[u64]| times.iter().rev().map(|time| MAX_TIME - time).collect();
            let (marks, arrivals): (Vec<u64>, Vec<u64>) = (back(&marks), back(&arrivals));
            assert_eq!(held(&marks, &arrivals, within), result, "{seed}");
        }
    }
}

/// V8, taken at its word; `early` says whether the first of two times is too early for the second.
fn one_pass((marks, arrivals, within): &Lists, early: fn(u64, u64, u64) -> bool) -> usize {
    let (mut mark, mut arrival, mut pairs) = (0, 0, 0);
    while mark < marks.len() && arrival < arrivals.len() {
        let (a, b) = (marks[mark], arrivals[arrival]);
        let (first, second) = (early(a, b, *within), early(b, a, *within));
        pairs += usize::from(!first && !second);
        mark += usize::from(first || !second);
        arrival += usize::from(second || !first);
    }
    pairs
}

/// V8 has the result of V6, and its slips have not.
#[test]
fn one_pass_finds_as_many() {
    let early = |a: u64, b: u64, within: u64| a + within < b;
    let slips: [fn(u64, u64, u64) -> bool; 3] = [
        |a, b, within| a + within <= b && a < b,
        |a, b, within| a + within + 1 < b,
        |a, b, within| (a as u32).wrapping_add(within as u32) < b as u32,
    ];
    let mut found = [0; 3];
    for seed in 0..1_500 {
        let lists = doors_lists(seed);
        let Ok(counts) = held(&lists.0, &lists.1, lists.2) else {
            continue;
        };
        assert_eq!(one_pass(&lists, early), counts.pairs, "{seed}");
        for (slip, found) in slips.iter().zip(&mut found) {
            *found += usize::from(one_pass(&lists, *slip) != counts.pairs);
        }
    }
    assert!(found.iter().all(|count| *count > 10), "{found:?}");
}

/// The gaps longer than the tolerance in both lists taken together (V4): the last time before each, and the next.
fn gaps((marks, arrivals, within): &Lists) -> Vec<[u64; 2]> {
    let mut all = [&marks[..], arrivals].concat();
    all.sort_unstable();
    let gaps = all.windows(2).filter(|two| two[1] - two[0] > *within);
    gaps.map(|two| [two[0], two[1]]).collect()
}

/// Both lists up to a time, and behind it.
fn cut((marks, arrivals, within): &Lists, last: u64) -> [Lists; 2] {
    let at = |times: &[u64]| times.partition_point(|time| *time <= last);
    let (marks, arrivals) = (marks.split_at(at(marks)), arrivals.split_at(at(arrivals)));
    [(marks.0, arrivals.0), (marks.1, arrivals.1)]
        .map(|(marks, arrivals)| (marks.to_vec(), arrivals.to_vec(), *within))
}

/// The counts of the parts of lists, added up.
fn in_parts(lists: &Lists, last: u64) -> [usize; 3] {
    let [one, other] =
        cut(lists, last).map(|(marks, arrivals, within)| counts(&marks, &arrivals, within));
    [0, 1, 2].map(|at| one[at] + other[at])
}

/// V4, V6: no pair goes over a gap longer than the tolerance, so lists may be cut there: in gaps of 1 ms more too, and
/// with pairs on both sides. Elsewhere they may not.
#[test]
fn lists_may_be_cut_in_gaps() {
    let mut random = Random::new(4);
    let tiny = (0..6_000).map(|_| tiny_lists(&mut random));
    let [mut cuts, mut barely, mut with_pairs, mut differ] = [0; 4];
    for lists in (0..600).map(doors_lists).chain(tiny) {
        let (marks, arrivals, within) = &lists;
        if !reasons(marks, arrivals, *within).is_empty() {
            continue;
        }
        let due = counts(marks, arrivals, *within);
        for [last, next] in gaps(&lists).into_iter().step_by(7).take(9) {
            assert_eq!(in_parts(&lists, last), due, "{lists:?} {last}");
            cuts += 1;
            barely += usize::from(next - last == within + 1);
            with_pairs += usize::from(cut(&lists, last).iter().all(has_pairs));
        }
        let middle = marks.get(marks.len() / 2).copied().unwrap_or(0);
        differ += usize::from(in_parts(&lists, middle) != due);
    }
    let found = [cuts, barely, with_pairs, differ];
    assert!(found.iter().all(|count| *count > 500), "{found:?}");
}

fn has_pairs((marks, arrivals, within): &Lists) -> bool {
    counts(marks, arrivals, *within)[0] > 0
}

/// V4, V6: a larger tolerance never gives fewer pairs, up to the largest; often it gives more.
#[test]
fn a_larger_tolerance_gives_no_fewer_pairs() {
    let mut random = Random::new(5);
    let tiny = (0..2_000).map(|_| tiny_lists(&mut random));
    let (mut same, mut more) = (0, 0);
    for (marks, arrivals, within) in (0..300).map(doors_lists).chain(tiny) {
        if !reasons(&marks, &arrivals, within).is_empty() {
            continue;
        }
        let larger = [1, 2, 5, 1_000, MAX_TOLERANCE].map(|by| (within + by).min(MAX_TOLERANCE));
        let mut before = counts(&marks, &arrivals, within)[0];
        for larger in larger {
            let pairs = counts(&marks, &arrivals, larger)[0];
            assert!(pairs >= before, "{marks:?} {arrivals:?} {within} {larger}");
            same += usize::from(pairs == before);
            more += usize::from(pairs > before);
            before = pairs;
        }
    }
    assert!(same > 500 && more > 500, "{same} {more}");
}

/// V3: lists that are refused, and for which reasons.
fn refused(marks: &[u64], arrivals: &[u64], within: u64, due: &[Reason]) {
    assert_eq!(reasons(marks, arrivals, within), due);
    assert_eq!(held(marks, arrivals, within), Err(22));
    let text = doors_text(&(marks.to_vec(), arrivals.to_vec(), within));
    assert_eq!(doors::run(&text), b"no=22\n");
}

/// V1, V3: each limit, and one more.
#[test]
fn both_ends_of_every_limit() {
    let full = vec![5; MAX_TIMES];
    let more = vec![5; MAX_TIMES + 1];
    assert_eq!(counts(&full, &full, 0), [MAX_TIMES, 0, 0]);
    assert_eq!(counts(&full, &[], 0), [0, MAX_TIMES, 0]);
    refused(&more, &full, 0, &[Reason::MarksTooMany]);
    refused(&full, &more, 0, &[Reason::ArrivalsTooMany]);
    refused(&[], &more, 0, &[Reason::ArrivalsTooMany]);
    assert_eq!(counts(&[0, MAX_TIME], &[MAX_TIME], 0), [1, 1, 0]);
    for late in [MAX_TIME + 1, MAX_TIME + 6, u64::MAX] {
        refused(&[5, late], &[5], 0, &[Reason::MarkTooLate]);
        refused(&[5], &[late], 0, &[Reason::ArrivalTooLate]);
    }
    assert_eq!(counts(&[5, 5], &[4, 5], 0), [1, 1, 1]);
    refused(&[5, 4], &[5], 0, &[Reason::MarksFall]);
    refused(&[5], &[0, 6, 5, 7], 0, &[Reason::ArrivalsFall]);
    refused(&[1, 0, 9], &[], 0, &[Reason::MarksFall]);
    refused(&[], &[7, 8, 9, 0], 0, &[Reason::ArrivalsFall]);
    assert_eq!(counts(&[0], &[MAX_TOLERANCE], MAX_TOLERANCE), [1, 0, 0]);
    assert_eq!(counts(&[0], &[MAX_TOLERANCE + 1], MAX_TOLERANCE), [0, 1, 1]);
    assert_eq!(counts(&[0, 1], &[0], 0), [1, 1, 0]);
    for large in [MAX_TOLERANCE + 1, 1 << 16, 1 << 32, u64::MAX] {
        refused(&[], &[], large, &[Reason::ToleranceTooLarge]);
    }
    let both = [Reason::MarksFall, Reason::ToleranceTooLarge];
    refused(&[1, 0], &[], u64::MAX, &both);
}

/// S2, P28: a decimal of any length has the form, whatever its low bits say.
#[test]
fn decimals_of_any_length() {
    let long = "9".repeat(30_000);
    let numbers = [
        "4294967296",
        "18446744073709551616",
        "18446744073709551617",
        &long,
    ];
    for number in numbers {
        assert_eq!(printed(&format!("within={number}\n\n\n")), "no=22\n");
        assert_eq!(printed(&format!("within=0\n{number}\n\n")), "no=22\n");
        assert_eq!(printed(&format!("within=0\n\n0 {number}\n")), "no=22\n");
        // where the form is broken elsewhere that comes first
        assert_eq!(printed(&format!("within={number}\n00\n\n")), "no=1\n");
        assert_eq!(printed(&format!("within=0\n{number}\n-1\n")), "no=1\n");
        assert_eq!(printed(&format!("within=0\n0\n0 {number}")), "no=1\n");
    }
    assert_eq!(
        printed("within=60000\n4294967295\n4294967295\n"),
        "got=1 0 0\n"
    );
}

/// P27, P28: what is not of the form.
const OTHER_FORMS: [&str; 49] = [
    "",
    "\n",
    "\n\n\n",
    "within=5",
    "within=5\n",
    "within=5\n1\n",
    "within=5\n1\n2",
    "within=5\n1\n2\n\n",
    "within=5\n1\n2\n3\n",
    "within=5\n1\n2\n3",
    "within=5\n1\n2\n ",
    "\nwithin=5\n1\n2\n",
    "within=5\n\n1\n2\n",
    "within=\n1\n2\n",
    "within\n1\n2\n",
    "5\n1\n2\n",
    "Within=5\n1\n2\n",
    " within=5\n1\n2\n",
    "within= 5\n1\n2\n",
    "within=5 \n1\n2\n",
    "within=5 5\n1\n2\n",
    "within==5\n1\n2\n",
    "within=05\n1\n2\n",
    "within=00\n1\n2\n",
    "within=+5\n1\n2\n",
    "within=-0\n1\n2\n",
    "within=5\r\n1\n2\n",
    "within=5\r\n1\r\n2\r\n",
    "within=5\n1\r\n2\n",
    "within=5\n 1\n2\n",
    "within=5\n1 \n2\n",
    "within=5\n1  2\n2\n",
    "within=5\n \n2\n",
    "within=5\n\n \n",
    "within=5\n1\t2\n2\n",
    "within=5\n1,2\n2\n",
    "within=5\n1, 2\n2\n",
    "within=5\n01\n2\n",
    "within=5\n1 -2\n2\n",
    "within=5\n+1\n2\n",
    "within=5\n1\nx\n",
    "within=5\n1\n0x2\n",
    "within=5\n1\n2.0\n",
    "within=5\n1\n1e3\n",
    "within=5\n1\n2\0\n",
    "within=5\n1\n\u{663}\n",
    "1\nwithin=5\n2\n",
    "within=5\nmarks=1\n2\n",
    "within=5\n1\n2\u{85}",
];

#[test]
fn other_forms() {
    for input in OTHER_FORMS {
        assert_eq!(printed(input), "no=1\n", "{input:?}");
    }
}

/// P27: each byte behind a number, and between two.
#[test]
fn every_byte_that_is_no_digit() {
    for byte in (0..=255).filter(|byte: &u8| !byte.is_ascii_digit()) {
        let input = [b"within=5\n1", &[byte][..], b"\n2\n"].concat();
        assert_eq!(doors::run(&input), b"no=1\n", "{byte}");
        let input = [b"within=5\n1", &[byte][..], b"3\n2\n"].concat();
        let due: &[u8] = if byte == b' ' {
            b"got=1 1 0\n"
        } else {
            b"no=1\n"
        };
        assert_eq!(doors::run(&input), due, "{byte}");
    }
}

/// P1: 32,768 bytes are an input like any other, one more is 2 whatever it holds.
#[test]
fn the_longest_input() {
    let of_length = |length: usize| {
        let head = "within=0\n\n";
        format!("{head}{}\n", "1".repeat(length - head.len() - 1))
    };
    assert_eq!(printed(&of_length(32_768)), "no=22\n");
    assert_eq!(printed(&of_length(32_769)), "no=2\n");
    for byte in ["x", "\n", "0", " "] {
        assert_eq!(printed(&byte.repeat(32_768)), "no=1\n");
        assert_eq!(printed(&byte.repeat(32_769)), "no=2\n");
    }
    // many times: 22, and 2 before it
    let many = |count: usize| format!("within=0\n\n{}7\n", "7 ".repeat(count - 1));
    assert_eq!(printed(&many(MAX_TIMES)), "got=0 0 1024\n");
    assert_eq!(printed(&many(MAX_TIMES + 1)), "no=22\n");
    assert_eq!(printed(&many(16_379)), "no=22\n");
    assert_eq!(many(16_379).len(), 32_768);
    assert_eq!(printed(&many(16_380)), "no=2\n");
}

/// P29: the longest text that V3 accepts.
#[test]
fn the_longest_accepted() {
    let lists = (
        vec![MAX_TIME; MAX_TIMES],
        vec![MAX_TIME; MAX_TIMES],
        MAX_TOLERANCE,
    );
    let text = doors_text(&lists);
    assert_eq!(text.len(), 22_541);
    assert_eq!(doors::run(&text), b"got=1024 0 0\n");
    for seed in 0..300 {
        let (marks, arrivals, within) = doors_lists(seed);
        let text = doors_text(&(marks.clone(), arrivals.clone(), within));
        assert!(held(&marks, &arrivals, within).is_err() || text.len() <= 22_541);
    }
}

/// What is printed for the text of lists is what comes of them handed in, and the lists are read back.
#[test]
fn texts_say_what_lists_do() {
    for seed in 0..300 {
        let (marks, arrivals, within) = doors_lists(seed);
        let text = doors_text(&(marks.clone(), arrivals.clone(), within));
        if text.len() > 32_768 {
            assert_eq!(doors::run(&text), b"no=2\n");
            continue;
        }
        let read = doors::read(&text).unwrap();
        assert_eq!(
            (&read.marks, &read.arrivals, read.within),
            (&marks, &arrivals, within)
        );
        let due = match held(&marks, &arrivals, within) {
            Ok(counts) => format!(
                "got={} {} {}\n",
                counts.pairs, counts.marks, counts.arrivals
            ),
            Err(number) => format!("no={number}\n"),
        };
        assert_eq!(doors::run(&text), due.as_bytes(), "{seed}");
    }
}

/// An input that is of the form is the text of what it is read as (S21), so that no other text is.
#[test]
fn what_is_read_is_written_back() {
    let mut count = 0;
    for seed in 0..1_000 {
        let input = doors_input(seed);
        if let Some(read) = doors::parse(&input).filter(has_no_long_number) {
            assert_eq!(
                doors_text(&(read.marks, read.arrivals, read.within)),
                input,
                "{seed}"
            );
            count += 1;
        }
    }
    assert!(count > 400, "{count}");
}

/// A number too large for a word is not kept (S2).
fn has_no_long_number(read: &doors::Input) -> bool {
    let times = read.marks.iter().chain(&read.arrivals);
    times.chain([&read.within]).all(|number| *number < u64::MAX)
}

/// A program with a slip is shown by a small input, if the lists were long too.
#[test]
fn a_difference_comes_with_a_small_input() {
    let same_place = |input: &[u8]| match doors::read(input) {
        Ok(one) if doors::run(input).starts_with(b"got=") => {
            let both = one.marks.iter().zip(&one.arrivals);
            let near = both.filter(|(mark, arrival)| mark.abs_diff(**arrival) <= one.within);
            let pairs = near.count();
            format!(
                "got={pairs} {} {}\n",
                one.marks.len() - pairs,
                one.arrivals.len() - pairs
            )
            .into_bytes()
        }
        _ => doors::run(input),
    };
    let find = |lists: &Lists| difference(&doors_text(lists), &same_place, &doors::run);
    let long = (0..)
        .map(doors_lists)
        .filter(|(marks, _, _)| marks.len() > 500);
    let found = long.take(20).find_map(|lists| find(&lists)).unwrap();
    assert_ne!(found.theirs, found.ours);
    assert!(found.input.len() < 100, "{found:?}");
}

#[test]
fn seeds_give_the_same_again() {
    for seed in [0, 1, 57, 58, 1 << 40, u64::MAX] {
        assert_eq!(doors_lists(seed), doors_lists(seed));
        assert_eq!(doors_input(seed), doors_input(seed));
    }
    let inputs: BTreeSet<Vec<u8>> = (0..600).map(doors_input).collect();
    assert!(inputs.len() > 560, "{}", inputs.len());
}

/// Every situation is met in the seeds that tests/generated.rs, and with it the gate, runs: 600 of each.
#[test]
fn every_situation_is_met() {
    let doors = Doors::collect(0..600);
    let missing = doors.due().into_iter().filter(|(met, _)| !met);
    let missing: Vec<String> = missing.map(|(_, name)| name).collect();
    assert_eq!(missing, Vec::<String>::new(), "{}", doors.text());
    assert_eq!(doors.lists.accepted + doors.lists.refused[&22], 600);
    let shares = [
        (doors.inputs.accepted, 150),
        (doors.inputs.refused[&1], 150),
        (doors.inputs.refused[&22], 100),
    ];
    assert!(
        shares.iter().all(|(count, least)| count >= least),
        "{shares:?}"
    );
}
