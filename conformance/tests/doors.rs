//! Marks against arrivals (V): the C function, the package's and the program `doors` (crates/doors/out/doors, built by `rt ci` or `tools/prove doors`) against
//! the reference, and the function against the most pairs by augmenting paths, which are found here.

use conformance::doors::{all_same, equal, limits, longest, ours, proved, same, typical, Answer};
use conformance::doors::{printed, Lists, INPUTS, LAST, MOST, UNSET, WIDEST};
use conformance::process::{built, feed, least_stack, limited_still, limited_to, plain};
use conformance::process::{printed as of_output, run};
use conformance::said;
use pilgonca::Doors;
use reference::doors;
use reference::generators::doors_input;
use reference::random::Random;
use reference::script::MAX_INPUT;
use std::fs::File;
use std::hint::black_box;
use std::ops::Range;
use std::path::Path;
use std::time::{Duration, Instant};

/// The most pairs of a pairing (V5), by augmenting paths: marks take an arrival one by one, others moving to another for it.
struct Paths<'a> {
    lists: &'a Lists,
    /// The mark that each arrival is paired with.
    partner: Vec<Option<usize>>,
}

impl Paths<'_> {
    fn most_pairs(lists: &Lists) -> usize {
        let partner = vec![None; lists.arrivals.len()];
        let mut paths = Paths { lists, partner };
        let marks = 0..lists.marks.len();
        let paired = |mark: &usize| paths.pair(*mark, &mut vec![false; lists.arrivals.len()]);
        marks.filter(paired).count()
    }

    /// The arrivals near a mark (V4).
    fn near(&self, mark: usize) -> Vec<usize> {
        let lists = self.lists;
        let near = |arrival: &usize| lists.marks[mark].abs_diff(lists.arrivals[*arrival]);
        (0..lists.arrivals.len())
            .filter(|arrival| near(arrival) <= lists.within)
            .collect()
    }

    /// Pairs a mark if that can be: with an arrival that is free, or whose mark finds another one.
    fn pair(&mut self, mark: usize, tried: &mut [bool]) -> bool {
        let near = self.near(mark);
        let is_free = |arrival: &&usize| self.partner[**arrival].is_none();
        if let Some(free) = near.iter().find(is_free) {
            self.partner[*free] = Some(mark);
            return true;
        }
        for arrival in near {
            if !std::mem::replace(&mut tried[arrival], true)
                && self.partner[arrival].is_none_or(|other| self.pair(other, tried))
            {
                self.partner[arrival] = Some(mark);
                return true;
            }
        }
        false
    }
}

/// Puts lists that are right to the function, the reference and augmenting paths; gives the pairs.
fn most(lists: &Lists, from: &str) -> usize {
    let (code, counts) = same(&proved, lists, from);
    let pairs = Paths::most_pairs(lists);
    let unpaired = [&lists.marks, &lists.arrivals].map(|list| list.len() - pairs);
    let wanted = (0, [pairs, unpaired[0], unpaired[1]]);
    assert_eq!((code, counts), wanted, "{from}: {lists:?}");
    pairs
}

/// Of generated lists: how many were refused, and of those accepted how many have pairs, unpaired marks and unpaired arrivals.
#[derive(Default, Debug)]
struct Seen {
    refused: u32,
    accepted: u32,
    some: [u32; 3],
}

impl Seen {
    fn note(&mut self, (code, counts): Answer) {
        if code != 0 {
            assert_eq!((code, counts), (22, UNSET));
            self.refused += 1;
            return;
        }
        self.accepted += 1;
        for (some, count) in self.some.iter_mut().zip(counts) {
            *some += u32::from(count > 0);
        }
    }
}

/// So many generated lists, as they are and exchanged: the counts are exchanged then, and a refusal stays.
fn generated(seeds: u64) -> Seen {
    let mut seen = Seen::default();
    for seed in 0..seeds {
        let lists = Lists::generated(seed);
        let (code, counts) = same(&proved, &lists, &format!("seed {seed}"));
        seen.note((code, counts));
        let [pairs, marks, arrivals] = counts;
        let wanted = if code == 0 {
            [pairs, arrivals, marks]
        } else {
            UNSET
        };
        assert_eq!(
            proved(&lists.exchanged()),
            (code, wanted),
            "seed {seed}, exchanged"
        );
    }
    println!("{seen:?}");
    seen
}

#[test]
fn generated_lists() {
    let seen = generated(6000);
    assert!(seen.refused > 1000 && seen.accepted > 2000, "{seen:?}");
    assert!(seen.some.iter().all(|count| *count > 1000), "{seen:?}");
}

#[test]
#[ignore = "long"]
fn a_million_generated_lists() {
    let seen = generated(1_000_000);
    assert!(
        seen.refused > 100_000 && seen.accepted > 300_000,
        "{seen:?}"
    );
}

/// All lists of up to so many times that rise or are equal, from `first` on and below `end`.
fn rising(length: usize, first: u64, end: u64) -> Vec<Vec<u64>> {
    let mut all = vec![Vec::new()];
    if length > 0 {
        for time in first..end {
            let behind = rising(length - 1, time, end).into_iter();
            all.extend(behind.map(|rest| [vec![time], rest].concat()));
        }
    }
    all
}

/// Every two lists of at most four times of five, with every tolerance that matters, at both ends of the range.
#[test]
fn every_two_short_lists() {
    for first in [0, LAST - 4] {
        let all = rising(4, first, first + 5);
        assert_eq!(all.len(), 1 + 5 + 15 + 35 + 70);
        for marks in &all {
            for arrivals in &all {
                for within in 0..4 {
                    most(&Lists::new(marks, arrivals, within), "short");
                }
            }
        }
    }
}

/// A list of a length, each time at most so far behind the one before, the first from a given time on.
fn walk(random: &mut Random, count: usize, first: u64, steps: &[usize]) -> Vec<u64> {
    let mut time = first;
    let mut next = |_| {
        let step = *random.pick(steps);
        time += random.below(step + 1) as u64;
        time
    };
    (0..count).map(&mut next).collect()
}

/// Lists of some dozens of times, in which pairs compete: many steps are no longer than the tolerance, and some are 0.
#[test]
fn lists_in_which_pairs_compete() {
    let mut random = Random::new(1);
    let mut pairs = 0;
    for number in 0..3000 {
        let steps = *random.pick(&[&[0, 1][..], &[0, 0, 9], &[3, 40], &[0, 100_000]]);
        let first = *random.pick(&[0, 1_000_000, LAST - 6_000_000]);
        let [marks, arrivals] = [(); 2].map(|()| {
            let count = random.below(60);
            walk(&mut random, count, first, steps)
        });
        let within = *random.pick(&[0, 1, 2, 7, 30, 5_000, WIDEST]);
        let lists = Lists::new(&marks, &arrivals, within);
        pairs += most(&lists, &format!("walk {number}"));
    }
    println!("{pairs} pairs");
    assert!(pairs > 20_000, "{pairs}");
}

/// Lists as long as they may be, in crowds of equal times. Crowds are near the next one, or not.
#[test]
fn long_lists_with_many_equal_times() {
    let mut random = Random::new(2);
    for number in 0..12 {
        let [marks, arrivals] = [(); 2].map(|()| {
            let mut list = Vec::new();
            let mut time = LAST - 1_000_000;
            while list.len() < MOST {
                let crowd = random.within((1, 60)).min(MOST - list.len());
                list.extend(vec![time; crowd]);
                time += random.pick(&[1, 500, 501, 2_000]);
            }
            list
        });
        let lists = Lists::new(&marks, &arrivals, 500);
        let pairs = most(&lists, &format!("crowds {number}"));
        assert!((300..MOST).contains(&pairs), "{pairs}");
    }
    // one crowd, of which 1 to all find a partner
    for (marks, arrivals) in [
        (1, MOST),
        (MOST, 1),
        (200, 100),
        (MOST, MOST),
        (MOST, MOST - 1),
    ] {
        let lists = Lists::new(&vec![LAST; marks], &vec![LAST; arrivals], 0);
        assert_eq!(most(&lists, "one crowd"), marks.min(arrivals));
    }
}

/// Lists without entries, one or both.
#[test]
fn empty_lists() {
    assert_eq!(most(&Lists::new(&[], &[], 0), "empty"), 0);
    for lists in [typical(5), typical(MOST), equal(MOST)] {
        for lists in [
            Lists::new(&lists.marks, &[], WIDEST),
            Lists::new(&[], &lists.arrivals, WIDEST),
        ] {
            assert_eq!(most(&lists, "one is empty"), 0);
        }
    }
}

/// Pairs just as far apart as the tolerance, whichever is the earlier (V4), and 1 ms further.
#[test]
fn near_is_up_to_the_tolerance() {
    for within in [0, 1, 999, 32_768, WIDEST] {
        for time in [0, 5, 1 << 16, 1 << 31, LAST - WIDEST - 1] {
            for (apart, pairs) in [(within, 1), (within + 1, 0)] {
                let lists = Lists::new(&[time], &[time + apart], within);
                assert_eq!(most(&lists, "behind"), pairs, "{time} {apart}");
                assert_eq!(most(&lists.exchanged(), "before"), pairs, "{time} {apart}");
            }
        }
    }
}

/// The limits of V3 at both sides: 22 and the counts as they were, or the reference's counts.
#[test]
fn both_sides_of_every_limit() {
    let mut met = [0; 2];
    for (number, (lists, code)) in limits().into_iter().enumerate() {
        let answer = same(&proved, &lists, &format!("limit {number}"));
        assert_eq!(answer.0, code, "limit {number}: {lists:?}");
        met[usize::from(code != 0)] += 1;
    }
    println!("accepted and refused: {met:?}");
    assert!(met.iter().all(|count| *count > 100), "{met:?}");
}

/// The least time of a call, of many.
fn quickest(lists: &Lists) -> Duration {
    const CALLS: u32 = 20;
    let some = |_| {
        let start = Instant::now();
        for _ in 0..CALLS {
            black_box(proved(black_box(lists)));
        }
        start.elapsed() / CALLS
    };
    (0..200).map(some).min().expect("some")
}

/// One pass (V8): lists 32 times as long take some 32 times as long, and not the square of it. Four times that is left for the machine.
#[test]
fn time_grows_with_the_lists() {
    let apart = |count| Lists::new(&typical(count).marks, &typical(count).arrivals, 1);
    for (name, lists) in [
        ("typical", typical as fn(usize) -> Lists),
        ("equal", equal),
        ("no pairs", apart),
    ] {
        let [short, long] = [MOST / 32, MOST].map(|count| quickest(&lists(count)));
        println!("{name}: {short:?} and {long:?}");
        assert!(long <= 4 * 32 * short, "{name}: {short:?} and {long:?}");
    }
}

/// A list that is too long is not gone through: millions of entries take no longer than a full list, a hundred times that being left for the machine.
#[test]
fn too_long_is_refused_at_once() {
    let full = quickest(&typical(MOST));
    for count in [100_000, 10_000_000] {
        let long = Lists::new(&vec![0; count], &[], 0);
        for lists in [long.exchanged(), long] {
            assert_eq!(proved(&lists), (22, UNSET), "{count}");
            let time = quickest(&lists);
            println!("{count}: {time:?}, a full list {full:?}");
            assert!(time <= 100 * full, "{count}: {time:?} and {full:?}");
        }
    }
}

/// The package's function, on what the raw one gets.
#[test]
fn the_package_gives_the_same() {
    let generated = (0..1000).map(Lists::generated);
    let limits = limits().into_iter().map(|(lists, _)| lists);
    for lists in generated.chain(limits) {
        let found = pilgonca::doors(&lists.marks, &lists.arrivals, lists.within);
        let found = found.map_err(|refusal| refusal.number());
        let wanted = match ours(&lists) {
            (0, [pairs, unpaired_marks, unpaired_arrivals]) => Ok(Doors {
                pairs,
                unpaired_marks,
                unpaired_arrivals,
            }),
            _ => Err(22),
        };
        assert_eq!(found, wanted, "{lists:?}");
    }
}

/// What the program prints for each input; the reference prints the same.
fn all_answered(inputs: &[Vec<u8>]) -> Vec<Vec<u8>> {
    all_same(Path::new(env!("CARGO_BIN_EXE_small_stack")), inputs)
}

const WORKED: &[u8] = b"within=1000\n0 500 500 2000 9000\n400 1500 2500 2500 20000\n";

/// What is printed for an input; the reference prints the same.
fn on(input: impl AsRef<[u8]>) -> String {
    let output = printed(input.as_ref());
    let text = String::from_utf8_lossy(input.as_ref()).into_owned();
    assert_eq!(shown(&output), shown(&doors::run(input.as_ref())), "{text}");
    shown(&output)
}

fn shown(text: &[u8]) -> String {
    String::from_utf8_lossy(text).into_owned()
}

#[test]
fn the_worked_example() {
    assert_eq!(on(WORKED), "got=3 2 2\n");
}

/// The examples that docs/GUIDE.md quotes print what it says, by a pipe and from a file as ./run does it.
#[test]
fn the_guide_is_right() {
    let root = Path::new(env!("CARGO_MANIFEST_DIR")).join("..");
    let guide = std::fs::read_to_string(root.join("docs/GUIDE.md")).expect("the guide");
    let mut lines = guide.lines();
    let mut quoted = 0;
    while let Some(line) = lines.next() {
        let Some(file) = line.strip_prefix("    $ ./run doors ") else {
            continue;
        };
        let said = format!("{}\n", lines.next().expect("what it prints").trim());
        assert_eq!(on(std::fs::read(root.join(file)).expect(file)), said);
        let stdin = File::open(root.join(file)).expect(file);
        let output = plain(&built("doors")).stdin(stdin).output();
        assert_eq!(shown(&of_output(output.expect("it starts"))), said);
        quoted += 1;
    }
    assert!(quoted > 0);
}

/// Inputs of the right form and of others (P27, P28).
#[test]
fn inputs_by_hand() {
    for (input, output) in INPUTS {
        assert_eq!(on(input), *output, "{input:?}");
    }
    // a decimal longer than any word, and a list far too long: both are of the right form, and where another line is not, that comes first
    let (nines, crowd) = ("9".repeat(5000), ["7"; 3000].join(" "));
    for (within, marks, arrivals) in [
        (&nines[..], "", ""),
        ("0", &nines, ""),
        ("0", "", &nines),
        ("0", &crowd, ""),
        ("0", "", &crowd),
    ] {
        let input = |end: &str| format!("within={within}\n{marks}\n{arrivals}{end}");
        assert_eq!(on(input("\n")), "no=22\n");
        for end in ["", " \n", "\n\n"] {
            assert_eq!(on(input(end)), "no=1\n", "{end:?}");
        }
    }
}

/// Limits of the function are those of the program.
#[test]
fn both_sides_of_every_limit_by_the_program() {
    let (lists, codes): (Vec<Lists>, Vec<usize>) = limits().into_iter().unzip();
    let inputs: Vec<Vec<u8>> = lists.iter().map(Lists::text).collect();
    let outputs = all_answered(&inputs);
    for ((input, output), code) in inputs.iter().zip(outputs).zip(codes) {
        let start: &[u8] = match code {
            _ if input.len() > MAX_INPUT => b"no=2\n",
            0 => b"got=",
            _ => b"no=22\n",
        };
        assert!(output.starts_with(start), "{}", shown(input));
    }
}

/// How many inputs are answered so.
fn answered(outputs: &[Vec<u8>], start: &str) -> usize {
    let found = outputs
        .iter()
        .filter(|one| one.starts_with(start.as_bytes()));
    found.count()
}

/// Generated inputs, right and damaged: how many are answered with counts, 1, 2 and 22.
fn inputs_of(seeds: Range<u64>) -> [usize; 4] {
    let inputs: Vec<Vec<u8>> = seeds.map(doors_input).collect();
    let outputs = all_answered(&inputs);
    let met = ["got=", "no=1\n", "no=2\n", "no=22\n"].map(|start| answered(&outputs, start));
    println!("counts, 1, 2, 22: {met:?}");
    assert_eq!(met.iter().sum::<usize>(), inputs.len());
    met
}

#[test]
fn generated_inputs() {
    let [counts, form, long, unfit] = inputs_of(0..3000);
    assert!(counts > 800 && form > 800 && long > 20 && unfit > 500);
}

#[test]
#[ignore = "long"]
fn many_generated_inputs() {
    for part in 0..40 {
        inputs_of(5000 * part..5000 * (part + 1));
    }
}

/// Bytes that matter somewhere in an input, and some that do nowhere.
const BYTES: &[u8] = b"0159 \n\r\t=,-+.wW\0/:\xff";

/// An input with each byte replaced by each of these, removed and doubled.
fn one_byte_off(input: &[u8], bytes: &[u8]) -> Vec<Vec<u8>> {
    let mut all = Vec::new();
    for at in 0..input.len() {
        let (before, behind) = (&input[..at], &input[at + 1..]);
        let replaced = bytes.iter().map(|byte| [before, &[*byte], behind].concat());
        all.extend(replaced);
        all.push([before, behind].concat());
        all.push([before, &input[at..=at], &input[at..]].concat());
    }
    all
}

#[test]
fn inputs_with_one_byte_off() {
    let every: Vec<u8> = (0..=255).collect();
    let inputs = [
        one_byte_off(b"within=9\n1\n12\n", &every),
        one_byte_off(b"within=0\n\n\n", BYTES),
        one_byte_off(b"within=60000\n4294967295\n0 60000\n", BYTES),
        one_byte_off(WORKED, BYTES),
    ];
    let outputs = all_answered(&inputs.concat());
    let met = ["got=", "no=1\n", "no=22\n"].map(|start| answered(&outputs, start));
    println!("counts, 1, 22: {met:?}");
    assert!(met.iter().all(|count| *count > 20), "{met:?}");
}

/// An input of the right form and of a length: marks, far too many of them, or one with many digits.
fn filled(length: usize, mark: &str) -> Vec<u8> {
    let mut input = b"within=0\n".to_vec();
    let room = length - input.len() - 2;
    let marks = mark.repeat(room.div_ceil(mark.len()));
    input.extend_from_slice(&marks.as_bytes()[..room]);
    // a space at the end would be another form
    *input.last_mut().expect("bytes") = b'1';
    input.extend_from_slice(b"\n\n");
    input
}

/// 32,768 bytes are read, one more is `no=2` alone, whatever the input holds (P1). The longest that V3 accepts are shorter (P29).
#[test]
fn longest_inputs() {
    let lists = longest();
    let input = lists.text();
    assert_eq!((input.len(), proved(&lists).0), (22_541, 0));
    assert_eq!(on(&input), "got=1024 0 0\n");
    for length in [MAX_INPUT - 1, MAX_INPUT] {
        assert_eq!(on(filled(length, "1 ")), "no=22\n", "{length}");
        assert_eq!(on(filled(length, "9")), "no=22\n", "{length}");
        assert_eq!(on(vec![b'\n'; length]), "no=1\n", "{length}");
        let mut input = filled(length, "1 ");
        input[length - 1] = b'1';
        assert_eq!(on(&input), "no=1\n", "{length}, no LF");
    }
    for length in [MAX_INPUT + 1, MAX_INPUT + 2, 2 * MAX_INPUT, 1 << 20] {
        assert_eq!(on(filled(length, "1 ")), "no=2\n", "{length}");
        assert_eq!(on(vec![b'x'; length]), "no=2\n", "{length}");
        // what would be right up to there
        let mut input = WORKED.to_vec();
        input.resize(length, b'\n');
        assert_eq!(on(&input), "no=2\n", "{length}");
    }
}

/// Input that comes in pieces is read to its end.
#[test]
fn input_in_pieces() {
    let right = longest().text();
    let long = filled(MAX_INPUT + 1, "1 ");
    for (input, piece) in [(WORKED, 1), (&right, 700), (&right, 4096), (&long, 5000)] {
        let output = feed(plain(&built("doors")), |stdin| {
            for part in input.chunks(piece) {
                stdin.write_all(part)?;
                stdin.flush()?;
                std::thread::sleep(Duration::from_millis(2));
            }
            Ok(())
        });
        assert_eq!(of_output(output), doors::run(input), "pieces of {piece}");
    }
}

/// The stack that the program needs on the longest inputs, right and not, each then in twice that.
#[test]
fn twice_the_stack_that_is_needed() {
    let program = built("doors");
    for (name, input) in [
        ("the longest lists", longest().text()),
        ("far too many marks", filled(MAX_INPUT, "1 ")),
        ("too long", filled(MAX_INPUT + 1, "1 ")),
    ] {
        let ends = |stack| run(limited_still(stack, &program), &input).status.success();
        let need = least_stack(1024, ends);
        println!("{name}: {need} KB");
        assert!(
            need <= said::DOORS_PROGRAM + said::ALLOWED,
            "{name}: {need} KB"
        );
        let output = run(limited_to(2 * need, &program), &input);
        assert_eq!(of_output(output), doors::run(&input), "{name}");
    }
}
