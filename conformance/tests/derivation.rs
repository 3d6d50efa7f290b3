//! Sub, Sup and Closed in the proved core against the reference: answer, number, counts and every byte of the types below the
//! count; what is refused leaves every byte as it was.

use conformance::chains::{self, chain, nesting, MOST};
use conformance::inputs::shares;
use conformance::tiny_first::{self, Input};
use conformance::{counts, derive, layout, Asked, Counts};
use reference::check;
use reference::entry;
use reference::random::Random;
use reference::raw::{self, RawTable, TYPE_BYTES};
use reference::relations::{Relation, Relations};
use reference::sheet;
use reference::table::{Table, MAX_TYPES};

/// What stands in the lent number before.
const MARK: usize = 0xa5a5_a5a5_a5a5;

/// What the derivations of a test met.
#[derive(Default, Debug)]
struct Seen {
    /// Accepted with new types, and with more than 20.
    new: u32,
    many: u32,
    /// Accepted without a new type: a known one, or one of the two.
    known: u32,
    side: u32,
    /// New types whose signatures name a type that was derived for an earlier request.
    inner: u32,
    /// Refused.
    unfit: u32,
    unknown: u32,
    full: u32,
}

impl Seen {
    fn note(
        &mut self,
        before: &RawTable,
        asked: Asked,
        result: Result<usize, u32>,
        after: &RawTable,
    ) {
        match result {
            Err(2) => self.unfit += 1,
            Err(7) => self.unknown += 1,
            Err(11) => self.full += 1,
            Err(other) => panic!("refused with {other}"),
            Ok(number) if after.types == before.types => {
                let side = [asked.t, asked.s].contains(&(number as i64));
                *(if side {
                    &mut self.side
                } else {
                    &mut self.known
                }) += 1;
            }
            Ok(_) => {
                self.new += 1;
                self.many += u32::from(after.types > before.types + 20);
                self.inner += names_earlier(before, after);
            }
        }
    }
}

/// How many of the new types name a derived type that was there before.
fn names_earlier(before: &RawTable, after: &RawTable) -> u32 {
    let earlier = before.sheet_types as usize..before.types as usize;
    let names = |number: usize| {
        (0..after.methods as usize).any(|method| {
            let bytes = after.method(number, method);
            let signature = raw::signature(bytes);
            let mut named = signature.arguments.iter().chain(&signature.answer);
            matches!(bytes[0], 1 | 2) && named.any(|one| earlier.contains(one))
        })
    };
    (before.types as usize..after.types as usize)
        .filter(|number| names(*number))
        .count() as u32
}

/// What is wrong with the proved core's derivation, whose answer the reference gives as `result` and `after`.
fn fault(
    before: &RawTable,
    asked: Asked,
    result: Result<usize, u32>,
    after: &RawTable,
) -> Option<String> {
    let mut theirs = before.clone();
    let (mut counts, mut stored) = (counts(before), MARK);
    let code = derive(&mut theirs, &mut counts, asked, &mut stored);
    let wanted = result.map_or_else(|refusal| refusal as usize, |_| 0);
    if code != wanted {
        return Some(format!("answers {code}, not {wanted}"));
    }
    let Ok(number) = result else {
        let kept = theirs == *before && counts == conformance::counts(before) && stored == MARK;
        return (!kept).then(|| format!("refuses with {code} and changes something"));
    };
    if (stored, counts) != (number, conformance::counts(after)) {
        return Some(format!("stores {stored} and {counts:?}"));
    }
    theirs.types = after.types;
    let (first, counted) = (before.types as usize, after.types as usize * TYPE_BYTES);
    let earlier = first * TYPE_BYTES;
    if theirs.type_bytes[..earlier] != before.type_bytes[..earlier] {
        return Some("changes a type that was there before".to_string());
    }
    if let Some(at) = (earlier..counted).find(|at| theirs.type_bytes[*at] != after.type_bytes[*at])
    {
        let (number, place) = (at / TYPE_BYTES, at % TYPE_BYTES);
        let (theirs, ours) = (theirs.entry(number), after.entry(number));
        return Some(format!(
            "differs at type {number} byte {place}: {theirs:?} for {ours:?}"
        ));
    }
    // a table handed in may have become one that the check refuses
    let table = check::table(after).ok()?;
    (first..table.types.len())
        .find(|new| layout::stored(&layout::type_record(&table, *new)) != theirs.entry(*new))
        .map(|new| format!("type {new} is {:?}", theirs.entry(new)))
}

/// One derivation on a table, which becomes what the reference makes of it; gives the reference's answer.
fn same(table: &mut RawTable, asked: Asked, seen: &mut Seen, from: &str) -> Result<usize, u32> {
    let before = table.clone();
    let result = entry::derive(table, asked.kind, asked.t, asked.s);
    if let Some(fault) = fault(&before, asked, result, table) {
        panic!("{from}: {asked:?} {fault}\non\n{before:?}");
    }
    seen.note(&before, asked, result, table);
    result
}

/// A derivation of types of the table; often one that was asked before, sometimes one that names nothing.
fn any(random: &mut Random, table: &RawTable, asked: &mut Vec<Asked>) -> Asked {
    if !asked.is_empty() && random.chance(25) {
        return *random.pick(asked);
    }
    if random.chance(6) {
        return odd(random, i64::from(table.types));
    }
    let types = (table.types as usize).clamp(1, MAX_TYPES);
    let sheet = (table.sheet_types as usize).clamp(1, MAX_TYPES);
    let below = if random.chance(70) { sheet } else { types };
    asked.push(Asked {
        kind: random.below(3),
        t: random.below(below) as i64,
        s: random.below(below) as i64,
    });
    asked[asked.len() - 1]
}

/// Derivations one after another on the same table, so that known types are used again, until some meet a full table.
fn sequence(table: &mut RawTable, steps: usize, random: &mut Random, seen: &mut Seen, from: &str) {
    let mut asked = Vec::new();
    for _ in 0..steps {
        let one = any(random, table, &mut asked);
        let _ = same(table, one, seen, from);
    }
}

/// Pairs of different ref types of a sheet where loose holds: what a crossing asks for (D20).
fn crossing_pairs(table: &Table) -> Vec<(usize, usize)> {
    let relations = Relations::of(table);
    let types = 0..table.sheet_types;
    types
        .clone()
        .flat_map(|t| types.clone().map(move |s| (t, s)))
        .filter(|(t, s)| t != s && table.types[*t].is_ref())
        .filter(|(t, s)| relations.holds(Relation::Loose, *t, *s))
        .collect()
}

/// Derivations that crossings ask for, one after another on each sheet: Sub and Sup of such a pair, and Closed of Sub and a side.
#[test]
fn on_pairs_that_cross() {
    let mut seen = Seen::default();
    for Input { from, seed, of } in tiny_first::tables(shares(1500, 500, 60, 60)) {
        let mut random = Random::new(seed ^ 0xde44_0000);
        let pairs = crossing_pairs(&of);
        let mut table = RawTable::of(&of);
        for _ in 0..pairs.len().min(8) {
            let (t, s) = *random.pick(&pairs);
            let mut ask = |kind: usize, t: usize, s: usize| {
                let (t, s) = (t as i64, s as i64);
                same(&mut table, Asked { kind, t, s }, &mut seen, &from)
            };
            let r = ask(0, t, s);
            let _ = ask(1, t, s);
            if let Ok(r) = r {
                let _ = ask(2, r, s);
            }
        }
    }
    println!("{seen:?}");
    assert!(seen.new > 8000 && seen.many > 30 && seen.known > 5000 && seen.inner > 2000);
    assert!(seen.full > 50);
    assert_eq!([seen.unfit, seen.unknown], [0, 0]);
}

#[test]
fn on_generated_sheets() {
    let mut seen = Seen::default();
    for Input { from, seed, of } in tiny_first::tables(shares(1500, 500, 100, 100)) {
        let mut random = Random::new(seed ^ 0xde41_0000);
        let mut table = RawTable::of(&of);
        sequence(&mut table, 24, &mut random, &mut seen, &from);
    }
    println!("{seen:?}");
    assert!(seen.new > 10_000 && seen.many > 300);
    assert!(seen.known > 2000 && seen.side > 1000 && seen.inner > 5000);
    assert!(seen.full > 1000 && seen.unknown > 100);
    assert_eq!(seen.unfit, 0);
}

#[test]
fn on_tables_handed_in() {
    let mut seen = Seen::default();
    for Input { from, seed, of } in tiny_first::states(0..4000) {
        let mut random = Random::new(seed ^ 0xde42_0000);
        let mut table = of.state.table;
        sequence(&mut table, 6, &mut random, &mut seen, &from);
    }
    println!("{seen:?}");
    assert!(seen.new > 3000 && seen.many > 100 && seen.known > 500 && seen.side > 500);
    assert!(seen.unfit > 3000 && seen.unknown > 100 && seen.full > 500);
}

/// Sheets and types derived from them, with any bytes where they mean nothing: none of those is changed below the count, and none
/// gets into a new record.
#[test]
fn on_tables_with_noise() {
    let mut seen = Seen::default();
    for Input { from, seed, of } in tiny_first::tables(shares(600, 300, 60, 60)) {
        let mut random = Random::new(seed ^ 0xde45_0000);
        let from = format!("{from} with noise");
        let mut raw = RawTable::of(&of);
        sequence(&mut raw, 4, &mut random, &mut Seen::default(), &from);
        let mut raw = layout::noisy(&check::table(&raw).unwrap(), &mut random);
        sequence(&mut raw, 12, &mut random, &mut seen, &from);
    }
    println!("{seen:?}");
    assert!(seen.new > 2000 && seen.many > 50 && seen.known > 500 && seen.full > 200);
    assert_eq!(seen.unfit, 0);
}

/// Tables with one byte or count other than it was, some of them right all the same.
#[test]
fn on_damaged_tables() {
    let mut seen = Seen::default();
    for Input { from, seed, of } in tiny_first::tables(shares(2000, 2000, 0, 0)) {
        let mut random = Random::new(seed ^ 0xde43_0000);
        let mut table = RawTable::of(&of);
        let from = format!("damaged {from}");
        sequence(&mut table, 3, &mut random, &mut Seen::default(), &from);
        damage(&mut random, &mut table);
        sequence(&mut table, 4, &mut random, &mut seen, &from);
    }
    println!("{seen:?}");
    assert!(seen.unfit > 2000 && seen.new > 2000 && seen.known > 300);
}

fn damage(random: &mut Random, table: &mut RawTable) {
    let count = *random.pick(&[0, 1, 2, 16, 17, 31, 32, 48, 49, 127, 128, 129]);
    match random.below(12) {
        0 => table.subjects = count,
        1 => table.methods = count,
        2 => table.categories = count,
        3 => table.sheet_types = count,
        4 => table.types = count,
        5 => table.broader[random.below(96)] = random.below(5) as u8,
        _ => {
            let number = random.below(table.types as usize);
            let methods = table.methods as usize;
            let at = random.below(16 + methods * 7);
            table.entry_mut(number)[at] = *random.pick(&[0, 1, 2, 3, 4, 9, 127, 128, 255]);
        }
    }
}

/// Kinds that name nothing, some of them right in their low bits.
const ODD_KINDS: [usize; 6] = [3, 255, 256, 1 << 32, 1 << 63, usize::MAX];

/// Numbers at the ends of a table of n types and far outside, some of them right in their low bits.
fn odd_numbers(n: i64) -> [i64; 12] {
    let wide = 1 << 32;
    [
        i64::MIN,
        -1,
        0,
        n - 1,
        n,
        n + 1,
        128,
        255,
        256,
        wide,
        wide + 1,
        i64::MAX,
    ]
}

fn odd(random: &mut Random, n: i64) -> Asked {
    let numbers = odd_numbers(n);
    Asked {
        kind: *random.pick(&[&[0, 1, 2], &ODD_KINDS[..]].concat()),
        t: *random.pick(&numbers),
        s: *random.pick(&numbers),
    }
}

#[test]
fn kinds_and_numbers_that_name_nothing() {
    let mut seen = Seen::default();
    for Input { from, of, .. } in tiny_first::tables(shares(12, 4, 1, 1)) {
        let mut table = RawTable::of(&of);
        let numbers = odd_numbers(i64::from(table.types));
        for kind in [0, 1, 2].into_iter().chain(ODD_KINDS) {
            for (t, s) in numbers.iter().flat_map(|t| numbers.map(|s| (*t, s))) {
                let _ = same(&mut table, Asked { kind, t, s }, &mut seen, &from);
            }
        }
    }
    println!("{seen:?}");
    assert!(seen.unknown > 20_000 && seen.new >= 10 && seen.side > 50);
    assert_eq!(seen.unfit, 0);
}

/// A count that is right only in its low 32 bits, or as large as can be, is outside its limits: 2 before all else.
#[test]
fn wide_counts() {
    for Input { from, of, .. } in tiny_first::tables(shares(1, 0, 0, 0)) {
        let table = RawTable::of(&of);
        let answer = |counts: Counts, kind: usize| {
            let (mut theirs, mut now, mut stored) = (table.clone(), counts, MARK);
            let asked = Asked { kind, t: 0, s: 0 };
            let code = derive(&mut theirs, &mut now, asked, &mut stored);
            (code, theirs == table && now == counts && stored == MARK)
        };
        assert_eq!(answer(counts(&table), 0), (0, false), "{from}");
        assert_eq!(answer(counts(&table), 3), (7, true), "{from}");
        for place in 0..5 {
            for wide in [counts(&table)[place] + (1 << 32), usize::MAX, 1 << 63] {
                let mut counts = counts(&table);
                counts[place] = wide;
                assert_eq!(answer(counts, 0), (2, true), "{from} {counts:?}");
                assert_eq!(answer(counts, 3), (2, true), "{from} {counts:?}");
            }
        }
    }
}

/// The first bytes of a type, as far as they count in a table of so many methods.
fn entry(table: &RawTable, number: usize) -> (&[u8], Vec<&[u8]>) {
    let methods = (0..table.methods as usize).map(|method| table.method(number, method));
    (&table.entry(number)[..6], methods.collect())
}

/// Derives in the proved core and takes in the count.
fn proved(table: &mut RawTable, kind: usize, t: i64, s: i64) -> (usize, usize) {
    let (mut counts, mut number) = (counts(table), MARK);
    let code = derive(table, &mut counts, Asked { kind, t, s }, &mut number);
    table.types = counts[4] as u32;
    (code, number)
}

/// Worked out by hand. Case P's third request: Sub(3,2) is type 6, and Closed(6,1) type 7.
#[test]
fn case_p_by_hand() {
    let text = include_bytes!("../../examples/case-p.sheet");
    let mut table = RawTable::of(&sheet::read(text).unwrap());
    for _ in 0..2 {
        assert_eq!(proved(&mut table, 0, 3, 2), (0, 6));
        assert_eq!(proved(&mut table, 2, 6, 1), (0, 7));
        assert_eq!(table.types, 8);
    }
    let (head, methods) = entry(&table, 6);
    assert_eq!(head, [0, 0, 0, 0, 3, 2]);
    assert_eq!(methods[0], [2, 0, 0, 0, 0, 0, 1]);
    assert_eq!([methods[1][0], methods[2][0]], [3, 0]);
    let (head, methods) = entry(&table, 7);
    assert_eq!(head, [0, 0, 0, 2, 6, 1]);
    assert_eq!(methods[0], [2, 0, 0, 0, 0, 0, 1]);
    assert_eq!([methods[1][0], methods[2][0]], [3, 3]);
}

/// Worked out by hand: arguments go the other way than answers, numbers are taken before signatures are derived, and Sup uses
/// again what Sub has derived.
#[test]
fn nested_by_hand() {
    let text = b"guide=1\nsubjects=1\nmethods=1\ncats=1\nunder=0\ntypes=4\n\
        type=0\nrep=ref\ncat=0\nown=no\nm=avail(2)3\n\
        type=1\nrep=ref\ncat=0\nown=no\nm=avail(3)2\n\
        type=2\nrep=ref\ncat=1\nown=no\nm=optional()-\n\
        type=3\nrep=ref\ncat=0\nown=no\nm=avail()-\n\
        end=sheet\n";
    let mut table = RawTable::of(&sheet::read(text).unwrap());
    // Sub(0,1): argument Sup(3,2), then answer Sub(3,2)
    assert_eq!(proved(&mut table, 0, 0, 1), (0, 4));
    assert_eq!(table.types, 7);
    // Sup(0,1): argument Sub(3,2), answer Sup(3,2)
    assert_eq!(proved(&mut table, 1, 0, 1), (0, 7));
    assert_eq!(table.types, 8);
    let expected: [([u8; 6], [u8; 7]); 4] = [
        ([0, 0, 0, 0, 0, 1], [2, 1, 5, 0, 0, 0, 7]),
        ([0, 1, 0, 1, 3, 2], [1, 0, 0, 0, 0, 0, 0]),
        ([0, 0, 0, 0, 3, 2], [2, 0, 0, 0, 0, 0, 0]),
        ([0, 0, 0, 1, 0, 1], [2, 1, 6, 0, 0, 0, 6]),
    ];
    for (index, (head, method)) in expected.iter().enumerate() {
        assert_eq!(entry(&table, 4 + index), (&head[..], vec![&method[..]]));
    }
}

/// A derivation by kind, T and S.
type Derive = fn(&mut RawTable, usize, i64, i64) -> (usize, usize);

/// Derives in the reference, answered as the core is.
fn ours(table: &mut RawTable, kind: usize, t: i64, s: i64) -> (usize, usize) {
    match entry::derive(table, kind, t, s) {
        Ok(number) => (0, number),
        Err(number) => (number as usize, MARK),
    }
}

/// Worked out by hand: each of four arguments leads to another type, in its own slot.
#[test]
fn four_arguments_by_hand() {
    let text = b"guide=1\nsubjects=1\nmethods=1\ncats=1\nunder=0\ntypes=5\n\
        type=0\nrep=ref\ncat=0\nown=no\nm=avail(2,3,2,4)3\n\
        type=1\nrep=ref\ncat=0\nown=no\nm=avail(3,2,4,2)2\n\
        type=2\nrep=ref\ncat=1\nown=no\nm=optional()-\n\
        type=3\nrep=ref\ncat=0\nown=no\nm=avail()-\n\
        type=4\nrep=ref\ncat=0\nown=no\nm=unavail\n\
        end=sheet\n";
    let expected: [([u8; 6], [u8; 7]); 10] = [
        // Sub(0,1): Sup(3,2), Sup(2,3), Sup(4,2), Sup(2,4), and the answer Sub(3,2)
        ([0, 0, 0, 0, 0, 1], [2, 4, 6, 7, 8, 9, 11]),
        ([0, 1, 0, 1, 3, 2], [1, 0, 0, 0, 0, 0, 0]),
        ([0, 0, 0, 1, 2, 3], [2, 0, 0, 0, 0, 0, 0]),
        ([0, 1, 0, 1, 4, 2], [0, 0, 0, 0, 0, 0, 0]),
        ([0, 0, 0, 1, 2, 4], [3, 0, 0, 0, 0, 0, 0]),
        ([0, 0, 0, 0, 3, 2], [2, 0, 0, 0, 0, 0, 0]),
        // Sup(0,1): Sub(3,2) again, Sub(2,3), Sub(4,2), Sub(2,4), and the answer Sup(3,2) again
        ([0, 0, 0, 1, 0, 1], [2, 4, 10, 12, 13, 14, 7]),
        ([0, 1, 0, 0, 2, 3], [1, 0, 0, 0, 0, 0, 0]),
        ([0, 0, 0, 0, 4, 2], [3, 0, 0, 0, 0, 0, 0]),
        ([0, 1, 0, 0, 2, 4], [3, 0, 0, 0, 0, 0, 0]),
    ];
    let both: [(&str, Derive); 2] = [("reference", ours), ("core", proved)];
    for (name, by) in both {
        let mut table = RawTable::of(&sheet::read(text).unwrap());
        assert_eq!(by(&mut table, 0, 0, 1), (0, 5), "{name}");
        assert_eq!(by(&mut table, 1, 0, 1), (0, 11), "{name}");
        assert_eq!(table.types, 15, "{name}");
        for (index, (head, method)) in expected.iter().enumerate() {
            assert_eq!(entry(&table, 5 + index), (&head[..], vec![&method[..]]));
        }
    }
}

/// Chains of types that name one another: one derivation fills the table to 128 exactly, or is refused at its very end.
#[test]
fn chains_fill_the_table() {
    let mut seen = Seen::default();
    let (kind, t, s) = chains::START;
    let mut nested = Vec::new();
    for seed in 0..100 {
        let mut table = chain(MOST - 113, seed);
        let mut ask = |table: &mut RawTable, s: i64| {
            let asked = Asked { kind, t, s };
            let _ = same(table, asked, &mut seen, &format!("chain seed {seed}"));
        };
        ask(&mut table, s);
        assert_eq!(table.types as usize, MAX_TYPES, "chain seed {seed}");
        nested.push(nesting(&table, 9));
        let mut longer = chain(MOST - 112, seed);
        ask(&mut longer, s);
        // the full table has room for what is known only
        ask(&mut table, s);
        ask(&mut table, 7);
    }
    nested.sort();
    println!("{seen:?}, nested {nested:?}");
    assert_eq!(
        [seen.new, seen.many, seen.known, seen.full],
        [100, 100, 100, 200]
    );
    assert!(nested[99] == MOST && nested[0] > 90);
}
