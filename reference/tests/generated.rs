//! Generated inputs: demand 3, coverage, and facts that hold of every model. The tiny sheets come
//! first in each test (02 k).

use reference::chains::{first_difference, All};
use reference::check::{self, Reason, REASONS};
use reference::demand;
use reference::entry;
use reference::generators::{self, tiny_first, Profile, PROFILES};
use reference::hostile;
use reference::model::Model;
use reference::random::Random;
use reference::raw::{RawState, RawTable};
use reference::refusal::Refusal;
use reference::relations::{Relation, Relations, ALL, RELATIONS};
use reference::report::{self, line_kind};
use reference::script;
use reference::sheet;
use reference::table::{Kind, MethodState, Table, Type, MAX_ARGUMENTS};
use reference::tiny;
use std::collections::BTreeMap;
use std::ops::Range;

/// Demand 3, and book and state agreeing in every type and adapter.
fn demand_3(profile: Profile, seeds: Range<u64>) {
    for (name, input) in tiny_first(profile, seeds) {
        let (_, found) = demand::run(&input);
        assert_eq!(found, Ok(()), "{name}");
    }
}

#[test]
fn demand_3_on_small_inputs() {
    demand_3(Profile::Small, 0..6000);
}

#[test]
fn demand_3_on_medium_inputs() {
    demand_3(Profile::Medium, 0..2000);
}

#[test]
fn demand_3_on_big_full_and_long_inputs() {
    demand_3(Profile::Big, 0..150);
    demand_3(Profile::Full, 0..100);
    demand_3(Profile::Long, 0..300);
}

/// Inputs of a long run: REFERENCE_LONG in the environment, or two millions.
fn long() -> u64 {
    std::env::var("REFERENCE_LONG")
        .ok()
        .and_then(|text| text.parse().ok())
        .unwrap_or(2_000_000)
}

#[test]
#[ignore = "millions of inputs"]
fn demand_3_at_length() {
    let count = long();
    demand_3(Profile::Small, 0..count);
    demand_3(Profile::Medium, 0..count / 10);
    demand_3(Profile::Big, 0..count / 200);
    demand_3(Profile::Full, 0..count / 200);
    demand_3(Profile::Long, 0..count / 200);
}

/// Each number 1 to 18 from sheets and scripts, 19 on handed-in states, 22 on
/// lists of times, each reason of 2 and of 22, each situation.
#[test]
fn coverage_is_whole() {
    let report = report::collect(0..150);
    assert_eq!(report.broken, []);
    assert_eq!(report.missing(), Vec::<String>::new(), "{}", report.text());
    assert_eq!(report.scripts.number(19), 0);
    for (number, least) in [
        (9, 20),
        (10, 200),
        (11, 50),
        (12, 50),
        (13, 50),
        (16, 50),
        (18, 50),
    ] {
        assert!(report.scripts.number(number) >= least, "{number}");
    }
    assert!(report.requests.number(19) >= 20);
    for (seen, least) in [(&report.scripts, 1000), (&report.requests, 30)] {
        let calls = seen.accepted["call"];
        for counts in [&seen.arguments, &seen.references] {
            assert_eq!(counts.values().sum::<u64>(), calls);
            assert!(counts.keys().all(|many| *many <= MAX_ARGUMENTS));
            for many in MAX_ARGUMENTS - 1..=MAX_ARGUMENTS {
                assert!(counts[&many] >= least, "{many}\n{}", report.text());
            }
        }
        let of = |counts: &BTreeMap<usize, u64>| {
            counts
                .iter()
                .map(|(many, count)| *many as u64 * count)
                .sum::<u64>()
        };
        assert!(of(&seen.references) < of(&seen.arguments));
    }
}

#[test]
fn generated_inputs_keep_their_limits() {
    for profile in PROFILES {
        let right = profile != Profile::Damaged;
        for (name, input) in tiny_first(profile, 0..40).filter(|_| right) {
            assert!(input.len() <= script::MAX_INPUT);
            let run = script::run_whole(&input);
            assert!(run.model.is_some(), "{name}");
            let lines = run.output.iter().filter(|byte| **byte == b'\n').count();
            assert_eq!(lines, run.requests.len());
        }
    }
}

fn tables(count: u64) -> impl Iterator<Item = Table> {
    let generated = (0..count).map(|seed| {
        let plan = if seed % 4 == 0 {
            generators::BIG
        } else {
            generators::MEDIUM
        };
        generators::table(&mut Random::new(seed), &plan)
    });
    tiny::tables().into_iter().chain(generated)
}

#[test]
fn what_is_written_reads_back() {
    for table in tables(400) {
        let text = sheet::text(&table);
        assert_eq!(sheet::read(&text), Ok(table.clone()));
        let raw = RawTable::of(&table);
        assert_eq!(entry::read(&text), (raw.clone(), Ok(())));
        assert_eq!(check::table(&raw), Ok(table));
    }
}

#[test]
fn the_buffer_behind_and_a_short_one_stay() {
    for table in tables(60) {
        let raw = RawTable::of(&table);
        writes(&sheet::text(&table), |buffer| entry::write(&raw, buffer));
    }
    writes(&tiny::printed(), tiny::write);
}

/// W2 to W4, P26.
fn writes(text: &[u8], write: impl Fn(&mut [u8]) -> Result<usize, Refusal>) {
    for length in [0, 1, text.len() / 2, text.len() - 1] {
        let mut buffer = vec![170; length];
        assert_eq!(write(&mut buffer), Err(4));
        assert!(buffer.iter().all(|byte| *byte == 170));
    }
    for length in [text.len(), text.len() + 1, text.len() + 999] {
        let mut buffer = vec![170; length];
        assert_eq!(write(&mut buffer), Ok(text.len()));
        assert_eq!(buffer[..text.len()], text[..]);
        assert!(buffer[text.len()..].iter().all(|byte| *byte == 170));
    }
}

/// Reading is right or refused, whatever the bytes; what reads is written back
/// as it was.
#[test]
fn damaged_sheets() {
    for (_, input) in tiny_first(Profile::Damaged, 0..3000) {
        let (text, _) = script::split(&input);
        match sheet::read(text) {
            Ok(table) => assert_eq!(sheet::text(&table), text),
            Err((number, offset)) => {
                assert!((1..=3).contains(&number));
                assert!(offset <= text.len());
                assert!(offset == 0 || text[offset - 1] == b'\n');
                assert_eq!(entry::read(text).0, RawTable::default());
            }
        }
    }
}

/// Every kind of line is met with every number it can be refused with.
#[test]
fn damaged_lines_cover_the_reader() {
    let mut met = std::collections::BTreeSet::new();
    for (_, input) in tiny_first(Profile::Damaged, 0..6_000) {
        let (text, _) = script::split(&input);
        if let Err((number, offset)) = sheet::read(text) {
            met.insert((number, line_kind(&text[offset..])));
        }
    }
    let numbered = [
        "guide", "subjects", "methods", "cats", "under", "types", "type", "cat", "m",
    ];
    for kind in numbered {
        assert!(met.contains(&(2, kind.to_string())), "2 at {kind}");
    }
    for kind in numbered.into_iter().chain(["rep", "own", "end"]) {
        assert!(met.contains(&(1, kind.to_string())), "1 at {kind}");
    }
    for kind in ["a line without LF", "another line", "the end"] {
        assert!(met.contains(&(1, kind.to_string())), "1 at {kind}");
    }
    for kind in ["under", "end"] {
        assert!(met.contains(&(3, kind.to_string())), "3 at {kind}");
    }
}

/// What runs lead to, each with its name.
fn models(seeds: Range<u64>) -> impl Iterator<Item = (String, Model)> {
    tiny_first(Profile::Medium, seeds)
        .map(|(name, input)| (name, script::run_whole(&input).model.unwrap()))
}

/// Their tables, with derived types.
fn grown(seeds: Range<u64>) -> impl Iterator<Item = (String, Table)> {
    models(seeds).map(|(name, model)| (name, model.state.table))
}

#[test]
fn relations_follow_from_one_another() {
    for (name, table) in grown(0..200) {
        let relations = Relations::of(&table);
        let count = table.types.len();
        for t in 0..count {
            assert!(relations.holds(Relation::Subtype, t, t));
            for s in 0..count {
                let answers = RELATIONS.map(|relation| relations.holds(relation, t, s));
                let follow = answers.windows(2).all(|two| !two[0] || two[1]);
                assert!(follow, "{name}: {t} {s}");
                if answers[0] {
                    for u in 0..count {
                        let above = relations.holds(Relation::Subtype, u, t);
                        assert!(!above || relations.holds(Relation::Subtype, u, s));
                    }
                }
            }
        }
    }
}

/// The relations taken in step by step are those of the whole table.
#[test]
fn relations_grow_with_the_table() {
    for (_, model) in models(0..200) {
        let fresh = Relations::of(&model.state.table);
        let count = model.state.table.types.len();
        for relation in ALL {
            for t in 0..count {
                for s in 0..count {
                    assert_eq!(fresh.holds(relation, t, s), model.holds(relation, t, s));
                }
            }
        }
    }
}

/// The relations once more, by another way: assume a pair, follow its rules,
/// and refute it if a broken rule is reached.
#[test]
fn relations_by_refutation() {
    let grown = grown(0..24).map(|(_, table)| table);
    for table in tables(24).chain(grown) {
        let relations = Relations::of(&table);
        for relation in ALL {
            for t in 0..table.types.len() {
                for s in 0..table.types.len() {
                    let holds = not_refuted(&table, relation, t, s);
                    assert_eq!(
                        relations.holds(relation, t, s),
                        holds,
                        "{relation:?} {t} {s}"
                    );
                }
            }
        }
    }
}

fn not_refuted(table: &Table, relation: Relation, t: usize, s: usize) -> bool {
    let mut assumed = vec![(t, s)];
    let mut at = 0;
    while at < assumed.len() {
        let (t, s) = assumed[at];
        at += 1;
        let (t, s) = (&table.types[t], &table.types[s]);
        if !heads_keep(table, relation, t, s) {
            return false;
        }
        for (of_t, of_s) in t.methods.iter().zip(&s.methods) {
            let Some(next) = led_to(relation, of_t, of_s) else {
                return false;
            };
            let new: Vec<_> = next.filter(|pair| !assumed.contains(pair)).collect();
            assumed.extend(new);
        }
    }
    true
}

/// What a relation asks of two types but for their methods (R8 to R12).
fn heads_keep(table: &Table, relation: Relation, t: &Type, s: &Type) -> bool {
    let category = table.category_le(t.category, s.category);
    let same = t.representation == s.representation;
    match relation {
        Relation::Subtype => same && category && (!t.own || s.own),
        Relation::SubtypeOwnAside => same && category,
        Relation::Strict => t.is_ref() == s.is_ref() && category,
        Relation::Loose | Relation::Free => t.is_ref() == s.is_ref(),
    }
}

/// The pairs that two states of a method lead to; none if they refute (R4 to R7).
fn led_to<'a>(
    relation: Relation,
    t: &'a MethodState,
    s: &'a MethodState,
) -> Option<impl Iterator<Item = (usize, usize)> + 'a> {
    // 0 denied, 1 optional, 2 avail, 3 unavail
    let code = |state: &MethodState| match state {
        MethodState::Denied => 0,
        MethodState::Optional(_) => 1,
        MethodState::Avail(_) => 2,
        MethodState::Unavail => 3,
    };
    let (a, b) = (code(t), code(s));
    let kept = match relation {
        Relation::Subtype | Relation::SubtypeOwnAside => a == 0 || a == b || (a == 1 && b != 0),
        Relation::Strict => a != 2 || b == 2,
        Relation::Loose => a != 2 || b == 1 || b == 2,
        Relation::Free => true,
    };
    let both = t.signature().zip(s.signature());
    let alike = both.is_none_or(|(t, s)| {
        t.arguments.len() == s.arguments.len() && t.answer.is_some() == s.answer.is_some()
    });
    let pairs = both.into_iter().flat_map(|(t, s)| {
        let arguments = s.arguments.iter().zip(&t.arguments);
        arguments.chain(t.answer.iter().zip(&s.answer))
    });
    (kept && alike).then(|| pairs.map(|(t, s)| (*t, *s)))
}

/// A derived type permits the chains that both its operands permit and no
/// other, and has the category of D1, D3 or D7.
#[test]
fn derived_types_permit_what_both_permit() {
    for (name, table) in grown(0..400) {
        for (index, key) in table.keys.iter().enumerate() {
            let number = table.sheet_types + index;
            let derived = All {
                table: &table,
                types: &[number],
            };
            let both = All {
                table: &table,
                types: &[key.left, key.right],
            };
            assert_eq!(first_difference(derived, both), None, "{name}: {number}");
            let from = match key.kind {
                Kind::Sub | Kind::Closed => key.left,
                Kind::Sup => key.right,
            };
            assert_eq!(table.types[number].category, table.types[from].category);
            assert!(!table.types[number].own);
            assert!(key.kind != Kind::Closed || table.types[number].is_class());
        }
    }
}

/// What demand 3 rests on: a cell's type has the type of its place below it,
/// own aside (R12).
#[test]
fn a_place_type_is_a_subtype_of_the_cell_type() {
    for (_, model) in models(0..500) {
        for cell in &model.state.cells {
            let place_type = model.state.place_type(cell.place);
            let relation = Relation::SubtypeOwnAside;
            assert!(model.holds(relation, cell.type_, place_type));
        }
    }
}

/// On handed-in states: a refusal leaves every byte, an acceptance leaves the
/// earlier records, and noise in bytes without meaning changes nothing.
#[test]
fn handed_in_states() {
    let generated = (0..1500).map(hostile::generate);
    let states = hostile::on_tiny(0).into_iter().chain(generated);
    for (number, hostile) in states.enumerate() {
        let mut state = hostile.state.clone();
        let plain = check::state(&hostile.state).ok();
        let mut plain = plain.map(|state| RawState::of(&state));
        for request in &hostile.requests {
            let before = state.clone();
            let result = entry::request(&mut state, request);
            if let Some(plain) = &mut plain {
                assert_eq!(entry::request(plain, request), result, "{number}");
                assert_eq!(check::state(plain), check::state(&state), "{number}");
            } else {
                assert_eq!(result, Err(2));
            }
            match result {
                Err(_) => assert!(state == before, "{number}"),
                Ok(_) => assert_earlier_records_stay(&before, &state),
            }
        }
    }
}

fn assert_earlier_records_stay(before: &RawState, after: &RawState) {
    for number in 0..before.table.types as usize {
        assert_eq!(before.table.entry(number), after.table.entry(number));
    }
    for number in 0..before.cells as usize {
        assert_eq!(before.cell(number), after.cell(number));
    }
    for number in 0..before.places as usize {
        assert_eq!(before.place(number), after.place(number));
    }
    let answered = (0..before.calls as usize)
        .filter(|number| before.call(*number) != after.call(*number))
        .count();
    assert!(answered <= 1);
    // a known derived type is believed, own too, and may come to stand in a signature (H14, Q19)
    let left = check::state(after).err();
    assert!(
        matches!(left, None | Some(Reason::OwnInSignature)),
        "{left:?}"
    );
}

/// Each way to break a state gives the reason it aims at, for some state.
#[test]
fn each_reason_is_met_alone() {
    for reason in REASONS {
        let met = (0..).zip(models(0..400)).any(|(seed, (_, model))| {
            let mut random = Random::new(seed);
            let mut raw = RawState::of(&model.state);
            assert_eq!(check::state(&raw), Ok(model.state));
            hostile::break_one(&mut random, &mut raw, reason);
            check::state(&raw) == Err(reason)
        });
        assert!(met, "{reason:?}");
    }
}

#[test]
#[ignore = "a hundred thousand states"]
fn handed_in_states_at_length() {
    let report = report::collect(0..long() / 200);
    assert_eq!(report.broken, []);
    assert_eq!(report.missing(), Vec::<String>::new());
    print!("{}", report.text());
}
