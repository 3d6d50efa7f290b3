//! Where a relation fails, desk names a rule that is broken: exactly where the core says no, and what it says of the types is so.

use crate::files::{accepted, no, with_file, SHEET};
use conformance::tiny_first;
use desk::reasons::{Broken, Part, Reason, Reasons, Relation, Says};
use desk::scripts::requests::split;
use pilgonca::{Comparison, Sheet, Type};
use reference::generators::{Profile, PROFILES};
use reference::relations::{self, state_le, Relations};
use reference::table::{MethodState, Table};
use std::collections::BTreeMap;

const RELATIONS: [Relation; 4] = [
    Relation::Subtype,
    Relation::Strict,
    Relation::Loose,
    Relation::Free,
];

fn answer(answers: &Comparison, relation: Relation) -> bool {
    match relation {
        Relation::Subtype => answers.subtype,
        Relation::Strict => answers.strict,
        Relation::Loose => answers.loose,
        Relation::Free => answers.free,
        Relation::SubtypeOwnAside => panic!("Compare does not answer it"),
    }
}

fn said(state: &MethodState) -> Says {
    match state {
        MethodState::Denied => Says::Denied,
        MethodState::Optional(_) => Says::Optional,
        MethodState::Avail(_) => Says::Avail,
        MethodState::Unavail => Says::Unavail,
    }
}

/// The hops lead from the pair to the one named, in the model's table.
fn leads(table: &Table, reason: &Reason, from: [usize; 2]) {
    let mut pair = from;
    for hop in &reason.hops {
        let of = |number: usize| table.types[number].permits(hop.method).expect("permitted");
        let [t, s] = pair.map(of);
        pair = match hop.part {
            Part::Answer => [t.answer.expect("an answer"), s.answer.expect("an answer")],
            Part::Argument(index) => [s.arguments[index], t.arguments[index]],
        };
    }
    assert_eq!(reason.pair, pair.map(|number| Type(number as i64)));
}

/// What the reason says is so, and breaks the relation's rule.
fn breaks(table: &Table, relation: Relation, reason: &Reason) -> &'static str {
    let [t, s] = reason.pair.map(|number| &table.types[number.0 as usize]);
    let subtype = matches!(relation, Relation::Subtype | Relation::SubtypeOwnAside);
    match reason.broken {
        Broken::Kinds { .. } => {
            assert_ne!(t.is_ref(), s.is_ref());
            "kinds"
        }
        Broken::Widths { .. } => {
            assert!(subtype && !t.is_ref() && !s.is_ref() && t.representation != s.representation);
            "widths"
        }
        Broken::Categories { t: of_t, s: of_s } => {
            assert_eq!((of_t, of_s), (t.category, s.category));
            assert!((subtype || relation == Relation::Strict) && !table.category_le(of_t, of_s));
            "categories"
        }
        Broken::Own => {
            assert!(relation == Relation::Subtype && t.own && !s.own);
            "own"
        }
        Broken::States {
            method,
            t: of_t,
            s: of_s,
        } => {
            let (t, s) = (t.state(method), s.state(method));
            assert_eq!((of_t, of_s), (said(t), said(s)));
            assert!(match relation {
                Relation::Subtype | Relation::SubtypeOwnAside => !state_le(t, s),
                Relation::Strict => t.is_avail() && !s.is_avail(),
                Relation::Loose => t.is_avail() && s.signature().is_none(),
                Relation::Free => false,
            });
            "states"
        }
        Broken::Arguments {
            method,
            t: of_t,
            s: of_s,
        } => {
            let counts = [t, s].map(|one| one.permits(method).expect("permitted").arguments.len());
            assert!(counts == [of_t, of_s] && of_t != of_s);
            "arguments"
        }
        Broken::Answers { method, in_t } => {
            let answers =
                [t, s].map(|one| one.permits(method).expect("permitted").answer.is_some());
            assert_eq!(answers, [in_t, !in_t]);
            "answers"
        }
    }
}

/// All pairs of a sheet; what was broken, and whether further in, is counted.
fn all_pairs(text: &[u8], met: &mut BTreeMap<(&'static str, bool), usize>) {
    let (Ok(sheet), Ok(table)) = (Sheet::read(text), reference::sheet::read(text)) else {
        return;
    };
    let (reasons, pairs, model) = (Reasons::of(&sheet), sheet.pairs(), Relations::of(&table));
    let count = sheet.sheet_types();
    for (t, s) in (0..count).flat_map(|t| (0..count).map(move |s| (t, s))) {
        let pair = [t, s].map(|number| Type(number as i64));
        let answers = pairs.at(pair[0], pair[1]);
        let own_aside = model.holds(relations::Relation::SubtypeOwnAside, t, s);
        let asked = RELATIONS.map(|relation| (relation, answer(&answers, relation)));
        for (relation, holds) in asked
            .into_iter()
            .chain([(Relation::SubtypeOwnAside, own_aside)])
        {
            let found = reasons.find(relation, pair[0], pair[1]);
            assert_eq!(found.is_none(), holds, "{relation:?} {t} {s}");
            if let Some(reason) = found {
                leads(&table, &reason, [t, s]);
                let what = breaks(&table, relation, &reason);
                *met.entry((what, !reason.hops.is_empty())).or_default() += 1;
            }
        }
    }
}

#[test]
fn a_reason_is_found_exactly_where_the_core_says_no() {
    let mut met = BTreeMap::new();
    let scripts = PROFILES.map(|profile| match profile {
        Profile::Big => (profile, 12),
        _ => (profile, 60),
    });
    for script in tiny_first::scripts(&scripts) {
        all_pairs(split(&script.of).0, &mut met);
    }
    println!("{met:?}");
    let whats = [
        "kinds",
        "widths",
        "categories",
        "own",
        "states",
        "arguments",
        "answers",
    ];
    for what in whats {
        assert!(met.contains_key(&(what, false)), "{what}: {met:?}");
    }
    assert!(
        met.iter().filter(|((_, inside), _)| *inside).count() >= 4,
        "{met:?}"
    );
}

/// The sheet of the guide's example of categories: 2 is finer than 1.
const CATEGORIES: &str = "guide=1\nsubjects=1\nmethods=1\ncats=2\nunder=0\nunder=1\ntypes=4\ntype=0\nrep=w32\ncat=0\n\
    type=1\nrep=ref\ncat=1\nown=no\nm=avail()0\ntype=2\nrep=ref\ncat=0\nown=no\nm=avail()0\ntype=3\nrep=ref\ncat=2\nown=no\nm=avail()1\nend=sheet\n";

#[test]
fn a_comparison_says_what_is_so() {
    let mixed = no(&["compare", SHEET, "2", "0"]);
    assert_eq!(
        mixed
            .matches("no   T is a number and S a reference")
            .count(),
        4,
        "{mixed}"
    );
    assert!(!mixed.contains(" or "), "{mixed}");
    let lacks = no(&["compare", SHEET, "2", "5", "--no-names"]);
    assert_eq!(
        lacks
            .matches("no   of method 1 T says avail and S says denied")
            .count(),
        3,
        "{lacks}"
    );
    with_file("categories", CATEGORIES.as_bytes(), |path| {
        let finer = accepted(&["compare", path, "2", "1"]);
        assert!(
            finer.contains("strict   no   T is of category 1 and S of none"),
            "{finer}"
        );
        let inside = no(&["compare", path, "1", "3"]);
        assert!(
            inside.contains("free     no   in the answer of method 0: type 1 is a reference and type 0 a number"),
            "{inside}"
        );
    });
}
