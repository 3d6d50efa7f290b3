//! Every refused request is told by where it fails: to the core's own number, and with nothing said that is not so of the state.

use crate::files::{accepted, with_file, NAMES, SCRIPT};
use crate::scripts::same;
use conformance::tiny_first::{self, Input};
use desk::names::Names;
use desk::scripts::follow::put;
use desk::scripts::requests::{split, Request};
use desk::scripts::trial::{served, why};
use desk::scripts::why::{Cross, Full, Given, Layer, LeadsTo, NoClass, Operand, Why};
use pilgonca::raw::State;
use pilgonca::{Cell, MethodInfo, PlaceKind, Refusal, Representation, Subject, Type, Visit};
use reference::generators::{Profile, PROFILES};
use reference::raw::RawState;
use reference::requests;
use std::collections::BTreeMap;

fn is_ref(visit: &Visit, type_: Type) -> bool {
    visit.type_info(type_).expect("a type").representation == Representation::Ref
}

fn owner(visit: &Visit, cell: Cell) -> Subject {
    let place = visit.cell_info(cell).expect("a cell").place;
    let base = visit.base_of(place).expect("a base");
    match visit.place_info(base).expect("a place").kind {
        PlaceKind::Object { owner, .. } => owner,
        PlaceKind::Adapter { .. } => panic!("a base is an object"),
    }
}

fn method(visit: &Visit, type_: Type, method: usize) -> MethodInfo {
    visit.type_info(type_).expect("a type").methods[method].clone()
}

/// Whether what is said of an operand is so. Gives a word for what it is.
fn operand_holds(visit: &Visit, operand: &Operand) -> &'static str {
    let sheet = visit.sheet();
    let unknown = |number: &i64, count: &usize, there: usize| {
        assert!(!(0..*count as i64).contains(number) && *count == there);
    };
    match operand {
        Operand::NoSubject {
            number,
            receiver,
            count,
        } => {
            unknown(number, count, sheet.subjects());
            if *receiver {
                "receiver"
            } else {
                "subject"
            }
        }
        Operand::NoCell { cell, count } => {
            unknown(cell, count, visit.cells().count());
            "no cell"
        }
        Operand::CellOf { cell, holder } => {
            assert_eq!(
                visit.cell_info(Cell(*cell)).expect("a cell").holder,
                *holder
            );
            "cell of another"
        }
        Operand::NoCall { call, count } => {
            unknown(call, count, visit.calls().count());
            "no call"
        }
        Operand::NoType { number, count } => {
            unknown(number, count, sheet.sheet_types());
            "no type"
        }
        Operand::NoMethod { number, count } => {
            unknown(number, count, sheet.methods());
            "no method"
        }
        _ => fitting(visit, operand),
    }
}

/// The same of operands that name something.
fn fitting(visit: &Visit, operand: &Operand) -> &'static str {
    match operand {
        Operand::CallFor { call, owner: named } => {
            let call = visit.calls().nth(*call as usize).expect("a call");
            assert_eq!(owner(visit, call.cell), *named);
            "call for another"
        }
        Operand::Answered { call } => {
            assert!(visit.calls().nth(*call as usize).expect("a call").answered);
            "answered"
        }
        Operand::NumberType { number } => {
            assert!(!is_ref(visit, Type(*number)));
            "number type"
        }
        Operand::NoClass { number, because } => {
            let info = visit.type_info(Type(*number)).expect("a type");
            assert!(!info.is_class());
            match because {
                NoClass::Own => assert!(info.own),
                NoClass::Says { method, .. } => {
                    let said = &info.methods[*method];
                    assert!(matches!(said, MethodInfo::Denied | MethodInfo::Optional(_)));
                }
            }
            "no class"
        }
        Operand::NotAvail {
            type_,
            method: number,
            ..
        } => {
            assert!(!matches!(
                method(visit, *type_, *number),
                MethodInfo::Avail(_)
            ));
            "not avail"
        }
        other => panic!("{other:?}"),
    }
}

/// Whether what is said of values is so.
fn given_holds(visit: &Visit, given: &Given) -> &'static str {
    match given {
        Given::Count {
            type_,
            method: number,
            due,
            given,
        } => {
            let MethodInfo::Avail(signature) = method(visit, *type_, *number) else {
                panic!("avail");
            };
            assert!(signature.arguments.len() == *due && due != given);
            "count"
        }
        Given::NothingDue {
            type_,
            method: number,
        } => {
            let MethodInfo::Avail(signature) = method(visit, *type_, *number) else {
                panic!("avail");
            };
            assert_eq!(signature.answer, None);
            "nothing due"
        }
        Given::AnswerDue {
            type_,
            method: number,
            due,
        } => {
            let MethodInfo::Avail(signature) = method(visit, *type_, *number) else {
                panic!("avail");
            };
            assert_eq!(signature.answer, Some(*due));
            "answer due"
        }
        Given::NoReference {
            number,
            due,
            holder,
            ..
        } => {
            assert!(is_ref(visit, *due));
            let cell = visit.cell_info(Cell(*number));
            assert_eq!(cell.map(|cell| cell.holder), *holder);
            "no reference"
        }
    }
}

/// Whether what is said of a crossing is so, as far as a state tells: what is said of relations is tried elsewhere.
fn cross_holds(visit: &Visit, request: &Request, cross: &Cross) -> &'static str {
    match cross {
        Cross::Types { .. } => "types",
        Cross::Unfit => panic!("only a state handed in has an unfit layer"),
        Cross::Owner { owner: named, .. } => {
            let Request::Move { cell, receiver, .. } = request else {
                panic!("new objects are their makers', and signatures name no own type");
            };
            assert_eq!(owner(visit, Cell(*cell)), *named);
            assert_ne!(*named, Subject(*receiver));
            "owner"
        }
        Cross::Lacks { leads_to, .. } => {
            let (place, adapter) = match leads_to {
                LeadsTo::Object { place, .. } => (place, false),
                LeadsTo::Adapter { place, .. } => (place, true),
            };
            if let Some(place) = place {
                let kind = visit.places().nth(*place).expect("a place").kind;
                assert_eq!(matches!(kind, PlaceKind::Adapter { .. }), adapter);
            }
            "lacks"
        }
    }
}

fn holds(visit: &Visit, request: &Request, why: &Why) -> &'static str {
    match why {
        Why::Operand(operand) => operand_holds(visit, operand),
        Why::Given(given) => given_holds(visit, given),
        Why::Cross(cross) => cross_holds(visit, request, cross),
        Why::Wide { number } => {
            assert!(i32::try_from(*number).is_err());
            "wide"
        }
        Why::Full { what, used } => {
            let (there, word) = match what {
                Full::Types => (visit.types().count(), "types full"),
                Full::Places => (visit.places().count(), "places full"),
                Full::Cells => (visit.cells().count(), "cells full"),
            };
            assert_eq!(*used, there);
            word
        }
        Why::CallsMade { caller, others } => {
            assert!(
                matches!(request, Request::Call { subject, .. } if Subject(*subject) == *caller)
            );
            let made = visit.calls().filter(|call| call.caller == *caller);
            assert_eq!(made.count(), 32);
            assert_eq!(*others, visit.sheet().subjects() > 1);
            "calls made"
        }
        Why::Unexplained => panic!("{request:?}"),
        Why::Passing { layer, why, .. } => {
            if let Layer::Adapter { place } = layer {
                assert!(*place < visit.places().count());
            }
            match holds(visit, request, why) {
                "types" => "types of a value",
                "lacks" => "what a value leads to",
                other => other,
            }
        }
    }
}

/// Every request of a script, before it is served; how many were accepted, and what was met of the others.
fn explained(input: &[u8], met: &mut BTreeMap<&'static str, usize>) -> usize {
    let Some(run) = same(input) else {
        return 0;
    };
    let mut visit = Visit::load(split(input).0).expect("it was followed");
    let mut passed = 0;
    for step in &run.steps {
        match step.outcome {
            Ok(_) => {
                assert_eq!(served(&visit, &step.request), Ok(()), "{:?}", step.request);
                passed += 1;
            }
            Err(refusal) => {
                let found = why(&visit, &step.request, refusal);
                assert_eq!(found, step.why);
                let found = found.unwrap_or_else(|| panic!("{:?}: {refusal}", step.request));
                let words = found.words(&Names::default());
                assert!(!words.is_empty() && !words.contains(" or "), "{words}");
                *met.entry(holds(&visit, &step.request, &found)).or_default() += 1;
            }
        }
        assert_eq!(put(&mut visit, &step.request), step.outcome);
    }
    passed
}

#[test]
fn every_refusal_has_a_reason_that_is_so() {
    let (mut met, mut passed) = (BTreeMap::new(), 0);
    let scripts = PROFILES.map(|profile| match profile {
        Profile::Full => (profile, 15),
        _ => (profile, 150),
    });
    for script in tiny_first::scripts(&scripts) {
        passed += explained(&script.of, &mut met);
    }
    println!("{passed} accepted; {met:?}");
    assert!(passed > 10_000 && met.len() >= 25, "{passed} {met:?}");
}

/// A state handed in, of any counts and codes, if the core takes it.
fn handed_in(raw: &RawState) -> Option<Visit> {
    let table = &raw.table;
    let counts = [
        table.subjects,
        table.methods,
        table.categories,
        table.sheet_types,
        table.types,
        raw.cells,
        raw.places,
        raw.calls,
    ];
    let state = State {
        types: table.type_bytes,
        links: table.broader,
        cells: raw.cell_bytes,
        places: raw.place_bytes,
        calls: raw.call_bytes,
        counts: counts.map(|count| count as usize),
    };
    Visit::from_state(state).ok()
}

fn ours(request: requests::Request) -> Request {
    match request {
        requests::Request::New {
            subject,
            class,
            type_: to,
        } => Request::New { subject, class, to },
        requests::Request::Move {
            subject,
            cell,
            receiver,
            type_: to,
        } => Request::Move {
            subject,
            cell,
            receiver,
            to,
        },
        requests::Request::Call {
            subject,
            cell,
            method,
            arguments,
        } => Request::Call {
            subject,
            cell,
            method,
            arguments,
        },
        requests::Request::Answer {
            subject,
            call,
            value,
        } => Request::Answer {
            subject,
            call,
            value,
        },
    }
}

/// On states that no requests led to, reasons come to the core's number too: at later layers (19) and at unfit ones as well.
#[test]
fn states_handed_in_have_reasons() {
    let (mut explained, mut not, mut later) = (0, 0, 0);
    for Input { from, of, .. } in tiny_first::states(0..250) {
        let Some(mut visit) = handed_in(&of.state) else {
            continue;
        };
        for request in of.requests.into_iter().map(ours) {
            let before = visit.clone();
            match put(&mut visit, &request) {
                Ok(_) => assert_eq!(served(&before, &request), Ok(()), "{from}: {request:?}"),
                // a state that is not sound any more (Q19)
                Err(Refusal::OutOfRange) => break,
                Err(refusal) => match why(&before, &request, refusal) {
                    Some(found) => {
                        later += usize::from(refusal == Refusal::LaterLayer);
                        assert!(!found.words(&Names::default()).is_empty());
                        explained += 1;
                    }
                    None => not += 1,
                },
            }
        }
    }
    println!("{explained} explained, {later} of them at later layers; {not} not");
    assert!(
        explained > 200 && later > 0 && not * 100 < explained,
        "{explained} {later} {not}"
    );
}

/// Each number that a script can meet, with a part of what is said of its last line.
const SAID: [(&str, &str); 14] = [
    ("05", "there is no receiver 2: the sheet has subjects 0 to 1"),
    ("06", "cell 0 is held by subject 0"),
    ("07", "type 2 is no class: it says denied of method 1"),
    ("08", "a reference of type 2 cannot become type 5: of method 1 type 5 says avail and type 2 says denied"),
    ("09", "type 4 has own, and the receiver, subject 1, does not own the object: subject 0 does"),
    ("10", "of method 1 type 5 says avail and the adapter at place 1 (it lets through method 0) says unavail"),
    ("11", "types"),
    ("12", "it needs another of the 128 places, and all are used up"),
    ("13", "it needs another of the 256 cells, and all are used up"),
    ("14", "type 3 says optional of method 1, and only avail can be called"),
    ("15", "method 1 takes 1 argument in type 1, and none came"),
    ("16", "argument 1, at the cell's type 1: 2147483648 does not fit 32 bits"),
    ("17", "call 0 is answered already"),
    ("18", "subject 0 has made all of its 32 calls; every other subject has 32 of its own"),
];

#[test]
fn a_refused_line_says_why() {
    for (number, part) in SAID {
        let out = accepted(&["run", &format!("examples/refused-{number}.script")]);
        let last = out
            .lines()
            .rfind(|line| line.contains("refused with"))
            .expect("a refusal");
        let refused = format!("refused with {}: ", number.trim_start_matches('0'));
        assert!(last.contains(&refused) && last.contains(part), "{last}");
    }
    let named = accepted(&["run", SCRIPT, "--names", NAMES]);
    assert!(
        named.contains(
            "of method 1 (mark) type 5 (marker) says avail and type 2 (reader) says denied"
        ),
        "{named}"
    );
}

/// A call whose second argument fails is told by that argument.
#[test]
fn the_argument_at_fault_is_named() {
    let sheet = "guide=1\nsubjects=1\nmethods=2\ncats=0\ntypes=4\ntype=0\nrep=w32\ncat=0\ntype=1\nrep=ref\ncat=0\nown=no\n\
        m=avail()0\nm=avail(0,2)-\ntype=2\nrep=ref\ncat=0\nown=no\nm=avail()0\nm=denied\ntype=3\nrep=ref\ncat=0\nown=no\nm=denied\n\
        m=denied\nend=sheet\n";
    let requests = "do=new 0 1 1\ndo=new 0 1 3\ndo=call 0 0 1 5 1\ndo=call 0 0 1 5 9\ndo=call 0 0 1 2147483648 0\n";
    with_file(
        "argument",
        (sheet.to_string() + requests).as_bytes(),
        |path| {
            let out = accepted(&["run", path]);
            for part in [
            "refused with 8: argument 2, at the cell's type 1: a reference of type 3 cannot become type 2: of method 0 type 2 says avail and type 3 says denied",
            "refused with 15: argument 2 is to be a reference (type 2), and there is no cell 9",
            "refused with 16: argument 1, at the cell's type 1: 2147483648 does not fit 32 bits",
        ] {
            assert!(out.contains(part), "{part}: {out}");
        }
        },
    );
}

/// A method that takes a number and answers with one, of 32 bits (type 0) or of 64 (type 1): in the class, in the type that its owner lends it as, and in the
/// one that the other hands it to itself as. The number does not fit 32 bits.
fn wide(class: usize, lent: usize) -> String {
    let of_types = [class, lent, 1].into_iter().zip(2..);
    let of_types = of_types
        .map(|(one, type_)| format!("type={type_}\nrep=ref\ncat=0\nown=no\nm=avail({one}){one}\n"));
    let head = "guide=1\nsubjects=2\nmethods=1\ncats=0\ntypes=5\ntype=0\nrep=w32\ncat=0\ntype=1\nrep=w64\ncat=0\n";
    let requests = "do=new 0 2 2\ndo=move 0 0 1 3\ndo=move 1 1 1 4\ndo=call 1 2 0 2147483648\ndo=call 1 2 0 5\ndo=answer 0 0 2147483648\n";
    format!(
        "{head}{}end=sheet\n{requests}",
        of_types.collect::<String>()
    )
}

/// An object of a category, which is to become one of category 2. That is a finer sort of category 1.
fn sorted(category: usize) -> String {
    let type_ = |number: usize, category: usize| {
        format!("type={number}\nrep=ref\ncat={category}\nown=no\nm=avail()-\n")
    };
    let head = "guide=1\nsubjects=1\nmethods=1\ncats=2\nunder=0\nunder=1\ntypes=2\n";
    let requests = "do=new 0 0 0\ndo=move 0 0 0 1\n";
    format!(
        "{head}{}{}end=sheet\n{requests}",
        type_(0, category),
        type_(1, 2)
    )
}

/// The layer at which a value fails, the answer, and a category.
#[test]
fn the_layer_and_the_category_at_fault_are_named() {
    let wide_at =
        |what: &str| format!("refused with 16: {what}: 2147483648 does not fit 32 bits\n");
    let sorted_by = |what: &str| {
        format!("refused with 10: what the reference leads to does not do for type 1: type 1 is of category 2{what}\n")
    };
    for (script, parts) in [
        (
            wide(1, 0),
            [
                "argument 1, at the adapter at place 1",
                "the answer, at the adapter at place 1",
            ]
            .map(wide_at),
        ),
        (
            wide(0, 1),
            [
                "argument 1, at the class, type 2",
                "the answer, at the class, type 2",
            ]
            .map(wide_at),
        ),
        (
            sorted(1),
            [", which is not category 1 of the object at place 0 (type 0), nor broader"; 2]
                .map(sorted_by),
        ),
        (
            sorted(0),
            [" and the object at place 0 (type 0) of none"; 2].map(sorted_by),
        ),
    ] {
        with_file("layer", script.as_bytes(), |path| {
            let out = accepted(&["run", path]);
            for part in parts {
                assert!(out.contains(&part), "{part}: {out}");
            }
        });
    }
}
