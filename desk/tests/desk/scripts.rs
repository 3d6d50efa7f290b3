//! What desk makes of a script is what the core makes of it, and the types that a cell came through explain what it offers.

use crate::damage::{bytes_damaged, damaged};
use crate::diagnosis::is_no_rule;
use crate::files::read;
use conformance::tiny_first;
use desk::relation::Strongest;
use desk::scripts::follow::{follow, output, Got, Run, Step};
use desk::scripts::requests::{split, Request};
use desk::scripts::trails::Hands;
use pilgonca::{raw, CellInfo, Method, MethodInfo, PlaceKind, Refusal, Subject, Type, TypeInfo};
use reference::generators::{Profile, PROFILES};

/// Runs a script here and by the core. None where it is too long or its sheet is refused.
pub fn same(input: &[u8]) -> Option<Run<'_>> {
    if input.len() > raw::MAX_SCRIPT {
        return None;
    }
    let shown = || String::from_utf8_lossy(input);
    let core = pilgonca::script(input);
    match follow(input) {
        Err(refused) => {
            assert_eq!(
                core,
                format!("no={}\n", refused.number()).as_bytes(),
                "{}",
                shown()
            );
            None
        }
        Ok(run) => {
            assert_eq!(String::from_utf8_lossy(&core), output(&run), "{}", shown());
            if let Some(malformed) = &run.malformed {
                let (mark, line) = (&malformed.flaw.mark, malformed.line);
                assert!(
                    mark.start <= mark.end && mark.end <= line.len(),
                    "{}",
                    shown()
                );
                is_no_rule(&malformed.flaw.wrong);
            }
            Some(run)
        }
    }
}

#[test]
fn every_small_damage_is_read_as_the_core_reads_it() {
    let mut malformed = 0;
    let requests =
        b"do=new 0 1 4\ndo=move 0 0 1 -9223372036854775808\ndo=call 1 0 0 15 -6 7 8\ndo=answer 0 0 -\n";
    let case_p = read("examples/case-p.script");
    let sheet = split(&case_p).0;
    for requests in damaged(requests) {
        let input = [sheet, &requests].concat();
        let run = same(&input).expect("the sheet is right");
        malformed += usize::from(run.malformed.is_some());
    }
    for input in bytes_damaged(&case_p) {
        same(&input);
    }
    assert!(malformed > 1000, "{malformed}");
}

#[test]
fn generated_scripts_are_read_as_the_core_reads_them() {
    let (mut accepted, mut refused) = (0, 0);
    for script in tiny_first::scripts(&[(Profile::Damaged, 1500)]) {
        match same(&script.of) {
            Some(_) => accepted += 1,
            None => refused += 1,
        }
    }
    println!("{accepted} sheets accepted, {refused} refused");
    assert!(accepted > raw::TINY_SHEETS + 100 && refused > 100);
}

fn permits(types: &[TypeInfo], number: Type, method: usize) -> bool {
    let info = types.iter().find(|info| info.number == number);
    let method = info.and_then(|info| info.methods.get(method));
    matches!(method, Some(MethodInfo::Avail(_) | MethodInfo::Optional(_)))
}

/// L21 for chains of one method: a cell offers what its class and every type of its trail permit.
fn explained(run: &Run) -> usize {
    let visit = &run.visit;
    let types: Vec<TypeInfo> = visit.types().collect();
    let places: Vec<PlaceKind> = visit.places().map(|info| info.kind).collect();
    assert_eq!(run.trails.count(), visit.cells().count());
    let mut offered = 0;
    for cell in visit.cells() {
        let base = visit.base_of(cell.place).expect("a base");
        let PlaceKind::Object { class, .. } = places[base.0 as usize] else {
            panic!("a base is an object");
        };
        let trail = run.trails.of(cell.number).expect("a trail");
        let trail: Vec<Type> = trail.types().collect();
        assert_eq!(trail.last(), Some(&cell.type_));
        for method in 0..visit.sheet().methods() {
            let came = permits(&types, class, method)
                && trail.iter().all(|one| permits(&types, *one, method));
            let offers = visit.offers(cell.number, &[Method(method as i64)]);
            assert_eq!(offers, Ok(came), "cell {}, method {method}", cell.number);
            offered += usize::from(came);
        }
    }
    offered
}

/// Hands: a crossing goes from one who held the reference to one who then does.
fn handed(run: &Run) {
    for cell in run.visit.cells() {
        let trail = run.trails.of(cell.number).expect("a trail");
        let [from, to] = hands(&trail.crossings.last().expect("a crossing").hands);
        assert_eq!(to, cell.holder, "cell {}", cell.number);
        match trail.from {
            Some(before) => {
                let before = run.visit.cell_info(before).expect("a cell");
                assert_eq!(from, before.holder, "cell {}", cell.number);
            }
            None => assert_eq!(from, cell.holder),
        }
        let ends = trail
            .crossings
            .windows(2)
            .map(|two| [&two[0], &two[1]].map(|one| hands(&one.hands)));
        for [[_, first], [second, _]] in ends.filter(|[first, second]| first != second) {
            assert_eq!(first, second, "cell {}", cell.number);
        }
    }
}

fn hands(hands: &Hands) -> [Subject; 2] {
    match *hands {
        Hands::Made { by } => [by, by],
        Hands::Moved { from, to }
        | Hands::Argument { from, to, .. }
        | Hands::Answer { from, to, .. } => [from, to],
    }
}

#[test]
fn trails_explain_what_is_offered() {
    let (mut offered, mut longest) = (0, 0);
    let scripts = PROFILES.map(|profile| match profile {
        Profile::Full => (profile, 12),
        _ => (profile, 60),
    });
    for script in tiny_first::scripts(&scripts) {
        let Some(run) = same(&script.of) else {
            continue;
        };
        offered += explained(&run);
        handed(&run);
        let lengths = run.visit.cells().map(|cell| {
            let trail = run.trails.of(cell.number);
            trail.map_or(0, |trail| trail.crossings.len())
        });
        longest = longest.max(lengths.max().unwrap_or(0));
    }
    println!("{offered} methods offered, the longest trail has {longest} types");
    assert!(offered > 10_000 && longest > 5);
}

/// What is said of a pair of types comes true when a reference of the one is moved as the other (X1 to X7).
fn comes_true(step: &Step, cell: &CellInfo, t: &TypeInfo, strongest: Strongest) {
    let place = match step.outcome {
        Ok(Got::Held(held)) => Some(held.place),
        _ => None,
    };
    let unrelated = strongest == Strongest::None || strongest == Strongest::Free && !t.own;
    assert_eq!(
        unrelated,
        step.outcome == Err(Refusal::Unrelated),
        "{step:?}"
    );
    match (t.own, strongest) {
        (false, Strongest::Subtype) => {
            let full = step.outcome == Err(Refusal::CellsFull);
            assert!(place == Some(cell.place) || full, "{step:?}");
        }
        (false, Strongest::Strict) => assert_ne!(step.outcome, Err(Refusal::NotStrict), "{step:?}"),
        _ => {}
    }
}

/// Looks at every move of a run that came as far as a crossing; how many they are.
fn moves_come_true(run: &Run) -> usize {
    let sheet = run.visit.sheet();
    let (pairs, cells): (_, Vec<CellInfo>) = (sheet.pairs(), run.visit.cells().collect());
    let mut moves = 0;
    for step in &run.steps {
        let early = step
            .outcome
            .as_ref()
            .is_err_and(|refusal| refusal.number() < 8);
        if let (Request::Move { cell, to, .. }, false) = (&step.request, early) {
            let (cell, t) = (&cells[*cell as usize], sheet.type_info(Type(*to)));
            let t = t.expect("a type");
            let strongest = Strongest::of(&pairs.at(t.number, cell.type_));
            comes_true(step, cell, &t, strongest);
            moves += 1;
        }
    }
    moves
}

#[test]
fn what_is_said_of_pairs_comes_true() {
    let profiles = [Profile::Small, Profile::Medium, Profile::Big, Profile::Full];
    let moves: usize = tiny_first::scripts(&profiles.map(|profile| (profile, 40)))
        .filter_map(|script| same(&script.of).map(|run| moves_come_true(&run)))
        .sum();
    println!("{moves} moves");
    assert!(moves > 5_000);
}
