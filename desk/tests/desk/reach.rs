//! What a holder can come to call by itself is what the core lets it come to: every way is tried, without the short cuts that desk takes.

use crate::scripts::same;
use conformance::tiny_first;
use desk::reach::{of_sheet, Power, Reach, TypePowers};
use desk::scripts::follow::Run;
use desk::scripts::requests::split;
use desk::scripts::trails::Hands;
use pilgonca::{
    Cell, CellInfo, Method, MethodInfo, PlaceKind, Refusal, Subject, Type, TypeInfo, Visit,
};
use reference::generators::{generate, on_tiny, Profile};

fn avail(info: &TypeInfo, method: usize) -> bool {
    matches!(info.methods.get(method), Some(MethodInfo::Avail(_)))
}

/// The methods that a subject can call through a cell, or after so many moves of it to itself: the core is asked about every type.
fn tried(visit: &Visit, cell: Cell, subject: Subject, steps: usize) -> Vec<bool> {
    let type_ = visit.cell_info(cell).expect("a cell").type_;
    let info = visit.type_info(type_).expect("a type");
    let methods = 0..visit.sheet().methods();
    let offers = |method: usize| visit.offers(cell, &[Method(method as i64)]) == Ok(true);
    let mut found: Vec<bool> = methods
        .map(|method| avail(&info, method) && offers(method))
        .collect();
    if steps == 0 {
        return found;
    }
    for to in 0..visit.sheet().sheet_types() {
        let mut copy = visit.clone();
        if let Ok(held) = copy.move_reference(subject, cell, subject, Type(to as i64)) {
            let further = tried(&copy, held.cell, subject, steps - 1);
            found
                .iter_mut()
                .zip(further)
                .for_each(|(one, other)| *one |= other);
        }
    }
    found
}

/// A way that is told ends where the core no longer says that the method cannot be called.
fn leads(visit: &Visit, cell: &CellInfo, method: usize, path: &[Type]) {
    let mut visit = visit.clone();
    let mut at = cell.number;
    for to in path {
        let held = visit.move_reference(cell.holder, at, cell.holder, *to);
        at = held.expect("a way").cell;
    }
    let called = visit.call(cell.holder, at, Method(method as i64), &[]);
    assert_ne!(
        called,
        Err(Refusal::NotCallable),
        "cell {}, {path:?}",
        cell.number
    );
}

/// All cells of a run: how many methods there are of each kind.
fn compared(visit: &Visit, steps: usize) -> [usize; 4] {
    let reach = Reach::of(&visit.sheet());
    let mut met = [0; 4];
    for cell in visit.cells() {
        let powers = reach.powers(visit, &cell).expect("a sound state");
        let tried = tried(visit, cell.number, cell.holder, steps);
        for (method, (power, tried)) in powers.iter().zip(tried).enumerate() {
            match power {
                Some(Power::Now) => {
                    leads(visit, &cell, method, &[]);
                    met[0] += 1;
                }
                Some(Power::Alone(path)) => {
                    assert!(!path.is_empty() && (tried || path.len() > steps));
                    leads(visit, &cell, method, path);
                    met[1] += 1;
                }
                Some(Power::Never) => {
                    assert_eq!(
                        visit.offers(cell.number, &[Method(method as i64)]),
                        Ok(true)
                    );
                    assert!(!tried, "cell {}, method {method}", cell.number);
                    met[2] += 1;
                }
                None => assert!(!tried, "cell {}, method {method}", cell.number),
                Some(_) => {
                    assert!(!tried, "cell {}, method {method}", cell.number);
                    met[3] += 1;
                }
            }
        }
    }
    met
}

#[test]
fn what_can_be_come_to_is_what_the_core_lets_come() {
    let mut met = [0; 4];
    let tiny = on_tiny(0).into_iter().map(|input| (input, 3));
    let generated = [
        (Profile::Small, 250, 3),
        (Profile::Medium, 40, 2),
        (Profile::Full, 6, 1),
    ];
    let generated = generated.into_iter().flat_map(|(profile, seeds, steps)| {
        (0..seeds).map(move |seed| (generate(seed, profile), steps))
    });
    for (input, steps) in tiny.chain(generated) {
        if let Some(run) = same(&input) {
            let found = compared(&run.visit, steps);
            met.iter_mut().zip(found).for_each(|(all, one)| *all += one);
        }
    }
    println!("can call, can come to, never, no room: {met:?}");
    assert!(met[..3].iter().all(|count| *count > 20), "{met:?}");
}

/// Whether one trail goes on from another: it was not taken back in between.
fn goes_on(run: &Run, from: Cell, to: Cell) -> bool {
    let [from, to] = [from, to].map(|cell| run.trails.of(cell).expect("a trail"));
    to.crossings.len() > from.crossings.len() && to.crossings.starts_with(&from.crossings)
}

/// What came of a reference, by a move, an argument or an answer, could be called by those who had it before: none of them was told "never".
fn before(run: &Run) -> [usize; 2] {
    let powers = run.powers().expect("a sound state");
    let mut met = [0; 2];
    for cell in run.visit.cells() {
        let trail = run.trails.of(cell.number).expect("a trail");
        let Some(from) = trail.from.filter(|from| goes_on(run, *from, cell.number)) else {
            continue;
        };
        let by_call = matches!(
            trail.crossings.last().expect("a crossing").hands,
            Hands::Argument { .. } | Hands::Answer { .. }
        );
        for (method, power) in powers[cell.number.0 as usize].iter().enumerate() {
            if *power == Some(Power::Now) {
                let earlier = &powers[from.0 as usize][method];
                let could = earlier.as_ref().is_some_and(Power::is_yes);
                assert!(
                    could,
                    "cell {} from {from}, method {method}: {earlier:?}",
                    cell.number
                );
                met[usize::from(by_call)] += 1;
            }
        }
    }
    met
}

#[test]
fn nobody_before_was_told_never() {
    let mut met = [0; 2];
    let scripts = [
        (Profile::Small, 150),
        (Profile::Medium, 150),
        (Profile::Big, 15),
    ];
    for script in tiny_first::scripts(&scripts) {
        if let Some(run) = same(&script.of) {
            let found = before(&run);
            met.iter_mut().zip(found).for_each(|(all, one)| *all += one);
        }
    }
    println!("by moves and by calls: {met:?}");
    assert!(met.iter().all(|count| *count > 50), "{met:?}");
}

fn class(visit: &Visit, cell: &CellInfo) -> (Type, Subject) {
    let base = visit
        .base_of(cell.place)
        .and_then(|base| visit.place_info(base));
    match base.expect("a base").kind {
        PlaceKind::Object { class, owner } => (class, owner),
        PlaceKind::Adapter { .. } => panic!("a base is an object"),
    }
}

/// What any holder in a run can do is among what the sheet was said to give with its type.
fn within(run: &Run, powers: &[TypePowers]) -> usize {
    let visit = &run.visit;
    let reach = Reach::of(&visit.sheet());
    let mut met = 0;
    for cell in visit.cells() {
        let of_type = powers
            .iter()
            .find(|one| one.type_ == cell.type_)
            .expect("a ref type");
        let (class, owner) = class(visit, &cell);
        assert!(
            of_type.classes.contains(&class),
            "cell {}: {of_type:?}",
            cell.number
        );
        let own = visit.type_info(cell.type_).expect("a type").own;
        if owner == cell.holder && !own && visit.sheet().subjects() > 1 {
            continue;
        }
        let held = reach.powers(visit, &cell).expect("a sound state");
        for (method, held) in held.iter().enumerate() {
            let said = &of_type.methods[method];
            match held {
                Some(Power::Now) => assert_eq!(*said, Power::Now, "cell {}", cell.number),
                Some(Power::Alone(_)) => {
                    assert!(
                        said.is_yes() && *said != Power::Now,
                        "cell {}: {said:?}",
                        cell.number
                    );
                    met += 1;
                }
                _ => {}
            }
        }
    }
    met
}

#[test]
fn a_sheet_gives_what_its_runs_show() {
    let mut met = 0;
    let scripts = [
        (Profile::Small, 100),
        (Profile::Medium, 100),
        (Profile::Big, 10),
    ];
    for script in tiny_first::scripts(&scripts) {
        if let Some(run) = same(&script.of) {
            let visit = Visit::load(split(&script.of).0).expect("it was followed");
            let powers = of_sheet(&visit).expect("a sound state");
            met += within(&run, &powers);
        }
    }
    println!("{met} ways");
    assert!(met > 20, "{met}");
}
