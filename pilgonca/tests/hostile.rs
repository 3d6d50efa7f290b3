//! docs/HOSTILE.md, done: what a hostile module can use up and learn, and what the firmware can do about it.

use pilgonca::raw::State;
use pilgonca::{Call, Cell, Held, Method, PlaceKind, Refusal, Subject, Type, Visit, EXAMPLE};
use std::collections::BTreeSet;

const DESK: Subject = Subject(0);
const MODULE: Subject = Subject(1);

/// Types, cells, places and calls that are taken.
fn taken(visit: &Visit) -> [usize; 4] {
    let [.., types, cells, places, calls] = visit.state().counts;
    [types, cells, places, calls]
}

/// How often a request is accepted before it is refused, and with what.
fn until_refused<Got>(mut request: impl FnMut(i64) -> Result<Got, Refusal>) -> (i64, Refusal) {
    let mut accepted = 0;
    loop {
        match request(accepted) {
            Ok(_) => accepted += 1,
            Err(refusal) => return (accepted, refusal),
        }
    }
}

#[test]
fn places_are_used_up_for_everybody() {
    let mut visit = Visit::load(EXAMPLE).expect("a sheet");
    let made = until_refused(|_| visit.new_object(MODULE, Type(1), Type(1)));
    assert_eq!(made, (128, Refusal::PlacesFull));
    assert_eq!(
        visit.new_object(DESK, Type(1), Type(1)),
        Err(Refusal::PlacesFull)
    );
    // what needs no place is served
    assert!(visit.move_reference(MODULE, Cell(0), DESK, Type(1)).is_ok());
}

#[test]
fn cells_are_used_up_for_everybody() {
    let mut visit = Visit::load(EXAMPLE).expect("a sheet");
    let held = visit.new_object(DESK, Type(1), Type(1)).expect("made").cell;
    let lent = visit
        .move_reference(DESK, held, MODULE, Type(2))
        .expect("lent")
        .cell;
    // the receiver is not asked
    let moved = until_refused(|_| visit.move_reference(MODULE, lent, DESK, Type(2)));
    assert_eq!(moved, (254, Refusal::CellsFull));
    assert_eq!(
        visit.new_object(DESK, Type(1), Type(1)),
        Err(Refusal::CellsFull)
    );
    assert!(visit.call(DESK, held, Method(0), &[]).is_ok());
}

#[test]
fn calls_are_used_up_for_their_caller_alone() {
    let mut visit = Visit::load(EXAMPLE).expect("a sheet");
    let held = visit.new_object(DESK, Type(1), Type(1)).expect("made").cell;
    let lent = visit
        .move_reference(DESK, held, MODULE, Type(2))
        .expect("lent")
        .cell;
    let called = until_refused(|_| visit.call(MODULE, lent, Method(0), &[]));
    assert_eq!(called, (32, Refusal::CallsFull));
    // an answer gives none back
    visit.answer(DESK, Call(0), Some(1)).expect("answered");
    assert_eq!(
        visit.call(MODULE, lent, Method(0), &[]),
        Err(Refusal::CallsFull)
    );
    // nor is there more by another cell, and the desk has all of its own
    let second = visit.move_reference(MODULE, lent, MODULE, Type(2));
    assert_eq!(
        visit.call(MODULE, second.expect("moved").cell, Method(0), &[]),
        Err(Refusal::CallsFull)
    );
    let called = until_refused(|_| visit.call(DESK, held, Method(0), &[]));
    assert_eq!(called, (32, Refusal::CallsFull));
}

/// Type 1 is a class, 2 says optional of its method, and the others to 47 deny it: from each of those to 2 takes a Sub, a Closed and an adapter.
fn many_types() -> String {
    let reference = |number: usize, method: &str| {
        format!("type={number}\nrep=ref\ncat=0\nown=no\nm={method}\n")
    };
    let denying: String = (3..48).map(|number| reference(number, "denied")).collect();
    let head = "guide=1\nsubjects=2\nmethods=1\ncats=0\ntypes=48\ntype=0\nrep=w32\ncat=0\n";
    let [class, optional] = [reference(1, "avail()0"), reference(2, "optional()0")];
    format!("{head}{class}{optional}{denying}end=sheet\n")
}

#[test]
fn types_are_used_up_for_everybody() {
    let mut visit = Visit::load(many_types().as_bytes()).expect("a sheet");
    let narrow = |visit: &mut Visit, subject: Subject, through: i64| {
        let held = visit.new_object(subject, Type(1), Type(through))?;
        visit.move_reference(subject, held.cell, subject, Type(2))
    };
    let narrowed = until_refused(|count| narrow(&mut visit, MODULE, 3 + count));
    assert_eq!(narrowed, (40, Refusal::TypesFull));
    assert_eq!(narrow(&mut visit, DESK, 47), Err(Refusal::TypesFull));
    // what is derived is used again
    assert!(narrow(&mut visit, DESK, 3).is_ok());
}

/// The firmware serves a request of a module, and undoes it where the module takes more than its share by it.
fn within<Got>(
    visit: &mut Visit,
    share: &mut [usize; 4],
    request: impl FnOnce(&mut Visit) -> Result<Got, Refusal>,
) -> Option<Got> {
    let (before, kept) = (taken(visit), visit.clone());
    let got = request(visit).ok()?;
    let took = taken(visit)
        .into_iter()
        .zip(before)
        .map(|(after, before)| after - before);
    let left: Option<Vec<usize>> = share
        .iter()
        .zip(took)
        .map(|(left, took)| left.checked_sub(took))
        .collect();
    let Some(left) = left else {
        *visit = kept;
        return None;
    };
    share.copy_from_slice(&left);
    Some(got)
}

#[test]
fn the_firmware_can_hold_a_module_to_its_share() {
    let mut visit = Visit::load(EXAMPLE).expect("a sheet");
    let held = visit.new_object(DESK, Type(1), Type(4)).expect("made").cell;
    let lent = visit
        .move_reference(DESK, held, MODULE, Type(3))
        .expect("lent")
        .cell;
    let mut share = [2, 6, 4, 3];
    let made = (0..300).filter_map(|_| {
        within(&mut visit, &mut share, |visit| {
            visit.new_object(MODULE, Type(1), Type(1))
        })
    });
    assert_eq!(made.count(), 4);
    let called = (0..300).filter_map(|_| {
        within(&mut visit, &mut share, |visit| {
            visit.call(MODULE, lent, Method(0), &[])
        })
    });
    assert_eq!(called.count(), 3);
    let moved = (0..300).filter_map(|_| {
        within(&mut visit, &mut share, |visit| {
            visit.move_reference(MODULE, lent, DESK, Type(3))
        })
    });
    assert_eq!(moved.count(), 2);
    assert_eq!(share, [2, 0, 0, 0]);

    // an undone request leaves every byte as it was, and the others are served
    let before: State = visit.state().clone();
    assert_eq!(
        within(&mut visit, &mut share, |visit| visit.new_object(
            MODULE,
            Type(1),
            Type(1)
        )),
        None
    );
    assert!(*visit.state() == before);
    assert!(visit.new_object(DESK, Type(1), Type(1)).is_ok());
    assert!(visit.call(DESK, held, Method(0), &[]).is_ok());
    // and a new state begins with nothing taken
    assert_eq!(
        taken(&Visit::load(&visit.sheet().write()).expect("the sheet")),
        [6, 0, 0, 0]
    );
}

#[test]
fn numbers_tell_what_others_made() {
    let mut visit = Visit::load(EXAMPLE).expect("a sheet");
    let mine = |visit: &mut Visit| visit.new_object(MODULE, Type(1), Type(1)).expect("made");
    let first = mine(&mut visit);
    for _ in 0..5 {
        visit.new_object(DESK, Type(1), Type(1)).expect("made");
    }
    let second = mine(&mut visit);
    assert_eq!(
        (second.cell.0 - first.cell.0, second.place.0 - first.place.0),
        (6, 6)
    );
}

/// 9 names the owner; a receiver's cell does not.
#[test]
fn the_owner_can_be_found_out() {
    let mut visit = Visit::load(EXAMPLE).expect("a sheet");
    let held = visit.new_object(DESK, Type(1), Type(4)).expect("made").cell;
    let lent = visit
        .move_reference(DESK, held, MODULE, Type(2))
        .expect("lent")
        .cell;
    let own = |receiver: Subject| {
        visit
            .clone()
            .move_reference(MODULE, lent, receiver, Type(4))
    };
    assert_eq!(own(MODULE), Err(Refusal::NotOwner));
    assert!(own(DESK).is_ok());

    // an object of the module's own looks like the desk's
    let mut look = |subject: Subject| -> Held {
        let made = visit
            .new_object(subject, Type(1), Type(1))
            .expect("made")
            .cell;
        visit
            .move_reference(subject, made, DESK, Type(2))
            .expect("lent")
    };
    let [desks, modules] = [look(DESK), look(MODULE)];
    let seen = |held: Held| visit.cell_info(held.cell).expect("a cell").type_;
    assert_eq!(seen(desks), seen(modules));
    let owner = |held: Held| {
        let base = visit
            .base_of(held.place)
            .and_then(|place| visit.place_info(place));
        match base.expect("a place").kind {
            PlaceKind::Object { owner, .. } => owner,
            PlaceKind::Adapter { .. } => unreachable!("a base is an object"),
        }
    };
    assert_eq!((owner(desks), owner(modules)), (DESK, MODULE));
}

/// 6 and 15 do not tell whether a cell or a call is there.
#[test]
fn what_is_anothers_is_refused_like_what_is_not_there() {
    let mut visit = Visit::load(EXAMPLE).expect("a sheet");
    let desks = visit.new_object(DESK, Type(1), Type(1)).expect("made").cell;
    let call = visit
        .call(DESK, desks, Method(0), &[])
        .expect("called")
        .call;
    let nothing = [-1, 1, 255, 256, i64::MIN, i64::MAX].map(Cell);
    let refused: BTreeSet<Refusal> = nothing
        .into_iter()
        .chain([desks])
        .flat_map(|cell| {
            let mut visit = visit.clone();
            let moved = visit
                .move_reference(MODULE, cell, MODULE, Type(2))
                .map(drop);
            let called = visit.call(MODULE, cell, Method(0), &[]).map(drop);
            let answered = visit.answer(MODULE, Call(cell.0), Some(1)).map(drop);
            [moved, called, answered]
        })
        .chain([visit.clone().answer(MODULE, call, Some(1)).map(drop)])
        .map(|outcome| outcome.expect_err("refused"))
        .collect();
    assert_eq!(refused, [Refusal::NotHeld].into());
    // offers asks nobody who he is
    assert_eq!(visit.offers(desks, &[Method(1)]), Ok(true));
}

/// Method 0 takes a reference of the only type and answers with one.
const GIVER: &[u8] =
    b"guide=1\nsubjects=2\nmethods=1\ncats=0\ntypes=1\ntype=0\nrep=ref\ncat=0\nown=no\nm=avail(0)0\nend=sheet\n";

#[test]
fn so_it_is_with_values() {
    let mut visit = Visit::load(GIVER).expect("a sheet");
    let desks = visit.new_object(DESK, Type(0), Type(0)).expect("made").cell;
    let mine = visit
        .new_object(MODULE, Type(0), Type(0))
        .expect("made")
        .cell;
    let call = visit
        .call(MODULE, mine, Method(0), &[mine.0])
        .expect("called")
        .call;
    for value in [desks.0, -1, 3, 256, i64::MIN] {
        let called = visit.call(MODULE, mine, Method(0), &[value]);
        assert_eq!(called, Err(Refusal::WrongValues));
        let answered = visit.answer(MODULE, call, Some(value));
        assert_eq!(answered, Err(Refusal::WrongValues));
    }
}
