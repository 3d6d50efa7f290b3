//! Each subject has its own count of calls (Q9, C7, H17): all of them at the limit, one there and another at 0, and states handed in at it and above it.

use pilgonca::raw::{self, State, CALL_RECORD, MAX_CALLS, MAX_CALLS_EACH, MAX_SUBJECTS};
use pilgonca::{Answered, Call, Cell, Method, Refusal, Subject, Type, Visit, EXAMPLE};

const DESK: Subject = Subject(0);
const READ: Method = Method(0);
const MARK: Method = Method(1);
const FULL: Result<Call, Refusal> = Err(Refusal::CallsFull);

fn subjects() -> impl Iterator<Item = Subject> {
    (0..MAX_SUBJECTS as i64).map(Subject)
}

/// As many subjects as there can be on the first sheet of the guide. The desk owns an object, and cell k to it is subject k's.
fn lent_to_all() -> Visit {
    let sheet = std::str::from_utf8(EXAMPLE).expect("ASCII");
    let sheet = sheet.replace("subjects=2\n", "subjects=16\n");
    let mut visit = Visit::load(sheet.as_bytes()).expect("a sheet");
    let made = visit.new_object(DESK, Type(1), Type(1)).expect("made");
    for subject in subjects().skip(1) {
        let lent = visit.move_reference(DESK, made.cell, subject, Type(1));
        assert_eq!(lent.expect("lent").cell, Cell(subject.0));
    }
    visit
}

/// The subject reads through its cell.
fn read(visit: &mut Visit, subject: Subject) -> Result<Call, Refusal> {
    let called = visit.call(subject, Cell(subject.0), READ, &[])?;
    assert_eq!((called.adapters, called.arguments.len()), (0, 0));
    Ok(called.call)
}

/// It reads until it is refused, with 18: how often it was not.
fn reads(visit: &mut Visit, subject: Subject) -> usize {
    let mut accepted = 0;
    loop {
        match read(visit, subject) {
            Ok(_) => accepted += 1,
            refused => {
                assert_eq!(refused, FULL);
                return accepted;
            }
        }
    }
}

fn made_by(visit: &Visit, subject: Subject) -> usize {
    let calls = visit.calls();
    calls.filter(|call| call.caller == subject).count()
}

#[test]
fn all_sixteen_make_all_of_their_calls() {
    assert_eq!((MAX_CALLS_EACH, MAX_SUBJECTS, MAX_CALLS), (32, 16, 512));
    let mut visit = lent_to_all();
    let mut due = 0;
    for _ in 0..MAX_CALLS_EACH {
        for subject in subjects() {
            assert_eq!(read(&mut visit, subject), Ok(Call(due)));
            due += 1;
        }
    }
    assert_eq!((due, visit.state().counts[7]), (512, 512));
    let full = visit.state().clone();
    for subject in subjects() {
        assert_eq!(read(&mut visit, subject), FULL);
        assert_eq!(made_by(&visit, subject), MAX_CALLS_EACH);
    }
    assert!(*visit.state() == full);

    // numbers of more than a byte are told and answered
    for (number, call) in (0..).zip(visit.calls()) {
        assert_eq!(call.number, Call(number));
        assert_eq!(
            (call.caller, call.cell),
            (Subject(number % 16), Cell(number % 16))
        );
        assert_eq!((call.method, call.answered), (READ, false));
    }
    let answered = [0, 255, 256, 257, 511];
    for number in answered {
        let answer = visit.answer(DESK, Call(number), Some(number));
        assert_eq!(answer, Ok(Answered::Number(number)));
        let twice = visit.answer(DESK, Call(number), Some(number));
        assert_eq!(twice, Err(Refusal::AnsweredAlready));
    }
    for nothing in [512, 513, 767, 1024, -1] {
        let answer = visit.answer(DESK, Call(nothing), Some(1));
        assert_eq!(answer, Err(Refusal::NotHeld));
    }
    let flagged = visit.calls().filter(|call| call.answered);
    let flagged: Vec<i64> = flagged.map(|call| call.number.0).collect();
    assert_eq!(flagged, answered);

    // and such a state comes back
    let mut back = Visit::from_saved(&visit.save()).expect("a saved state");
    assert!(back.state() == visit.state());
    assert!(Visit::from_state(visit.state().clone()).is_ok());
    assert_eq!(read(&mut back, Subject(15)), FULL);
    // what is no call is served
    assert!(back.new_object(Subject(15), Type(1), Type(1)).is_ok());
}

#[test]
fn one_at_its_limit_is_nothing_to_another_at_none() {
    let mut visit = lent_to_all();
    let (scanner, player) = (Subject(1), Subject(2));
    assert_eq!(reads(&mut visit, scanner), 32);
    assert_eq!((made_by(&visit, scanner), made_by(&visit, player)), (32, 0));
    for call in (0..32).map(Call) {
        let answer = visit.answer(DESK, call, Some(7));
        assert_eq!(answer, Ok(Answered::Number(7)));
    }
    // answers give none back, nor does a cell of its own or an object
    assert_eq!(read(&mut visit, scanner), FULL);
    let own = visit.new_object(scanner, Type(1), Type(1)).expect("made");
    let called = visit.call(scanner, own.cell, READ, &[]);
    assert_eq!(called, Err(Refusal::CallsFull));
    assert_eq!(reads(&mut visit, player), 32);
    // all these were calls of the desk's object, and it has made none
    assert_eq!(made_by(&visit, DESK), 0);
    assert_eq!(reads(&mut visit, DESK), 32);
    assert_eq!(visit.calls().count(), 96);
}

/// 31 are not 32, whatever the others have.
#[test]
fn the_last_call_is_the_thirty_second() {
    for others in [0, 1, 31, 32] {
        let mut visit = lent_to_all();
        let last = Subject(15);
        for subject in subjects().filter(|subject| *subject != last) {
            for _ in 0..others {
                read(&mut visit, subject).expect("called");
            }
        }
        for made in 0..32 {
            assert_eq!(read(&mut visit, last), Ok(Call(15 * others + made)));
        }
        assert_eq!(read(&mut visit, last), FULL);
    }
}

#[test]
fn refused_calls_count_for_nothing() {
    let mut visit = lent_to_all();
    let (asking, mine, wide) = (Subject(3), Cell(3), 1 << 31);
    let refused = |visit: &mut Visit| -> Vec<u8> {
        let before = visit.state().clone();
        let asked = [
            visit.call(Subject(16), mine, READ, &[]),
            visit.call(asking, DESK_CELL, READ, &[]),
            visit.call(asking, mine, Method(2), &[]),
            visit.call(asking, mine, READ, &[1]),
            visit.call(asking, mine, MARK, &[wide]),
        ];
        assert!(*visit.state() == before);
        let numbers = asked.map(|called| called.expect_err("refused").number());
        numbers.to_vec()
    };
    for _ in 0..100 {
        assert_eq!(refused(&mut visit), [5, 6, 14, 15, 16]);
    }
    assert_eq!(reads(&mut visit, asking), 32);
    // 18 stands behind 15 and in front of what crosses
    assert_eq!(refused(&mut visit), [5, 6, 14, 15, 18]);
}

/// The first cell, which the desk holds.
const DESK_CELL: Cell = Cell(0);

/// A state handed in with calls of these callers, every third answered.
fn handed(callers: impl IntoIterator<Item = u8>) -> State {
    let mut state = lent_to_all().state().clone();
    let mut count = 0;
    for (caller, record) in callers
        .into_iter()
        .zip(state.calls.chunks_exact_mut(CALL_RECORD))
    {
        record.copy_from_slice(&[caller, caller, 0, u8::from(count % 3 == 0)]);
        count += 1;
    }
    state.counts[7] = count;
    state
}

/// Every function on states gives 2 for it, and stores nothing.
fn refused_by_all(state: &State) {
    assert_eq!(
        Visit::from_state(state.clone()).err(),
        Some(Refusal::OutOfRange)
    );
    let (mut values, mut offered, mut served) = ([7; 3], 7, 7);
    let mut answers = [7; 8];
    let mut lent = state.clone();
    let words = [2, 3, 15, 15, 0];
    let codes = [
        raw::offers(lent.lend(), 0, &[0], &mut offered),
        raw::new_object(lent.lend_mut(), 15, 1, 1, &mut values),
        raw::move_reference(lent.lend_mut(), 15, 15, 0, 1, &mut values),
        raw::call(lent.lend_mut(), 15, 15, 0, &[], &mut values),
        raw::answer(lent.lend_mut(), 0, 1, 1, 5, &mut values),
        raw::run(lent.lend_mut(), &words, &mut answers, &mut served),
    ];
    assert_eq!(codes, [2; 6]);
    assert!(lent == *state);
    assert_eq!((values, answers), ([7; 3], [7; 8]));
    assert_eq!((offered, served), (7, 7));
}

/// 0 to 15 over and over, and each of them so often in a row.
fn in_turn() -> impl Iterator<Item = u8> {
    (0..16).cycle()
}
fn in_rows() -> impl Iterator<Item = u8> {
    (0..16).flat_map(|caller| [caller; MAX_CALLS_EACH])
}

#[test]
fn more_of_one_caller_than_it_may_make_are_refused() {
    for caller in [0, 1, 15] {
        let all = |count: usize| vec![caller; count];
        let others = || in_turn().filter(move |other| *other != caller);
        let mut sound = Visit::from_state(handed(all(32))).expect("32 of one");
        let subject = Subject(i64::from(caller));
        assert_eq!(read(&mut sound, subject), FULL);
        for other in subjects().filter(|other| *other != subject) {
            assert_eq!(reads(&mut sound, other), 32);
        }
        for count in [33, 34, 64, 256, 257, 288, 289, 511, 512] {
            refused_by_all(&handed(all(count)));
        }
        // before, between and behind those of others
        let others = |count: usize| others().take(count).collect::<Vec<u8>>();
        refused_by_all(&handed([all(33), others(400)].concat()));
        refused_by_all(&handed([others(400), all(33)].concat()));
        refused_by_all(&handed([all(32), others(447), all(1)].concat()));
        let sound = handed([all(16), others(480), all(16)].concat());
        assert!(Visit::from_state(sound).is_ok());
    }
    // whether they are answered is not asked
    for flag in [0, 1] {
        let mut state = handed([5; 33]);
        let records = state.calls.chunks_exact_mut(CALL_RECORD);
        records.for_each(|record| record[3] = flag);
        refused_by_all(&state);
    }
}

#[test]
fn as_many_calls_as_there_can_be_are_accepted_and_one_more_is_not() {
    for full in [handed(in_turn()), handed(in_rows())] {
        assert_eq!(full.counts[7], 512);
        let mut visit = Visit::from_state(full.clone()).expect("sound");
        for subject in subjects() {
            assert_eq!(read(&mut visit, subject), FULL);
        }
        // those with numbers 0, 3, 6 .. are answered
        let answer = visit.answer(DESK, Call(511), Some(9));
        assert_eq!(answer, Ok(Answered::Number(9)));
        assert!(visit.calls().last().is_some_and(|call| call.answered));
        // one of them by another: 33 and 31
        let mut moved = full.clone();
        moved.calls[CALL_RECORD * 511] = 4;
        refused_by_all(&moved);
        // a count above the limit, whatever stands there
        for count in [513, 514, 767, 768, 1024, 512 + 65_536, usize::MAX] {
            let mut state = full.clone();
            state.counts[7] = count;
            refused_by_all(&state);
        }
        // a call of one that has made none yet finds room
        let mut visit = Visit::from_state(handed(in_rows().skip(32))).expect("480 calls");
        assert_eq!(read(&mut visit, DESK), Ok(Call(480)));
        assert_eq!(reads(&mut visit, DESK), 31);
    }
}

/// A call is its caller's, also in a state where another holds the cell (H16).
#[test]
fn the_caller_counts_and_not_who_holds_the_cell() {
    let through = |cell: u8, callers: Vec<u8>| {
        let mut state = handed(callers);
        let records = state.calls.chunks_exact_mut(CALL_RECORD);
        records.for_each(|record| record[1] = cell);
        state
    };
    let (caller, holder) = (Subject(5), Subject(6));
    let mut visit = Visit::from_state(through(6, vec![5; 32])).expect("32 of one");
    assert_eq!(read(&mut visit, caller), FULL);
    assert_eq!(reads(&mut visit, holder), 32);
    let mut visit = Visit::from_state(through(6, in_turn().take(480).collect())).expect("sound");
    assert_eq!(reads(&mut visit, holder), 2);
    assert_eq!(reads(&mut visit, caller), 2);
    assert!(Visit::from_state(through(6, in_rows().collect())).is_ok());
    // cells of every subject, called through by one
    let mut state = through(0, vec![5; 33]);
    let records = state.calls.chunks_exact_mut(CALL_RECORD).zip(in_turn());
    records.for_each(|(record, cell)| record[1] = cell);
    refused_by_all(&state);
}

/// What stands behind the count is nobody's call.
#[test]
fn what_is_behind_the_count_is_not_counted() {
    let mut state = handed([6; 32]);
    let behind = &mut state.calls[CALL_RECORD * 32..];
    behind.fill(6);
    let mut visit = Visit::from_state(state).expect("sound");
    assert_eq!(read(&mut visit, Subject(6)), FULL);
    assert_eq!(reads(&mut visit, Subject(7)), 32);
    assert_eq!(made_by(&visit, Subject(6)), 32);
}

/// The same in one run: 33 calls of one subject, with one of another between the last two.
#[test]
fn a_run_counts_as_single_requests_do() {
    let mut state = lent_to_all().state().clone();
    let call = |subject: i64| [2, 3, subject, subject, 0];
    let asked = [vec![call(1); 32], vec![call(2), call(1), call(2)]].concat();
    let (mut answers, mut served) = (vec![7; 4 * asked.len()], 0);
    let words = asked.concat();
    let code = raw::run(state.lend_mut(), &words, &mut answers, &mut served);
    assert_eq!((code, served, state.counts[7]), (0, 35, 34));
    let codes: Vec<i64> = answers.chunks(4).map(|answer| answer[0]).collect();
    let due = [vec![0; 33], vec![18, 0]].concat();
    assert_eq!(codes, due);
}
