//! Each subject's own calls (02 c) through the proved core's C functions, runs and script: sixteen subjects at their limit, one at its own and another at none,
//! states handed in at every limit, and what requests and outcomes alone say of records and of 18 (L28 to L30).

use conformance::calls::{
    self, all_calls, by_the_transcript, call_by, ends, handed_out, of_sheet, one_of_each, outcomes,
    run_by_the_transcript, with_every_kind, End, Outcomes, Serves, ORDERS,
};
use conformance::requests::{difference, loaded, loaded_anew, on_handed_in, on_offers, Core};
use conformance::run_lists::{self, List};
use conformance::runs;
use conformance::scripts::{proved, Met};
use conformance::served::{counts, Proved};
use conformance::states::{made_by, with_511_calls};
use conformance::tiny_first;
use conformance::worst_scripts;
use pilgonca::raw::{State as Lent, CALL_RECORD, MAX_CALLS, MAX_CALLS_EACH};
use pilgonca::script as printed;
use reference::check;
use reference::coverage::{Seen, OF_REQUESTS};
use reference::entry;
use reference::generators::{two_lists, Profile, PROFILES};
use reference::hostile::{self, Hostile, Limit, LIMITS};
use reference::random::Random;
use reference::raw::{RawState, RawTable, CALLS_LENGTH, CALL_BYTES};
use reference::refusal::{CALLS_FULL, OUT_OF_RANGE};
use reference::requests::{Got, Request};
use reference::script;
use reference::sheet;
use reference::table::{Table, MAX_SUBJECTS};
use reference::tiny;
use reference::transcript::passes;

/// What the arrays of a state have room for (B25): 512 calls of four bytes.
#[test]
fn calls_have_2048_bytes() {
    assert_eq!((MAX_CALLS, MAX_CALLS_EACH), (512, 32));
    assert_eq!((CALL_RECORD, CALL_BYTES), (4, 4));
    assert_eq!(Lent::default().calls.len(), 2048);
    assert_eq!(CALLS_LENGTH, 2048);
}

/// The state of Case P for sixteen subjects, each with a cell; noise stands in the bytes that mean nothing.
fn with_cells(seed: u64) -> RawState {
    let table = sheet::read(calls::sheet().as_bytes()).expect("a sheet");
    let mut state = loaded_anew(&RawTable::of(&table));
    hostile::noise(&mut Random::new(seed), &mut state);
    for request in handed_out() {
        Proved.request(&mut state, &request).expect("accepted");
    }
    state
}

/// What a call of a subject has to leave: its record behind the last, one call more, and every other byte as it was.
fn with_record(mut state: RawState, subject: usize) -> RawState {
    let number = state.calls as usize;
    let record = [subject as u8, subject as u8, 0, 0];
    state.call_bytes[number * 4..number * 4 + 4].copy_from_slice(&record);
    state.calls += 1;
    state
}

/// All 512 calls in every order, each with its own four bytes and nothing else, and then 18 for each subject, which leaves every byte:
/// through the C functions one by one.
#[test]
fn sixteen_subjects_at_their_limit_by_requests() {
    for (seed, order) in ORDERS.into_iter().enumerate() {
        let mut state = with_cells(seed as u64);
        for number in 0..MAX_CALLS {
            let subject = order(number);
            let due = with_record(state.clone(), subject);
            let got = Proved.request(&mut state, &call_by(subject));
            let call = Got::Call {
                call: number,
                adapters: 0,
            };
            assert_eq!(got, Ok(call));
            assert!(state == due, "call {number} leaves another byte");
        }
        assert_eq!(made_by(&state)[..MAX_SUBJECTS], [MAX_CALLS_EACH; 16]);
        let before = state.clone();
        for request in one_of_each() {
            assert_eq!(Proved.request(&mut state, &request), Err(CALLS_FULL));
            assert!(state == before, "{request:?} is refused and changes a byte");
        }
    }
}

/// The same in one run, and in two that the limit stands between: the states are those of the C functions one by one.
#[test]
fn sixteen_subjects_at_their_limit_in_a_run() {
    for (seed, order) in ORDERS.into_iter().enumerate() {
        let start = with_cells(seed as u64);
        let requests = [all_calls(order), one_of_each(), one_of_each()].concat();
        let mut one_by_one = start.clone();
        for request in &requests {
            let _ = Proved.request(&mut one_by_one, request);
        }
        for cut in [0, 1, 511, 512, 513, requests.len()] {
            let (first, second) = requests.split_at(cut);
            let mut state = start.clone();
            let mut met = outcomes(Proved::run, &mut state, first);
            met.extend(outcomes(Proved::run, &mut state, second));
            let due = [vec![None; 512], vec![Some(CALLS_FULL); 32]].concat();
            assert_eq!(met, due);
            assert!(state == one_by_one, "a run leaves another byte");
        }
        let mut of_reference = start.clone();
        let met = outcomes(runs::run, &mut of_reference, &requests);
        assert_eq!(
            (met.len(), counts(&of_reference)),
            (544, counts(&one_by_one))
        );
        assert!(of_reference.call_bytes == one_by_one.call_bytes);
    }
}

/// Requests of Case P with sixteen subjects behind those that hand out its cells.
fn on_cells(requests: &[Request]) -> Vec<u8> {
    let requests = [handed_out(), requests.to_vec()].concat();
    let lines = requests.iter().map(script::line);
    [calls::sheet(), lines.collect()].concat().into_bytes()
}

/// A subject at 32 and another at 0, whichever they are: the one gets 18, and the other makes its 32 all the same. By requests, in a
/// run, and in a script, by the function and by the program.
#[test]
fn one_at_32_and_another_at_0() {
    for one in 0..MAX_SUBJECTS {
        let other = (one + 1 + one % 3) % MAX_SUBJECTS;
        let of = |subject| vec![call_by(subject); MAX_CALLS_EACH + 1];
        let requests = [of(one), of(other), of(one)].concat();
        let full = [vec![None; 32], vec![Some(CALLS_FULL)]].concat();
        let due = [full.clone(), full, vec![Some(CALLS_FULL); 33]].concat();
        let (mut state, mut in_run) = (with_cells(7), with_cells(7));
        let one_by_one: Outcomes = requests
            .iter()
            .map(|request| Proved.request(&mut state, request).err())
            .collect();
        assert_eq!(one_by_one, due, "{one} {other}");
        assert_eq!(outcomes(Proved::run, &mut in_run, &requests), due);
        assert!(state == in_run);
        let mut made = [0; 256];
        (made[one], made[other]) = (32, 32);
        assert_eq!(made_by(&state), made);
        let input = on_cells(&requests);
        for program in [printed, proved] {
            Met::default().same(&program, &input, "one at 32");
            assert_eq!(told(&program(&input))[MAX_SUBJECTS..], due);
        }
    }
}

/// The outcomes that a script prints.
fn told(output: &[u8]) -> Outcomes {
    let text = std::str::from_utf8(output).expect("ASCII");
    let number = |line: &str| {
        line.strip_prefix("no=")
            .map(|one| one.parse().expect("a number"))
    };
    text.lines().map(number).collect()
}

/// Every tiny sheet: its only subject makes an object, and then calls each method 34 times, with the object where it takes one. What
/// can be called is called 32 times, whatever the methods.
#[test]
fn tiny_sheets_to_their_limit() {
    let mut full = 0;
    for table in tiny::tables() {
        let new = Request::New {
            subject: 0,
            class: 0,
            type_: 0,
        };
        let mut requests = vec![new];
        for (at, arguments) in (0..34).flat_map(|_| [(0, 0), (0, 1), (1, 0), (1, 1)]) {
            requests.push(Request::Call {
                subject: 0,
                cell: 0,
                method: at,
                arguments: vec![0; arguments],
            });
        }
        let list = Hostile {
            state: of_sheet(&table),
            requests,
        };
        assert_eq!(difference(&Proved, &list, &mut Seen::default()), None);
        assert_eq!(by_the_transcript(&Proved, &list, &mut full), None);
        assert_eq!(run_by_the_transcript(Proved::run, &list), None);
        let text = worst_scripts::script(&list.state.table, &list.requests);
        Met::default().same(&printed, &text, "tiny");
    }
    println!("18 met {full} times");
    assert!(full > 500, "{full}");
}

/// What a limit is for: 2, whatever is asked, or a state that is served.
fn is_unfit(limit: Limit) -> bool {
    match limit {
        Limit::Count(_) | Limit::AllWithOneMore => true,
        Limit::Of(count) | Limit::Answered(count) => count > MAX_CALLS_EACH,
        _ => false,
    }
}

/// Every limit, so many seeds of each, with requests of every kind: the proved core does what the reference does, by the C functions
/// one by one. Unfit states get 2 by each of the four, and keep every byte.
fn requests_at_limits(of_each: u64) {
    let mut met = LIMITS.map(|limit| (limit, Seen::default()));
    for (at, (limit, seen)) in met.iter_mut().enumerate() {
        for seed in (0..of_each).map(|one| one * LIMITS.len() as u64 + at as u64) {
            let hostile = with_every_kind(seed, &hostile::at_call_limits(seed));
            let unfit = check::state(&hostile.state).is_err();
            assert_eq!(unfit, is_unfit(*limit), "{limit:?} seed {seed}");
            let found = on_handed_in(&Proved, &hostile, seen);
            assert_eq!(found, None, "{limit:?} seed {seed}");
        }
    }
    for (limit, seen) in met {
        println!("{limit:?}\n{}", seen.text());
        for (name, _) in OF_REQUESTS {
            // one that is fit may be left unsound by what is accepted (Q19)
            let refused = seen.refused.get(&(*name, OUT_OF_RANGE));
            assert!(refused.is_some() || !is_unfit(limit), "{limit:?} {name}");
            let accepted = seen.accepted.get(name);
            let never = is_unfit(limit) || limit == Limit::AllBut(0) && *name == "call";
            assert_eq!(accepted.is_none(), never, "{limit:?} {name}");
        }
        let others = seen.refused.keys().filter(|key| key.1 != OUT_OF_RANGE);
        assert_eq!(others.count() == 0, is_unfit(limit), "{limit:?}");
        let full = seen.refused.get(&("call", CALLS_FULL));
        assert!(is_unfit(limit) || full.is_some(), "{limit:?}");
    }
}

#[test]
fn requests_on_states_at_the_limits_of_calls() {
    requests_at_limits(60);
}

#[test]
#[ignore = "long"]
fn requests_on_many_states_at_the_limits_of_calls() {
    requests_at_limits(6000);
}

/// The same requests in runs, with words between them that are none, and answer lists of every length.
#[test]
fn runs_on_states_at_the_limits_of_calls() {
    let mut met = run_lists::Met::default();
    for hostile in tiny_first::call_limits(0..960) {
        let of = with_every_kind(hostile.seed, &hostile.of);
        let list = run_lists::on_handed_in(tiny_first::Input { of, ..hostile });
        let found = run_lists::difference(Proved::run, runs::run, &list, &mut met);
        assert_eq!(found, None, "{:?}", hostile::limit(hostile.seed));
    }
    println!("{met:?}");
    assert!(met.numbers[2] > 200 && met.numbers[18] > 500, "{met:?}");
    assert!(met.rooms.iter().all(|count| *count > 50), "{met:?}");
}

/// Whatever is asked of a state that passed the check, and however often, nobody has 33 records behind it (Q19), also in a run, which
/// goes on where what was accepted left a state unsound.
#[test]
fn nobody_comes_to_33_records() {
    let mut full = 0;
    let states = tiny_first::call_limits(0..640).chain(tiny_first::crowded_states(0..1000));
    for hostile in states {
        let mut hostile = with_every_kind(hostile.seed, &hostile.of);
        if check::state(&hostile.state).is_ok() {
            let again = vec![hostile.requests.clone(); MAX_CALLS_EACH + 1].concat();
            let met = outcomes(Proved::run, &mut hostile.state, &again);
            full += met.iter().filter(|one| **one == Some(CALLS_FULL)).count();
            let most = made_by(&hostile.state).into_iter().max();
            assert!(most <= Some(MAX_CALLS_EACH), "{most:?}");
        }
    }
    println!("18 met {full} times");
    assert!(full > 5000, "{full}");
}

/// What is offered there: chains offered, not offered and 2.
#[test]
fn offers_on_states_at_the_limits_of_calls() {
    let mut offered = [0; 3];
    for hostile in tiny_first::call_limits(0..960) {
        let found = on_offers(&Proved, &hostile, &mut offered);
        assert_eq!(found, None, "{}", hostile.from);
    }
    println!("chains not offered, offered, refused: {offered:?}");
    assert!(offered.iter().all(|count| *count > 1000), "{offered:?}");
}

/// 2 and 18, wherever they are met at a limit, change no byte of the five arrays, of the eight counts or of the lent answers, by each
/// request, in a run and by offers.
#[test]
fn no_byte_is_changed_by_2_or_18() {
    let mut kept = [0; 2];
    for hostile in tiny_first::call_limits(0..640) {
        let hostile = with_every_kind(hostile.seed, &hostile.of);
        let unfit = check::state(&hostile.state).is_err();
        for request in &hostile.requests {
            let mut state = hostile.state.clone();
            let refusal = Proved.request(&mut state, request).err();
            assert_eq!(refusal == Some(OUT_OF_RANGE), unfit);
            if unfit || refusal == Some(CALLS_FULL) {
                assert!(state == hostile.state, "{request:?} {refusal:?}");
                kept[usize::from(unfit)] += 1;
                let words = runs::words(request);
                let mut answers = [0x5a5a; 8];
                let served = Proved::run(&mut state, &words, &mut answers);
                let (due, left) = if unfit {
                    (Err(OUT_OF_RANGE), [0x5a5a; 4])
                } else {
                    (Ok(1), [18, 0, 0, 0])
                };
                assert_eq!((served, &answers[..4]), (due, &left[..]));
                assert_eq!(answers[4..], [0x5a5a; 4]);
                assert!(state == hostile.state, "a run of {request:?}");
            }
        }
        let offers = Proved.offers(&hostile.state, 0, &[]);
        assert_eq!(offers == Err(OUT_OF_RANGE), unfit);
    }
    println!("{kept:?} refusals with 18, and with 2");
    assert!(kept.iter().all(|count| *count > 500), "{kept:?}");
}

/// A request of every kind where so many calls were made: by a subject that has made all of its own, of the last call and of the one
/// behind it, and by subject 0.
fn of_every_kind(calls: i64) -> [Request; 7] {
    let answer = |call| Request::Answer {
        subject: 0,
        call,
        value: Some(9),
    };
    let new = Request::New {
        subject: 15,
        class: 1,
        type_: 1,
    };
    let moved = Request::Move {
        subject: 0,
        cell: 0,
        receiver: 3,
        type_: 5,
    };
    [
        call_by(1),
        new,
        moved,
        answer(calls - 1),
        answer(calls),
        call_by(0),
        call_by(0),
    ]
}

/// A state with 511 calls, then 512, which has no room for another record: requests of every kind, a run of them, and what is offered
/// are the reference's.
#[test]
fn call_512_and_513() {
    let state = with_511_calls(with_cells(3));
    let mut after = state.clone();
    let call = Got::Call {
        call: 511,
        adapters: 0,
    };
    assert_eq!(Proved.request(&mut after, &call_by(0)), Ok(call));
    assert!(after == with_record(state.clone(), 0));
    assert_eq!(Proved.request(&mut after, &call_by(0)), Err(CALLS_FULL));
    for (state, calls) in [(&state, 511), (&after, 512)] {
        assert_eq!(state.calls, calls);
        let requests = of_every_kind(i64::from(calls)).to_vec();
        let lists = List {
            state: state.clone(),
            words: requests.iter().flat_map(runs::words).collect(),
            answers: vec![7; 40],
        };
        let state = state.clone();
        let list = Hostile { state, requests };
        assert_eq!(difference(&Proved, &list, &mut Seen::default()), None);
        let met = &mut run_lists::Met::default();
        let found = run_lists::difference(Proved::run, runs::run, &lists, met);
        assert_eq!(found, None);
        for (cell, chain) in [(0, vec![]), (1, vec![0]), (1, vec![1]), (16, vec![])] {
            let offered = entry::offers(&list.state, cell, &chain);
            assert_eq!(Proved.offers(&list.state, cell, &chain), offered);
        }
    }
}

/// Scripts of every profile, and those that come to the limit of sixteen subjects among them.
fn lists() -> impl Iterator<Item = (String, Hostile)> {
    let scripts = PROFILES.map(|profile| match profile {
        Profile::Full => (profile, 60),
        Profile::Big => (profile, 20),
        _ => (profile, 150),
    });
    let scripts: Vec<_> = tiny_first::scripts(&scripts).collect();
    scripts.into_iter().filter_map(|script| {
        let (_, list) = loaded(&script)?;
        Some((script.from, list))
    })
}

/// L28 and L29 on what runs: behind each request the records in the bytes that the C functions left are as many, of each caller, as its
/// accepted calls by requests and outcomes alone, and 18 is met by a call exactly where these are 32.
#[test]
fn records_and_18_go_by_the_transcript() {
    let (mut full, mut most) = (0, 0);
    for (from, list) in lists() {
        assert_eq!(by_the_transcript(&Proved, &list, &mut full), None, "{from}");
        assert_eq!(run_by_the_transcript(Proved::run, &list), None, "{from}");
        let mut state = list.state;
        outcomes(Proved::run, &mut state, &list.requests);
        most = most.max(state.calls);
    }
    println!("18 met {full} times, at most {most} calls");
    assert!(full > 300, "{full}");
    assert_eq!(most, 512);
}

fn by_requests(table: &Table, requests: &[Request]) -> Outcomes {
    let mut state = of_sheet(table);
    let asked = requests.iter();
    asked
        .map(|request| Proved.request(&mut state, request).err())
        .collect()
}

fn in_a_run(table: &Table, requests: &[Request]) -> Outcomes {
    outcomes(Proved::run, &mut of_sheet(table), requests)
}

fn by_a_script(table: &Table, requests: &[Request]) -> Outcomes {
    let text = sheet::text(table);
    let lines: String = requests.iter().map(script::line).collect();
    told(&printed(&[text, lines.into_bytes()].concat()))
}

/// L30 on what runs: two lists from one sheet in which a subject has equally many accepted calls, by requests and outcomes alone, and
/// which differ at will in the others' requests. Its call at the end of the one and of the other meets 18 in both or in neither. By the C
/// functions, in a run, and in a script.
fn two_histories(seeds: u64) -> [usize; 3] {
    let ways: [Serves; 3] = [by_requests, in_a_run, by_a_script];
    let (mut full, mut free, mut apart) = (0, 0, 0);
    for seed in 0..seeds {
        let two = two_lists(seed);
        let all = ways.map(|way| ends(way, &two));
        for end in all.into_iter().flatten() {
            let End {
                accepted, refusal, ..
            } = end;
            assert_eq!(accepted, two.accepted, "{seed}");
            assert!(passes(refusal), "{seed}: {refusal:?}");
            let is_full = refusal == Some(CALLS_FULL);
            assert_eq!(is_full, accepted == MAX_CALLS_EACH, "{seed}");
        }
        let [[one, other], ..] = all;
        full += usize::from(one.refusal == Some(CALLS_FULL));
        free += usize::from(one.refusal != Some(CALLS_FULL));
        apart += usize::from(one.of_others.abs_diff(other.of_others) > 64);
        assert!(all.iter().all(|ends| *ends == all[0]), "{seed}: {all:?}");
    }
    [full, free, apart]
}

#[test]
fn two_histories_agree_on_18() {
    let met = two_histories(200);
    println!("18 in both, in neither; others' calls more than 64 apart: {met:?}");
    assert!(met.iter().all(|count| *count > 50), "{met:?}");
}

#[test]
#[ignore = "long"]
fn many_histories_agree_on_18() {
    two_histories(20_000);
}
