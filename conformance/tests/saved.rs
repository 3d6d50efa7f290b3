//! Saved states by docs/GUIDE.md ("A saved state") and from nothing else: what the package saves is what stands there, of states that requests led to and of
//! hostile ones, and what it reads is refused exactly where the core refuses the state.

use conformance::requests::{counted, Core};
use conformance::served::{counts, given, set_counts, Proved};
use conformance::states::{made_by, of_table};
use conformance::tiny_first;
use pilgonca::raw::State;
use pilgonca::saved::checksum;
use pilgonca::{Refusal, SavedRefused, Subject, Visit};
use reference::generators::{Profile, PROFILES};
use reference::hostile::Hostile;
use reference::raw::{RawState, RawTable, BROADER_BYTES};
use reference::script;
use reference::sheet;

/// The most of everything that is counted, in the order of the counts.
const MOST: [usize; 8] = [16, 16, 31, 48, 128, 256, 128, 512];

/// The most calls of a file of version 1, and of a subject in one of version 2.
const OLD_CALLS: usize = 256;
const OF_ONE: usize = 32;

/// The file of a state by the guide's table. None where a count is above its limit: there are no records to save.
fn by_hand(state: &RawState) -> Option<Vec<u8>> {
    of_version(2, state)
}

/// The same of a version: in the first all subjects together make 256 calls.
fn of_version(version: u8, state: &RawState) -> Option<Vec<u8>> {
    let counts = counts(state);
    let mut most = MOST;
    most[7] = if version == 1 { OLD_CALLS } else { most[7] };
    let within = counts.iter().zip(most).all(|(count, most)| *count <= most);
    let counted = within.then(|| counted(state))?;
    let [links, types, cells, places, calls] = counted;
    let links = &links[BROADER_BYTES..][..counts[2] * BROADER_BYTES];
    let words = counts.map(|count| [count as u8, (count >> 8) as u8]);
    let head = [&b"PILGONCA"[..], &[version, 0], &words.concat()].concat();
    let front = [&head, types, links, cells, places, calls].concat();
    let sum = checksum(&front);
    let sum = [0, 8, 16, 24].map(|bits| (sum >> bits) as u8);
    Some([&front[..], &sum].concat())
}

fn taken(visit: &Visit) -> RawState {
    let State {
        types,
        links,
        cells,
        places,
        calls,
        counts,
    } = *visit.state();
    let mut state = of_table(RawTable {
        type_bytes: types,
        broader: links,
        ..RawTable::default()
    });
    (state.cell_bytes, state.place_bytes, state.call_bytes) = (cells, places, calls);
    set_counts(&mut state, counts);
    state
}

/// Whether a state is sound; if it is, it is saved and read, and what comes back answers as it does.
fn round(hostile: &Hostile) -> bool {
    let state = &hostile.state;
    let Ok(visit) = Visit::from_state(given(state)) else {
        return false;
    };
    let file = by_hand(state).expect("counts of a sound state");
    assert_eq!(visit.save(), file);
    let read = Visit::from_saved(&file).expect("a saved state");
    assert_eq!(read.save(), file);
    if let Some(old) = of_version(1, state) {
        let read = Visit::from_saved(&old).expect("an older one");
        assert_eq!(read.save(), file);
    }
    let (mut theirs, mut ours) = (taken(&read), state.clone());
    for request in &hostile.requests {
        let answer = Proved.request(&mut theirs, request);
        assert_eq!(answer, Proved.request(&mut ours, request), "{request:?}");
        assert_eq!(counts(&theirs), counts(&ours), "{request:?}");
        // all but the links, of which those that are counted were in the file
        assert_eq!(counted(&theirs)[1..], counted(&ours)[1..], "{request:?}");
    }
    true
}

/// The state that a script leaves, byte for byte as the core leaves it, and the requests once more.
fn left_by(input: &[u8]) -> Option<Hostile> {
    let script = script::read(input).ok()?;
    let mut state = of_table(RawTable::of(&script.table));
    for request in &script.requests {
        let _ = Proved.request(&mut state, request);
    }
    let requests = script.requests.into_iter().take(20).collect();
    Some(Hostile { state, requests })
}

#[test]
fn states_that_scripts_leave_come_back() {
    let mut met = [0; 3];
    let scripts = PROFILES.map(|profile| match profile {
        Profile::Full => (profile, 20),
        _ => (profile, 80),
    });
    for script in tiny_first::scripts(&scripts) {
        if let Some(left) = left_by(&script.of) {
            assert!(round(&left), "{}", script.from);
            let [.., cells, places, calls] = counts(&left.state);
            for (most, count) in met.iter_mut().zip([cells, places, calls]) {
                *most = count.max(*most);
            }
        }
    }
    println!("at most {met:?} cells, places and calls");
    assert_eq!(met, [256, 128, 512]);
}

/// What a file is refused with whose state is unsound, by the guide: whose calls are too many where they are, of the first such
/// subject, and else 2 alone.
fn refusal(state: &RawState) -> SavedRefused {
    let made = made_by(state).into_iter().enumerate();
    let mut above = made.filter(|(_, count)| *count > OF_ONE);
    match above.next() {
        Some((of, count)) => SavedRefused::Calls {
            of: Subject::from(of as u8),
            count,
            most: OF_ONE,
        },
        None => SavedRefused::State(Refusal::OutOfRange),
    }
}

#[test]
fn hostile_states_come_back_or_are_refused() {
    let (mut sound, mut unsound, mut wide) = (0, 0, 0);
    for hostile in tiny_first::crowded_states(0..4000) {
        if round(&hostile.of) {
            sound += 1;
            continue;
        }
        let Some(file) = by_hand(&hostile.of.state) else {
            wide += 1;
            continue;
        };
        let refused = Visit::from_saved(&file).expect_err("unsound");
        assert_eq!(refused, refusal(&hostile.of.state), "{}", hostile.from);
        unsound += 1;
    }
    println!("{sound} sound, {unsound} refused by the core, {wide} with a count above its limit");
    assert!(sound > 1000 && unsound > 500 && wide > 10);
}

/// At the limits of calls: what is sound comes back, also from a file of version 1 where it has so many; more than 32 of one are
/// refused by whose they are, in both versions, and more than 256 in version 1 or 512 in version 2 by their count.
#[test]
fn states_at_the_limits_of_calls_come_back_or_are_refused() {
    let (mut sound, mut whose, mut counted) = (0, 0, [0; 2]);
    for hostile in tiny_first::call_limits(0..640) {
        let (state, from) = (&hostile.of.state, &hostile.from);
        let is_sound = round(&hostile.of);
        sound += usize::from(is_sound);
        for version in [1, 2] {
            let Some(file) = of_version(version, state) else {
                counted[usize::from(version) - 1] += 1;
                continue;
            };
            let read = Visit::from_saved(&file);
            if is_sound {
                let saved = read.ok().map(|visit| visit.save());
                assert_eq!(saved, by_hand(state), "{from}");
                continue;
            }
            let refused = read.expect_err("unsound");
            assert_eq!(refused, refusal(state), "{from}");
            whose += usize::from(matches!(refused, SavedRefused::Calls { .. }));
        }
    }
    println!("{sound} sound, {whose} refused by whose calls they are, {counted:?} have too many");
    assert!(sound > 300 && whose > 150 && counted > [150, 50]);
}

/// A file that counts one call too many, its bytes and its checksum being right.
#[test]
fn a_count_of_calls_above_its_limit() {
    let case = sheet::read(include_bytes!("../../examples/case-p.sheet")).expect("a sheet");
    for (version, most) in [(1u8, OLD_CALLS), (2, MOST[7])] {
        for (calls, due) in [(most, None), (most + 1, Some(most))] {
            let file = by_hand(&of_table(RawTable::of(&case))).expect("no calls");
            let mut front = file[..file.len() - 4].to_vec();
            front[8] = version;
            front[10 + 14..10 + 16].copy_from_slice(&[calls as u8, (calls >> 8) as u8]);
            front.resize(front.len() + 4 * calls, 0);
            let sum = checksum(&front).to_le_bytes();
            let refused = Visit::from_saved(&[&front[..], &sum].concat()).expect_err("unsound");
            let above = |most| SavedRefused::Count {
                of: "calls",
                count: calls,
                most,
            };
            // all of them are subject 0's
            let of_one = SavedRefused::Calls {
                of: Subject::from(0),
                count: calls,
                most: OF_ONE,
            };
            assert_eq!(refused, due.map_or(of_one, above), "version {version}");
        }
    }
}

/// Every bit of whole states, and every length.
#[test]
fn every_bit_is_held_by_the_checksum() {
    for script in tiny_first::scripts(&[(Profile::Small, 3)]) {
        let left = left_by(&script.of).expect("a sheet");
        let file = by_hand(&left.state).expect("counts of a sound state");
        for at in 0..file.len() {
            assert!(Visit::from_saved(&file[..at]).is_err());
            for bit in 0..8 {
                let mut damaged = file.clone();
                damaged[at] ^= 1 << bit;
                assert!(Visit::from_saved(&damaged).is_err(), "byte {at}, bit {bit}");
            }
        }
    }
}
