//! Requests on whole states: what serves them is held against the reference, on states handed in and on those of loaded sheets,
//! and against the reference's book (demand 3).

use crate::served::{counts, load, set_counts};
use crate::states::of_table;
use crate::tiny_first::Input;
use pilgonca::raw::MAX_TEXT;
use reference::book::Book;
use reference::chains::All;
use reference::coverage::Seen;
use reference::entry;
use reference::hostile::{self, Hostile};
use reference::random::Random;
use reference::raw::{RawState, RawTable, CALL_BYTES, CELL_BYTES, PLACE_BYTES, TYPE_BYTES};
use reference::refusal::Refusal;
use reference::requests::{Got, Request};
use reference::script;
use reference::shrink::shrink_hostile;
use reference::state::State;
use reference::table::Table;

/// What serves requests on states in bytes: the proved core through its C functions, or a stand-in.
pub trait Core {
    /// The answer; the state becomes what is left.
    fn request(&self, state: &mut RawState, request: &Request) -> Result<Got, Refusal>;

    /// Whether a cell offers a chain of methods, or 2.
    fn offers(&self, state: &RawState, cell: i64, chain: &[i64]) -> Result<bool, Refusal>;
}

/// The bytes that count: those of each list below its count, which is within its limit.
pub fn counted(state: &RawState) -> [&[u8]; 5] {
    [
        &state.table.broader,
        &state.table.type_bytes[..state.table.types as usize * TYPE_BYTES],
        &state.cell_bytes[..state.cells as usize * CELL_BYTES],
        &state.place_bytes[..state.places as usize * PLACE_BYTES],
        &state.call_bytes[..state.calls as usize * CALL_BYTES],
    ]
}

/// What is wrong with an answer and the state that it leaves. A refusal leaves every byte; what is accepted leaves the
/// reference's counts, and its bytes below them.
fn fault(
    before: &RawState,
    theirs: (&RawState, Result<Got, Refusal>),
    ours: (&RawState, Result<Got, Refusal>),
) -> Option<String> {
    if theirs.1 != ours.1 {
        return Some(format!("answers {:?} for {:?}", theirs.1, ours.1));
    }
    if ours.1.is_err() {
        return (theirs.0 != before).then(|| "changes the state and refuses".to_string());
    }
    let same = counts(theirs.0) == counts(ours.0) && counted(theirs.0) == counted(ours.0);
    (!same).then(|| format!("leaves\n{:?}for\n{:?}", theirs.0, ours.0))
}

/// Requests one after the other, each on what the one before left: the first fault.
pub fn difference(core: &impl Core, hostile: &Hostile, seen: &mut Seen) -> Option<String> {
    let (mut theirs, mut ours) = (hostile.state.clone(), hostile.state.clone());
    for request in &hostile.requests {
        let before = theirs.clone();
        let answer = core.request(&mut theirs, request);
        let wanted = entry::request(&mut ours, request);
        seen.request(request, &wanted);
        if let Some(fault) = fault(&before, (&theirs, answer), (&ours, wanted)) {
            return Some(format!("{request:?} {fault}\non\n{before:?}"));
        }
    }
    None
}

/// A difference on a state handed in, shown on the smallest found.
pub fn on_handed_in(core: &impl Core, hostile: &Hostile, seen: &mut Seen) -> Option<String> {
    difference(core, hostile, seen)?;
    let mut differs = |other: &Hostile| difference(core, other, &mut Seen::default()).is_some();
    let small = shrink_hostile(hostile, &mut differs);
    difference(core, &small, &mut Seen::default())
}

/// Any number around those below a count, and far outside.
fn any_number(random: &mut Random, count: u32) -> i64 {
    let count = i64::from(count.min(300));
    let odd = [i64::MIN, -1, count, count + 1, 256, 1 << 32, i64::MAX];
    if random.chance(15) {
        return *random.pick(&odd);
    }
    random.below(count.max(1) as usize) as i64
}

/// A cell and a chain on which what is offered in a state handed in differs; `offered` counts the chains that are.
pub fn on_offers(
    core: &impl Core,
    hostile: &Input<Hostile>,
    offered: &mut [u32; 3],
) -> Option<String> {
    let state = &hostile.of.state;
    let mut random = Random::new(hostile.seed);
    for _ in 0..20 {
        let cell = any_number(&mut random, state.cells);
        let length = random.below(4);
        let chain: Vec<i64> = (0..length)
            .map(|_| any_number(&mut random, state.table.methods))
            .collect();
        let wanted = entry::offers(state, cell, &chain);
        let kind = wanted.map_or(2, usize::from);
        offered[kind] += 1;
        let answer = core.offers(state, cell, &chain);
        if answer != wanted {
            return Some(format!(
                "cell {cell}, chain {chain:?}: {answer:?} for {wanted:?} in\n{state:?}"
            ));
        }
    }
    None
}

/// The state of a sheet that has this table, as the proved core loads it.
pub fn loaded_anew(table: &RawTable) -> RawState {
    let mut text = vec![0; MAX_TEXT];
    let length = entry::write(table, &mut text).expect("a sheet");
    let mut state = of_table(RawTable::default());
    let (mut counts, mut at) = (counts(&state), 0);
    let code = load(&text[..length], &mut state, &mut counts, &mut at);
    assert_eq!(code, 0, "a sheet that is loaded");
    set_counts(&mut state, counts);
    state
}

/// The state of a script's sheet, and its requests; every other seed's state has noise in the bytes that mean nothing.
pub fn loaded(script: &Input<Vec<u8>>) -> Option<(Table, Hostile)> {
    let seed = script.seed;
    let script = script::read(&script.of).ok()?;
    let mut state = RawState::of(&State::of_sheet(script.table.clone()));
    if seed % 2 == 1 {
        hostile::noise(&mut Random::new(seed), &mut state);
    }
    let requests = script.requests;
    Some((script.table, Hostile { state, requests }))
}

/// A difference on the state of a loaded sheet.
pub fn on_loaded(core: &impl Core, script: &Input<Vec<u8>>, seen: &mut Seen) -> Option<String> {
    difference(core, &loaded(script)?.1, seen)
}

/// Demand 3 on what runs: the book learns each request and whether it was accepted (L1), and a cell has to offer exactly the chains that its
/// page permits. Every chain of one or two methods, and longer ones that go on where the page does.
pub fn watch(core: &impl Core, script: &Input<Vec<u8>>) -> Option<String> {
    let (table, mut list) = loaded(script)?;
    let mut book = Book::of_sheet(&table);
    for request in &list.requests {
        let accepted = core.request(&mut list.state, request).is_ok();
        if let Err(trouble) = book.feed(request, accepted) {
            return Some(format!("{request:?}: {trouble:?}"));
        }
    }
    let mut random = Random::new(script.seed);
    (0..book.pages.len()).find_map(|cell| {
        let types = book.pages[cell].permitted();
        let page = All {
            table: &book.table,
            types: &types,
        };
        chains(page, &mut random)
            .into_iter()
            .find(|chain| {
                let signed: Vec<i64> = chain.iter().map(|method| *method as i64).collect();
                core.offers(&list.state, cell as i64, &signed) != Ok(page.permit(chain))
            })
            .map(|chain| format!("cell {cell}, chain {chain:?}"))
    })
}

/// The empty chain, every chain of one or two methods, and walks of permitted methods, each with every method behind it.
fn chains(page: All, random: &mut Random) -> Vec<Vec<usize>> {
    let methods = 0..page.table.methods;
    let longer = |chain: &[usize]| -> Vec<Vec<usize>> {
        let one_more = |method| [chain, &[method]].concat();
        methods.clone().map(one_more).collect()
    };
    let mut all = vec![vec![]];
    all.extend(longer(&[]));
    for method in methods.clone() {
        all.extend(longer(&[method]));
    }
    for _ in 0..3 {
        let mut chain = Vec::new();
        for _ in 0..6 {
            let next: Vec<_> = longer(&chain)
                .into_iter()
                .filter(|one| page.permit(one))
                .collect();
            if next.is_empty() {
                break;
            }
            chain = random.pick(&next).clone();
        }
        all.extend(longer(&chain));
    }
    all
}
