//! Smaller states that are handed in.

use super::chunks::drop_chunks;
use crate::hostile::Hostile;
use crate::raw::RawState;

/// A smaller hostile state and fewer requests for which `fails` still holds:
/// fewer requests, lower counts, and zeros where they do not matter.
pub fn shrink_hostile(hostile: &Hostile, fails: &mut dyn FnMut(&Hostile) -> bool) -> Hostile {
    let mut best = hostile.clone();
    best.requests = drop_chunks(best.requests.clone(), &mut |requests| {
        fails(&Hostile {
            state: best.state.clone(),
            requests: requests.to_vec(),
        })
    });
    for lower in [lower_calls, lower_cells, lower_places, lower_types] {
        loop {
            let mut offer = best.clone();
            if !lower(&mut offer.state) || !fails(&offer) {
                break;
            }
            best = offer;
        }
    }
    for bytes in [type_bytes, place_bytes, cell_bytes, call_bytes] {
        clear_bytes(&mut best, bytes, fails);
    }
    best
}

fn lower_count(count: &mut u32) -> bool {
    let can = *count > 0;
    *count = count.saturating_sub(1);
    can
}

fn lower_calls(state: &mut RawState) -> bool {
    lower_count(&mut state.calls)
}

fn lower_cells(state: &mut RawState) -> bool {
    lower_count(&mut state.cells)
}

fn lower_places(state: &mut RawState) -> bool {
    lower_count(&mut state.places)
}

fn lower_types(state: &mut RawState) -> bool {
    lower_count(&mut state.table.types)
}

fn type_bytes(state: &mut RawState) -> &mut [u8] {
    &mut state.table.type_bytes
}

fn place_bytes(state: &mut RawState) -> &mut [u8] {
    &mut state.place_bytes
}

fn cell_bytes(state: &mut RawState) -> &mut [u8] {
    &mut state.cell_bytes
}

fn call_bytes(state: &mut RawState) -> &mut [u8] {
    &mut state.call_bytes
}

/// Clears runs of bytes, long ones first, as long as the rest fails.
fn clear_bytes(
    best: &mut Hostile,
    bytes: fn(&mut RawState) -> &mut [u8],
    fails: &mut dyn FnMut(&Hostile) -> bool,
) {
    let whole = bytes(&mut best.state).len();
    let mut length = whole;
    while length >= 16 {
        for at in (0..whole).step_by(length) {
            let mut offer = best.clone();
            let run = &mut bytes(&mut offer.state)[at..(at + length).min(whole)];
            if run.iter().any(|byte| *byte != 0) {
                run.fill(0);
                if fails(&offer) {
                    *best = offer;
                }
            }
        }
        length /= 2;
    }
}
