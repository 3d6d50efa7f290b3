//! What small_stack reads and writes: numbers of eight bytes, low byte first, pieces of any bytes, and states.

use crate::served::{counts, set_counts};
use crate::states::of_table;
use reference::raw::{RawState, RawTable};

/// Numbers as bytes, eight for each, low byte first.
pub fn numbers(list: &[i64]) -> Vec<u8> {
    list.iter().flat_map(|one| one.to_le_bytes()).collect()
}

/// Takes the next eight bytes as a number.
pub fn next_number(input: &mut &[u8]) -> i64 {
    let (bytes, rest) = input.split_at(8);
    *input = rest;
    i64::from_le_bytes(bytes.try_into().expect("eight bytes"))
}

/// Pieces of any bytes, each behind its length.
pub fn pieces(list: &[Vec<u8>]) -> Vec<u8> {
    let one = |piece: &Vec<u8>| [&numbers(&[piece.len() as i64]), &piece[..]].concat();
    list.iter().flat_map(one).collect()
}

/// The pieces again.
pub fn next_pieces(mut input: &[u8]) -> impl Iterator<Item = &[u8]> {
    std::iter::from_fn(move || {
        if input.is_empty() {
            return None;
        }
        let length = next_number(&mut input) as usize;
        let (piece, rest) = input.split_at(length);
        input = rest;
        Some(piece)
    })
}

fn arrays(state: &mut RawState) -> [&mut [u8]; 5] {
    [
        &mut state.table.broader,
        &mut state.table.type_bytes,
        &mut state.cell_bytes,
        &mut state.place_bytes,
        &mut state.call_bytes,
    ]
}

/// The bytes of a state: its eight counts, links, types, cells, places, calls. The state stays as it is.
pub fn to_bytes(state: &mut RawState) -> Vec<u8> {
    let mut bytes = numbers(&counts(state).map(|count| count as i64));
    for array in arrays(state) {
        bytes.extend_from_slice(array);
    }
    bytes
}

/// A state with every count 0. The caller's stack has no room taken for it.
#[inline(never)]
pub fn empty() -> Box<RawState> {
    Box::new(of_table(RawTable::default()))
}

/// Takes the next state.
pub fn next_state(input: &mut &[u8]) -> Box<RawState> {
    let mut state = empty();
    let counts = std::array::from_fn(|_| next_number(input) as usize);
    set_counts(&mut state, counts);
    for array in arrays(&mut state) {
        let (bytes, rest) = input.split_at(array.len());
        array.copy_from_slice(bytes);
        *input = rest;
    }
    state
}
