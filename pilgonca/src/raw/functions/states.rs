//! The functions on states, and the script. They are safe for the reasons that stand at the head of the module above.

use crate::raw::state::{Calls, Cells, Places, StateCounts, StateMut, StateRef, Values};
use crate::raw::{Links, Types};

unsafe extern "C" {
    fn pilgonca_new(
        types: &mut Types,
        links: &Links,
        cells: &mut Cells,
        places: &mut Places,
        calls: &mut Calls,
        counts: &mut StateCounts,
        subject: i64,
        class: i64,
        to: i64,
        values: &mut Values,
    ) -> usize;

    fn pilgonca_move(
        types: &mut Types,
        links: &Links,
        cells: &mut Cells,
        places: &mut Places,
        calls: &mut Calls,
        counts: &mut StateCounts,
        subject: i64,
        cell: i64,
        receiver: i64,
        to: i64,
        values: &mut Values,
    ) -> usize;

    fn pilgonca_call(
        types: &mut Types,
        links: &Links,
        cells: &mut Cells,
        places: &mut Places,
        calls: &mut Calls,
        counts: &mut StateCounts,
        subject: i64,
        cell: i64,
        method: i64,
        arguments: *const i64,
        arguments_len: usize,
        values: &mut Values,
    ) -> usize;

    fn pilgonca_answer(
        types: &mut Types,
        links: &Links,
        cells: &mut Cells,
        places: &mut Places,
        calls: &mut Calls,
        counts: &mut StateCounts,
        subject: i64,
        call: i64,
        given: usize,
        value: i64,
        values: &mut Values,
    ) -> usize;

    fn pilgonca_offers(
        types: &Types,
        links: &Links,
        cells: &Cells,
        places: &Places,
        calls: &Calls,
        counts: &StateCounts,
        cell: i64,
        chain: *const i64,
        chain_len: usize,
        offered: &mut usize,
    ) -> usize;

    fn pilgonca_load(
        text: *const u8,
        text_len: usize,
        types: &mut Types,
        links: &mut Links,
        cells: &mut Cells,
        places: &mut Places,
        calls: &mut Calls,
        counts: &mut StateCounts,
        at: &mut usize,
    ) -> usize;

    fn pilgonca_run(
        types: &mut Types,
        links: &Links,
        cells: &mut Cells,
        places: &mut Places,
        calls: &mut Calls,
        counts: &mut StateCounts,
        words: *const i64,
        words_len: usize,
        answers: *mut i64,
        answers_len: usize,
        served: &mut usize,
    ) -> usize;

    fn pilgonca_script(
        input: *const u8,
        input_len: usize,
        buffer: *mut u8,
        buffer_len: usize,
        length: &mut usize,
    ) -> usize;
}

/// Calls a C function on a state lent, as for a table.
macro_rules! on_state {
    ($name:ident($state:ident, $($given:expr),*)) => {
        // SAFETY: as the head of the module above says.
        unsafe {
            $name(
                $state.types, $state.links, $state.cells, $state.places, $state.calls, $state.counts,
                $($given),*
            )
        }
    };
}

/// New (N): stores the new cell and its place.
///
/// ```
/// use pilgonca::{raw, EXAMPLE};
/// let (mut state, mut at, mut values) = (raw::State::default(), 0, [0; 3]);
/// raw::load(EXAMPLE, state.lend_mut(), &mut at);
/// assert_eq!(raw::new_object(state.lend_mut(), 0, 1, 4, &mut values), 0);
/// assert_eq!(values, [2, 0, 0]);
/// ```
pub fn new_object(
    state: StateMut,
    subject: i64,
    class: i64,
    to: i64,
    values: &mut Values,
) -> usize {
    on_state!(pilgonca_new(state, subject, class, to, values))
}

/// Move (M): stores the new cell and its place.
///
/// ```
/// use pilgonca::{raw, EXAMPLE};
/// let (mut state, mut at, mut values) = (raw::State::default(), 0, [0; 3]);
/// raw::load(EXAMPLE, state.lend_mut(), &mut at);
/// raw::new_object(state.lend_mut(), 0, 1, 4, &mut values);
/// assert_eq!(raw::move_reference(state.lend_mut(), 0, 0, 1, 2, &mut values), 0);
/// assert_eq!(values, [2, 1, 0]);
/// assert_eq!(raw::move_reference(state.lend_mut(), 0, 1, 1, 2, &mut values), 6);
/// ```
pub fn move_reference(
    state: StateMut,
    subject: i64,
    cell: i64,
    receiver: i64,
    to: i64,
    values: &mut Values,
) -> usize {
    on_state!(pilgonca_move(state, subject, cell, receiver, to, values))
}

/// Call (C): stores the call and how many adapters are behind the cell.
///
/// ```
/// use pilgonca::{raw, EXAMPLE};
/// let (mut state, mut at, mut values) = (raw::State::default(), 0, [0; 3]);
/// raw::load(EXAMPLE, state.lend_mut(), &mut at);
/// raw::new_object(state.lend_mut(), 0, 1, 1, &mut values);
/// assert_eq!(raw::call(state.lend_mut(), 0, 0, 1, &[1 << 31], &mut values), 16);
/// assert_eq!(raw::call(state.lend_mut(), 0, 0, 1, &[5], &mut values), 0);
/// assert_eq!(values, [2, 0, 0]);
/// ```
pub fn call(
    state: StateMut,
    subject: i64,
    cell: i64,
    method: i64,
    arguments: &[i64],
    values: &mut Values,
) -> usize {
    let (first, length) = (arguments.as_ptr(), arguments.len());
    on_state!(pilgonca_call(
        state, subject, cell, method, first, length, values
    ))
}

/// Answer (A): `given` 0 is for no value, and `value` is then not looked at; stores the caller's new cell and its place, or the number, or nothing.
///
/// ```
/// use pilgonca::{raw, EXAMPLE};
/// let (mut state, mut at, mut values) = (raw::State::default(), 0, [0; 3]);
/// raw::load(EXAMPLE, state.lend_mut(), &mut at);
/// raw::new_object(state.lend_mut(), 0, 1, 1, &mut values);
/// raw::call(state.lend_mut(), 0, 0, 0, &[], &mut values);
/// assert_eq!(raw::answer(state.lend_mut(), 0, 0, 0, 0, &mut values), 15);
/// assert_eq!(raw::answer(state.lend_mut(), 0, 0, 1, 12, &mut values), 0);
/// assert_eq!(values, [1, 12, 0]);
/// ```
pub fn answer(
    state: StateMut,
    subject: i64,
    call: i64,
    given: usize,
    value: i64,
    values: &mut Values,
) -> usize {
    on_state!(pilgonca_answer(state, subject, call, given, value, values))
}

/// Offers (E11): stores 1 or 0.
///
/// ```
/// use pilgonca::{raw, EXAMPLE};
/// let (mut state, mut at, mut values) = (raw::State::default(), 0, [0; 3]);
/// raw::load(EXAMPLE, state.lend_mut(), &mut at);
/// raw::new_object(state.lend_mut(), 0, 1, 2, &mut values);
/// let mut offered = 7;
/// assert_eq!(raw::offers(state.lend(), 0, &[0], &mut offered), 0);
/// assert_eq!(offered, 1);
/// ```
pub fn offers(state: StateRef, cell: i64, chain: &[i64], offered: &mut usize) -> usize {
    let (first, length) = (chain.as_ptr(), chain.len());
    on_state!(pilgonca_offers(state, cell, first, length, offered))
}

/// The state of a loaded sheet (Q10), and the offset as in [`read`](crate::raw::read).
///
/// ```
/// use pilgonca::{raw, EXAMPLE};
/// let (mut state, mut at) = (raw::State::default(), 0);
/// assert_eq!(raw::load(EXAMPLE, state.lend_mut(), &mut at), 0);
/// assert_eq!(state.counts, [2, 2, 0, 6, 6, 0, 0, 0]);
/// ```
pub fn load(text: &[u8], state: StateMut, at: &mut usize) -> usize {
    // SAFETY: as the head of the module above says.
    unsafe {
        pilgonca_load(
            text.as_ptr(),
            text.len(),
            state.types,
            state.links,
            state.cells,
            state.places,
            state.calls,
            state.counts,
            at,
        )
    }
}

/// A run (U): stores four numbers for each request served, and how many were.
///
/// ```
/// use pilgonca::{raw, EXAMPLE};
/// let (mut state, mut at) = (raw::State::default(), 0);
/// raw::load(EXAMPLE, state.lend_mut(), &mut at);
/// let requests = [0, 3, 0, 1, 4, 1, 4, 0, 0, 1, 7];
/// let (mut answers, mut served) = ([0; 8], 0);
/// assert_eq!(raw::run(state.lend_mut(), &requests, &mut answers, &mut served), 0);
/// assert_eq!((answers, served), ([0, 2, 0, 0, 7, 0, 0, 0], 2));
/// ```
pub fn run(state: StateMut, words: &[i64], answers: &mut [i64], served: &mut usize) -> usize {
    let (first, length) = (words.as_ptr(), words.len());
    let (out, room) = (answers.as_mut_ptr(), answers.len());
    on_state!(pilgonca_run(state, first, length, out, room, served))
}

/// What the program `script` prints (P19): the output in front of the buffer, and its length.
///
/// ```
/// use pilgonca::raw;
/// let (mut buffer, mut length) = ([0; 8], 0);
/// assert_eq!(raw::script(b"guide=2\n", &mut buffer, &mut length), 0);
/// assert_eq!(&buffer[..length], b"no=2\n");
/// assert_eq!(raw::script(b"guide=2\n", &mut buffer[..4], &mut length), 4);
/// ```
pub fn script(input: &[u8], buffer: &mut [u8], length: &mut usize) -> usize {
    // SAFETY: as the head of the module above says.
    unsafe {
        pilgonca_script(
            input.as_ptr(),
            input.len(),
            buffer.as_mut_ptr(),
            buffer.len(),
            length,
        )
    }
}
