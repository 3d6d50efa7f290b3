//! All that is unsafe: the declarations, and a function around each that has references and slices for parameters. For every call below the same holds: an
//! array has the length that the C function takes, by its type; a slice passes as its pointer and its length; what is stored to is lent alone, so nothing
//! overlaps; and the functions keep no pointer. tests/header holds the declarations against the Rattle source.
#![allow(unsafe_code)]

#[cfg(feature = "doors")]
pub mod doors;
#[cfg(feature = "visits")]
pub mod states;
#[cfg(feature = "tiny")]
pub mod tiny;
#[cfg(feature = "tools")]
pub mod tools;

use super::{Links, PairTable, TableCounts, TableMut, TableRef, Types};

unsafe extern "C" {
    fn pilgonca_compare(
        types: &Types,
        links: &Links,
        counts: &TableCounts,
        t: i64,
        s: i64,
    ) -> usize;

    fn pilgonca_read(
        text: *const u8,
        text_len: usize,
        types: &mut Types,
        links: &mut Links,
        counts: &mut TableCounts,
        at: &mut usize,
    ) -> usize;

    fn pilgonca_write(
        buffer: *mut u8,
        buffer_len: usize,
        types: &Types,
        links: &Links,
        counts: &TableCounts,
        length: &mut usize,
    ) -> usize;

    fn pilgonca_pairs(
        types: &Types,
        links: &Links,
        counts: &TableCounts,
        out: &mut PairTable,
    ) -> usize;
}

/// Calls a C function on a table lent: its arrays in their order, then what is given besides.
macro_rules! on_table {
    ($name:ident($table:ident, $($given:expr),*)) => {
        // SAFETY: as the head of this file says.
        unsafe { $name($table.types, $table.links, $table.counts, $($given),*) }
    };
}

/// Compare (R14): a refusal's number, or 16 plus the sum of 1 for subtype, 2 strict, 4 loose and 8 free.
///
/// ```
/// use pilgonca::{raw, EXAMPLE};
/// let (mut table, mut at) = (raw::Table::default(), 0);
/// assert_eq!(raw::compare(table.lend(), 2, 1), 2);
/// raw::read(EXAMPLE, table.lend_mut(), &mut at);
/// assert_eq!(raw::compare(table.lend(), 2, 1), 16 + 15);
/// ```
pub fn compare(table: TableRef, t: i64, s: i64) -> usize {
    on_table!(pilgonca_compare(table, t, s))
}

/// The pair table (E9).
///
/// ```
/// use pilgonca::{raw, EXAMPLE};
/// let (mut table, mut at, mut out) = (raw::Table::default(), 0, [0; 2304]);
/// raw::read(EXAMPLE, table.lend_mut(), &mut at);
/// assert_eq!(raw::pairs(table.lend(), &mut out), 0);
/// assert_eq!(out[48 * 2 + 1], 15);
/// ```
pub fn pairs(table: TableRef, out: &mut PairTable) -> usize {
    on_table!(pilgonca_pairs(table, out))
}

/// Sheet read (S): refused, the offset is in `at`, and the table is empty (S32). It begins a table: lend it no array of a state, which `load` begins.
///
/// ```
/// use pilgonca::{raw, EXAMPLE};
/// let (mut table, mut at) = (raw::Table::default(), 0);
/// assert_eq!(raw::read(EXAMPLE, table.lend_mut(), &mut at), 0);
/// assert_eq!(table.counts, [2, 2, 0, 6, 6]);
/// assert_eq!(raw::read(b"guide=1\nsubjects=0\n", table.lend_mut(), &mut at), 2);
/// assert_eq!((table.counts, at), ([0; 5], 8));
/// ```
pub fn read(text: &[u8], table: TableMut, at: &mut usize) -> usize {
    // SAFETY: as the head of this file says.
    unsafe {
        pilgonca_read(
            text.as_ptr(),
            text.len(),
            table.types,
            table.links,
            table.counts,
            at,
        )
    }
}

/// Sheet write (W): the text in front of the buffer, and its length.
///
/// ```
/// use pilgonca::{raw, EXAMPLE};
/// let (mut table, mut at) = (raw::Table::default(), 0);
/// raw::read(EXAMPLE, table.lend_mut(), &mut at);
/// let (mut buffer, mut length) = ([0; raw::MAX_TEXT], 0);
/// assert_eq!(raw::write(&mut buffer, table.lend(), &mut length), 0);
/// assert_eq!(&buffer[..length], EXAMPLE);
/// ```
pub fn write(buffer: &mut [u8], table: TableRef, length: &mut usize) -> usize {
    // SAFETY: as the head of this file says.
    unsafe {
        pilgonca_write(
            buffer.as_mut_ptr(),
            buffer.len(),
            table.types,
            table.links,
            table.counts,
            length,
        )
    }
}
