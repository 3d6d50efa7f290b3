//! The functions of include/pilgonca_tools.h: for tests, and for tools that look at types. They are safe for the reasons that stand at the head of the module
//! above.
//!
//! Lend them a table of its own and no array of a state. A type that no request derived takes one of the numbers that the types of later requests would have
//! had, and what is proved of references (L19 to L23) no longer speaks of that state, though it passes the check.

use crate::raw::{Links, TableCounts, TableMut, Types};

unsafe extern "C" {
    fn pilgonca_derive(
        types: &mut Types,
        links: &Links,
        counts: &mut TableCounts,
        kind: usize,
        t: i64,
        s: i64,
        number: &mut usize,
    ) -> usize;
}

/// A derivation (E10): kind 0 is Sub, 1 Sup, 2 Closed; stores the type's number.
///
/// ```
/// use pilgonca::{raw, EXAMPLE};
/// let (mut table, mut at, mut number) = (raw::Table::default(), 0, 0);
/// raw::read(EXAMPLE, table.lend_mut(), &mut at);
/// assert_eq!(raw::tools::derive(table.lend_mut(), 0, 3, 2, &mut number), 0);
/// assert_eq!((number, table.counts[4]), (6, 7));
/// ```
pub fn derive(table: TableMut, kind: usize, t: i64, s: i64, number: &mut usize) -> usize {
    // SAFETY: as the head of the module above says.
    unsafe { pilgonca_derive(table.types, table.links, table.counts, kind, t, s, number) }
}
