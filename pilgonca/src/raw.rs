//! The C functions as safe Rust, one for each, for those who keep the bytes of a table or a state themselves. Any bytes and any counts may be handed in
//! (docs/SPEC.md, E2); arrays have their full length, so that nothing outside them is read or written. B has the layout, E12 what is returned: 0, or a
//! refusal's number with nothing stored.
//!
//! Arrays are lent one by one ([`TableRef`], [`StateMut`] and their likes), so that they may stand wherever their owner keeps them; [`Table`] and [`State`] are
//! owners. The feature `tools` adds `tools`, a derivation on a table, which no visit needs and no state should meet.

mod functions;
#[cfg(feature = "visits")]
mod state;

#[cfg(feature = "doors")]
pub use functions::doors::doors;
#[cfg(feature = "visits")]
pub use functions::states::{answer, call, load, move_reference, new_object, offers, run, script};
#[cfg(feature = "tiny")]
pub use functions::tiny::tiny;
#[cfg(feature = "tools")]
pub use functions::tools;
pub use functions::{compare, pairs, read, write};
#[cfg(feature = "visits")]
pub use state::{
    Calls, Cells, Places, State, StateCounts, StateMut, StateRef, Values, CALL_RECORD, CELL_RECORD,
    MAX_CALLS, MAX_CALLS_EACH, MAX_CELLS, MAX_PLACES, PLACE_RECORD, SCRIPT_LONGER,
};

/// The most subjects (T1).
pub const MAX_SUBJECTS: usize = 16;
/// The most methods (T2).
pub const MAX_METHODS: usize = 16;
/// The most arguments of a signature (T13).
pub const MAX_ARGUMENTS: usize = 4;
/// The most categories, 0 not counted (T3).
pub const MAX_CATEGORIES: usize = 31;
/// The most types of a sheet (T4).
pub const MAX_SHEET_TYPES: usize = 48;
/// The most types, derived ones included (T5).
pub const MAX_TYPES: usize = 128;

/// Bytes of a type's record (B1).
pub const TYPE_RECORD: usize = 128;
/// Bytes of the links of a category (B11).
pub const LINK_RECORD: usize = 3;

/// The longest input that the programs serve (P1).
pub const MAX_SCRIPT: usize = 32_768;

/// The longest text that a sheet can have: every number of it with two digits, and each type with the longest lines (S22 to S26).
pub const MAX_TEXT: usize = "guide=1\nsubjects=16\nmethods=16\ncats=31\ntypes=48\nend=sheet\n"
    .len()
    + MAX_CATEGORIES * "under=29,30\n".len()
    + MAX_SHEET_TYPES * "type=47\nrep=ref\ncat=31\nown=yes\n".len()
    + MAX_SHEET_TYPES
        * MAX_METHODS
        * ("m=optional(47)47\n".len() + (MAX_ARGUMENTS - 1) * ",47".len());

/// How many tiny sheets there are (P25).
#[cfg(feature = "tiny")]
pub const TINY_SHEETS: usize = 130;
/// The bytes of all tiny sheets (P25).
#[cfg(feature = "tiny")]
pub const TINY_BYTES: usize = 13_659;

/// The most times of a list (V1).
#[cfg(feature = "doors")]
pub const MAX_TIMES: usize = 1024;
/// The last time that there is, in milliseconds (V1).
#[cfg(feature = "doors")]
pub const LAST_TIME: u64 = 4_294_967_295;
/// The largest tolerance, in milliseconds (V1).
#[cfg(feature = "doors")]
pub const MAX_TOLERANCE: u64 = 60_000;

/// Pairs, unpaired marks and unpaired arrivals (V6).
#[cfg(feature = "doors")]
pub type DoorCounts = [usize; 3];

/// The records of types (B1 to B10).
pub type Types = [u8; MAX_TYPES * TYPE_RECORD];
/// The broader categories of each category (B11).
pub type Links = [u8; (MAX_CATEGORIES + 1) * LINK_RECORD];

/// The answers at (T,S) in byte T * 48 + S (B24).
pub type PairTable = [u8; MAX_SHEET_TYPES * MAX_SHEET_TYPES];

/// How many subjects, methods, categories, sheet types and types (B12).
pub type TableCounts = [usize; 5];

/// A table that is kept in one piece.
#[derive(Clone, PartialEq, Eq)]
pub struct Table {
    /// The types.
    pub types: Types,
    /// The broader categories of each category.
    pub links: Links,
    /// How many there are of each; what is behind a count may hold anything.
    pub counts: TableCounts,
}

/// A table lent to be read.
#[derive(Clone, Copy)]
pub struct TableRef<'a> {
    /// As in [`Table`].
    pub types: &'a Types,
    /// As in [`Table`].
    pub links: &'a Links,
    /// As in [`Table`].
    pub counts: &'a TableCounts,
}

/// A table lent to be stored in.
pub struct TableMut<'a> {
    /// As in [`Table`].
    pub types: &'a mut Types,
    /// As in [`Table`].
    pub links: &'a mut Links,
    /// As in [`Table`].
    pub counts: &'a mut TableCounts,
}

impl Default for Table {
    fn default() -> Table {
        Table {
            types: [0; MAX_TYPES * TYPE_RECORD],
            links: [0; (MAX_CATEGORIES + 1) * LINK_RECORD],
            counts: [0; 5],
        }
    }
}

impl Table {
    /// Lends it to be read.
    pub fn lend(&self) -> TableRef<'_> {
        TableRef {
            types: &self.types,
            links: &self.links,
            counts: &self.counts,
        }
    }

    /// Lends it to be stored in.
    pub fn lend_mut(&mut self) -> TableMut<'_> {
        TableMut {
            types: &mut self.types,
            links: &mut self.links,
            counts: &mut self.counts,
        }
    }
}
