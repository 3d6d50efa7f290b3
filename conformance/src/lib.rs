//! The exported functions of the proved core (crate `pilgonca`) on the tables and states of `reference`. Counts are lent apart from them, so that tests can hand in any.

pub mod calls;
pub mod chains;
pub mod doors;
pub mod heavy;
pub mod inputs;
pub mod layout;
pub mod process;
pub mod requests;
pub mod run_lists;
pub mod runs;
pub mod said;
pub mod scripts;
pub mod served;
pub mod states;
pub mod stream;
pub mod tiny_first;
pub mod worked;
pub mod worst_scripts;

use pilgonca::raw::{self, TableMut, TableRef};
use reference::raw::{RawTable, BROADER_LENGTH, TYPES_LENGTH};
use reference::table::MAX_SHEET_TYPES;

/// The bytes of a pair table: (T,S) at T * 48 + S.
pub const PAIRS_LENGTH: usize = MAX_SHEET_TYPES * MAX_SHEET_TYPES;

/// How many subjects, methods, categories, sheet types and types.
pub type Counts = raw::TableCounts;

/// The counts that a table comes with.
pub fn counts(raw: &RawTable) -> Counts {
    [
        raw.subjects as usize,
        raw.methods as usize,
        raw.categories as usize,
        raw.sheet_types as usize,
        raw.types as usize,
    ]
}

/// A table lent with these counts.
fn lent<'a>(table: &'a RawTable, counts: &'a Counts) -> TableRef<'a> {
    TableRef {
        types: &table.type_bytes,
        links: &table.broader,
        counts,
    }
}

/// Compare on a table handed in: a refusal's number, or the four answers (subtype, strict, loose, free).
pub fn compare(table: &RawTable, t: i64, s: i64) -> Result<[bool; 4], usize> {
    let code = raw::compare(lent(table, &counts(table)), t, s);
    if code < 16 {
        return Err(code);
    }
    Ok([code & 1 != 0, code & 2 != 0, code & 4 != 0, code & 8 != 0])
}

/// The pair table of a sheet, in the bytes of `table` with these counts: 0 and `out` stored, or 2.
pub fn pairs(table: &RawTable, counts: Counts, out: &mut [u8; PAIRS_LENGTH]) -> usize {
    raw::pairs(lent(table, &counts), out)
}

/// A derivation to ask for: kind 0 is Sub, 1 Sup, 2 Closed.
#[derive(Clone, Copy, PartialEq, Eq, Debug)]
pub struct Asked {
    pub kind: usize,
    pub t: i64,
    pub s: i64,
}

/// A derivation in the bytes of `table` with these counts: 0 with types, counts and the type's number stored, or the refusal's number.
pub fn derive(
    table: &mut RawTable,
    counts: &mut Counts,
    asked: Asked,
    number: &mut usize,
) -> usize {
    let lent = TableMut {
        types: &mut table.type_bytes,
        links: &mut table.broader,
        counts,
    };
    raw::tools::derive(lent, asked.kind, asked.t, asked.s, number)
}

/// Where a sheet is read to.
#[derive(Clone)]
pub struct Loaded {
    pub types: [u8; TYPES_LENGTH],
    pub links: [u8; BROADER_LENGTH],
    pub counts: Counts,
    pub at: usize,
}

impl Loaded {
    /// What was read as a table, its counts being small.
    pub fn table(&self) -> RawTable {
        let [subjects, methods, categories, sheet_types, types] = self
            .counts
            .map(|count| u32::try_from(count).expect("counts of a sheet are small"));
        RawTable {
            subjects,
            methods,
            categories,
            sheet_types,
            types,
            broader: self.links,
            type_bytes: self.types,
        }
    }
}

/// Sheet read: 0 with a table stored, or the refusal's number with the offset in `at`.
pub fn read(sheet: &[u8], loaded: &mut Loaded) -> usize {
    let lent = TableMut {
        types: &mut loaded.types,
        links: &mut loaded.links,
        counts: &mut loaded.counts,
    };
    raw::read(sheet, lent, &mut loaded.at)
}

/// Sheet write of the bytes of `table` with these counts: 0 with text and `length` stored, or the refusal's number.
pub fn write(table: &RawTable, counts: Counts, buffer: &mut [u8], length: &mut usize) -> usize {
    raw::write(buffer, lent(table, &counts), length)
}
