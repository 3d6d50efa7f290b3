//! Every tiny sheet (P21 to P26): tables made by loops over what the paper lists, and their texts.

use crate::refusal::Refusal;
use crate::script;
use crate::sheet;
use crate::table::*;

/// The tables of the tiny sheets, in the order of P24.
pub fn tables() -> Vec<Table> {
    let mut tables = Vec::new();
    for own in [false, true] {
        for only in states(own) {
            tables.push(table(own, vec![only]));
        }
    }
    for own in [false, true] {
        for first in states(own) {
            for second in states(own) {
                tables.push(table(own, vec![first.clone(), second]));
            }
        }
    }
    tables
}

/// The tiny sheets, in the same order.
pub fn texts() -> Vec<Vec<u8>> {
    tables().iter().map(sheet::text).collect()
}

/// What the program `tiny` prints (P21).
pub fn printed() -> Vec<u8> {
    texts().concat()
}

/// The same, written to the front of a buffer (P26).
pub fn write(buffer: &mut [u8]) -> Result<usize, Refusal> {
    sheet::put(&printed(), buffer)
}

/// The sheets of a text in which they stand with nothing between.
pub fn split(text: &[u8]) -> Vec<&[u8]> {
    let mut sheets = Vec::new();
    let mut rest = text;
    while !rest.is_empty() {
        let (sheet, behind) = script::split(rest);
        sheets.push(sheet);
        rest = behind;
    }
    sheets
}

/// Whether the sheet of a table is tiny (P22), the table being as the reader gives it.
pub fn is_tiny(table: &Table) -> bool {
    let [only] = table.types.as_slice() else {
        return false;
    };
    let signatures = only.methods.iter().filter_map(MethodState::signature);
    table.subjects == 1
        && table.methods <= 2
        && table.categories() == 0
        && only.is_ref()
        && signatures
            .map(|one| one.arguments.len())
            .all(|length| length <= 1)
}

fn table(own: bool, methods: Vec<MethodState>) -> Table {
    Table {
        subjects: 1,
        methods: methods.len(),
        broader: Vec::new(),
        sheet_types: 1,
        types: vec![Type {
            representation: Representation::Ref,
            category: 0,
            own,
            methods,
        }],
        keys: Vec::new(),
    }
}

/// What the type may say of a method, in the order of P23.
fn states(own: bool) -> Vec<MethodState> {
    let mut states = vec![MethodState::Denied, MethodState::Unavail];
    states.extend(signatures(own).into_iter().map(MethodState::Avail));
    states.extend(signatures(own).into_iter().map(MethodState::Optional));
    states
}

/// `()-`, `()0`, `(0)-` and `(0)0`; a type with own stands in none of them (T14).
fn signatures(own: bool) -> Vec<Signature> {
    let mut signatures = Vec::new();
    for arguments in [vec![], vec![0]] {
        for answer in [None, Some(0)] {
            let arguments = arguments.clone();
            signatures.push(Signature { arguments, answer });
        }
    }
    signatures.retain(|one| !own || one.named().count() == 0);
    signatures
}
