//! The check of what is handed in (H): a table or a state, or the reason for 2
//! that is met first (the order cannot be seen, H13).

use crate::raw::{self, RawState, RawTable, BROADER_BYTES};
use crate::state::{Call, Cell, Place, State, MAX_CALLS, MAX_CALLS_EACH, MAX_CELLS, MAX_PLACES};
use crate::table::*;

/// Why a table or state that is handed in gets 2.
#[derive(Clone, Copy, PartialEq, Eq, Debug, Hash, PartialOrd, Ord)]
pub enum Reason {
    // H1
    SubjectsCount,
    MethodsCount,
    CategoriesCount,
    SheetTypesCount,
    TypesCount,
    CellsCount,
    PlacesCount,
    CallsCount,
    // H2, H3, H5, H7 and half of H6: the table
    BroaderNeitherOneNorTwo,
    BroaderNotBelow,
    RepresentationCode,
    OwnCode,
    StateCode,
    TooManyArguments,
    OwnInSignature,
    DerivedInSheetSignature,
    KindCode,
    // H4, H6, H8 to H11: numbers that name nothing
    CategoryAboveLast,
    ArgumentUnknown,
    AnswerUnknown,
    LeftUnknown,
    RightUnknown,
    CellHolderUnknown,
    CellPlaceUnknown,
    ObjectOwnerUnknown,
    AdapterTypeUnknown,
    CallCallerUnknown,
    CallCellUnknown,
    CallMethodUnknown,
    // H2, H9, H10: the rest
    CellTypeNotSheetRef,
    ObjectClassNotSheetClass,
    AdapterTypeNotRef,
    AdapterNotAboveBehind,
    PlaceCode,
    AnsweredCode,
    // H17
    TooManyCallsOfOne,
}

/// Every reason.
pub const REASONS: [Reason; 36] = [
    Reason::SubjectsCount,
    Reason::MethodsCount,
    Reason::CategoriesCount,
    Reason::SheetTypesCount,
    Reason::TypesCount,
    Reason::CellsCount,
    Reason::PlacesCount,
    Reason::CallsCount,
    Reason::BroaderNeitherOneNorTwo,
    Reason::BroaderNotBelow,
    Reason::RepresentationCode,
    Reason::OwnCode,
    Reason::StateCode,
    Reason::TooManyArguments,
    Reason::OwnInSignature,
    Reason::DerivedInSheetSignature,
    Reason::KindCode,
    Reason::CategoryAboveLast,
    Reason::ArgumentUnknown,
    Reason::AnswerUnknown,
    Reason::LeftUnknown,
    Reason::RightUnknown,
    Reason::CellHolderUnknown,
    Reason::CellPlaceUnknown,
    Reason::ObjectOwnerUnknown,
    Reason::AdapterTypeUnknown,
    Reason::CallCallerUnknown,
    Reason::CallCellUnknown,
    Reason::CallMethodUnknown,
    Reason::CellTypeNotSheetRef,
    Reason::ObjectClassNotSheetClass,
    Reason::AdapterTypeNotRef,
    Reason::AdapterNotAboveBehind,
    Reason::PlaceCode,
    Reason::AnsweredCode,
    Reason::TooManyCallsOfOne,
];

/// The table of counts and codes, if there is no reason for 2.
pub fn table(raw: &RawTable) -> Result<Table, Reason> {
    let subjects = limited(raw.subjects, 1, MAX_SUBJECTS, Reason::SubjectsCount)?;
    let methods = limited(raw.methods, 1, MAX_METHODS, Reason::MethodsCount)?;
    let categories = limited(raw.categories, 0, MAX_CATEGORIES, Reason::CategoriesCount)?;
    let sheet_types = limited(raw.sheet_types, 1, MAX_SHEET_TYPES, Reason::SheetTypesCount)?;
    let types = limited(raw.types, sheet_types, MAX_TYPES, Reason::TypesCount)?;
    let mut table = Table {
        subjects,
        methods,
        broader: Vec::new(),
        sheet_types,
        types: Vec::new(),
        keys: Vec::new(),
    };
    for category in 1..=categories {
        table.broader.push(broader(raw, category)?);
    }
    for number in 0..types {
        let one = one_type(raw, number, &table, types)?;
        table.types.push(one);
    }
    for number in sheet_types..types {
        table.keys.push(key(raw, number, types)?);
    }
    // H7
    if table.own_in_signature() {
        return Err(Reason::OwnInSignature);
    }
    Ok(table)
}

/// The state of counts and codes, if there is no reason for 2.
pub fn state(raw: &RawState) -> Result<State, Reason> {
    let mut state = State::of_sheet(table(&raw.table)?);
    let cells = limited(raw.cells, 0, MAX_CELLS, Reason::CellsCount)?;
    let places = limited(raw.places, 0, MAX_PLACES, Reason::PlacesCount)?;
    let calls = limited(raw.calls, 0, MAX_CALLS, Reason::CallsCount)?;
    for number in 0..places {
        state
            .places
            .push(place(raw.place(number), number, &state.table)?);
    }
    for number in 0..cells {
        state
            .cells
            .push(cell(raw.cell(number), places, &state.table)?);
    }
    for number in 0..calls {
        state
            .calls
            .push(call(raw.call(number), cells, &state.table)?);
    }
    callers(&state)?;
    Ok(state)
}

/// No subject made more calls than it may (H17).
fn callers(state: &State) -> Result<(), Reason> {
    for caller in 0..state.table.subjects {
        if state.calls_of(caller) > MAX_CALLS_EACH {
            return Err(Reason::TooManyCallsOfOne);
        }
    }
    Ok(())
}

/// A count within its limits (H1).
fn limited(count: u32, lowest: usize, highest: usize, reason: Reason) -> Result<usize, Reason> {
    let count = count as usize;
    if (lowest..=highest).contains(&count) {
        Ok(count)
    } else {
        Err(reason)
    }
}

/// A number below its count.
fn below(number: u8, count: usize, reason: Reason) -> Result<usize, Reason> {
    let number = usize::from(number);
    if number < count {
        Ok(number)
    } else {
        Err(reason)
    }
}

/// The links of a category (H5); the second is not looked at where it has one (H15).
fn broader(raw: &RawTable, category: usize) -> Result<Broader, Reason> {
    let at = category * BROADER_BYTES;
    let first = below(raw.broader[at + 1], category, Reason::BroaderNotBelow);
    let second = below(raw.broader[at + 2], category, Reason::BroaderNotBelow);
    match raw.broader[at] {
        1 => Ok(Broader {
            first: first?,
            second: None,
        }),
        2 => Ok(Broader {
            first: first?,
            second: Some(second?),
        }),
        _ => Err(Reason::BroaderNeitherOneNorTwo),
    }
}

/// One type; of a number type nothing else is looked at (H15).
fn one_type(raw: &RawTable, number: usize, table: &Table, types: usize) -> Result<Type, Reason> {
    let entry = raw.entry(number);
    let representation = raw::representation(entry[0]).ok_or(Reason::RepresentationCode)?;
    let category = below(entry[1], table.categories() + 1, Reason::CategoryAboveLast)?;
    if representation != Representation::Ref {
        return Ok(Type::number(representation, category));
    }
    let own = yes_or_no(entry[2], Reason::OwnCode)?;
    let mut methods = Vec::new();
    for method in 0..table.methods {
        let is_sheet = number < table.sheet_types;
        methods.push(method_state(
            raw.method(number, method),
            is_sheet,
            table.sheet_types,
            types,
        )?);
    }
    Ok(Type {
        representation,
        category,
        own,
        methods,
    })
}

/// A flag (H2).
fn yes_or_no(code: u8, reason: Reason) -> Result<bool, Reason> {
    match code {
        0 => Ok(false),
        1 => Ok(true),
        _ => Err(reason),
    }
}

/// A method by its code (H2); of one that is not permitted nothing else is looked at (H15).
fn method_state(
    bytes: &[u8],
    is_sheet: bool,
    sheet_types: usize,
    types: usize,
) -> Result<MethodState, Reason> {
    let signature = || signature(bytes, is_sheet, sheet_types, types);
    match bytes[0] {
        0 => Ok(MethodState::Denied),
        1 => Ok(MethodState::Optional(signature()?)),
        2 => Ok(MethodState::Avail(signature()?)),
        3 => Ok(MethodState::Unavail),
        _ => Err(Reason::StateCode),
    }
}

/// A signature (H3, H6).
fn signature(
    bytes: &[u8],
    is_sheet: bool,
    sheet_types: usize,
    types: usize,
) -> Result<Signature, Reason> {
    if usize::from(bytes[1]) > MAX_ARGUMENTS {
        return Err(Reason::TooManyArguments);
    }
    let signature = raw::signature(bytes);
    if signature.arguments.iter().any(|one| *one >= types) {
        return Err(Reason::ArgumentUnknown);
    }
    if signature.answer.is_some_and(|one| one >= types) {
        return Err(Reason::AnswerUnknown);
    }
    if is_sheet && signature.named().any(|one| one >= sheet_types) {
        return Err(Reason::DerivedInSheetSignature);
    }
    Ok(signature)
}

/// The key of a derived type (H8).
fn key(raw: &RawTable, number: usize, types: usize) -> Result<Key, Reason> {
    let key = raw::key(raw.entry(number)).ok_or(Reason::KindCode)?;
    if key.left >= types {
        return Err(Reason::LeftUnknown);
    }
    if key.right >= types {
        return Err(Reason::RightUnknown);
    }
    Ok(key)
}

/// A place (H10).
fn place(bytes: &[u8], number: usize, table: &Table) -> Result<Place, Reason> {
    match bytes[0] {
        0 => {
            let class = usize::from(bytes[1]);
            if !table.is_sheet_class(class) {
                return Err(Reason::ObjectClassNotSheetClass);
            }
            let owner = below(bytes[2], table.subjects, Reason::ObjectOwnerUnknown)?;
            Ok(Place::Object { class, owner })
        }
        1 => {
            let behind = below(bytes[1], number, Reason::AdapterNotAboveBehind)?;
            let closed = below(bytes[2], table.types.len(), Reason::AdapterTypeUnknown)?;
            if !table.types[closed].is_ref() {
                return Err(Reason::AdapterTypeNotRef);
            }
            Ok(Place::Adapter { behind, closed })
        }
        _ => Err(Reason::PlaceCode),
    }
}

/// A cell (H9).
fn cell(bytes: &[u8], places: usize, table: &Table) -> Result<Cell, Reason> {
    let holder = below(bytes[0], table.subjects, Reason::CellHolderUnknown)?;
    let type_ = usize::from(bytes[1]);
    if !table.is_sheet_ref(type_) {
        return Err(Reason::CellTypeNotSheetRef);
    }
    let place = below(bytes[2], places, Reason::CellPlaceUnknown)?;
    Ok(Cell {
        holder,
        type_,
        place,
    })
}

/// A call (H11).
fn call(bytes: &[u8], cells: usize, table: &Table) -> Result<Call, Reason> {
    Ok(Call {
        caller: below(bytes[0], table.subjects, Reason::CallCallerUnknown)?,
        cell: below(bytes[1], cells, Reason::CallCellUnknown)?,
        method: below(bytes[2], table.methods, Reason::CallMethodUnknown)?,
        answered: yes_or_no(bytes[3], Reason::AnsweredCode)?,
    })
}
