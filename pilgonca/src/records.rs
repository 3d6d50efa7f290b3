//! The records of a table, told in Rust's types. They are read from bytes that the core has accepted, so every code names something (H2).

use crate::numbers::{number, Type};
use crate::raw::TYPE_RECORD;

/// What values of a type are (T8).
#[derive(Clone, Copy, PartialEq, Eq, Debug)]
pub enum Representation {
    /// A reference.
    Ref,
    /// A signed number of 32 bits.
    W32,
    /// A signed number of 64 bits.
    W64,
}

/// How a type was derived (T17).
#[derive(Clone, Copy, PartialEq, Eq, Hash, Debug)]
pub enum Kind {
    /// What is left of the left type where a reference comes from the right one (D1, D2).
    Sub,
    /// The same of a type that stands against the direction of a signature (D3, D4).
    Sup,
    /// The type of an adapter: what the left type permits of what the right one has (D7, D8).
    Closed,
}

/// What a type was derived by.
#[derive(Clone, Copy, PartialEq, Eq, Debug)]
pub struct Key {
    /// How.
    pub kind: Kind,
    /// The first of the two types that it was derived from.
    pub left: Type,
    /// The second.
    pub right: Type,
}

/// The types of a method's arguments, and of its answer if it has one.
#[derive(Clone, PartialEq, Eq, Debug)]
pub struct Signature {
    /// The types of the arguments, at most four ([`MAX_ARGUMENTS`](crate::raw::MAX_ARGUMENTS)).
    pub arguments: Vec<Type>,
    /// The type of the answer.
    pub answer: Option<Type>,
}

/// What a type says of a method (T10, T12).
#[derive(Clone, PartialEq, Eq, Debug)]
pub enum MethodInfo {
    /// Nothing is said, and nothing may be done.
    Denied,
    /// The object does not have it.
    Unavail,
    /// The object may have it; it is called by way of a type in which it is avail.
    Optional(Signature),
    /// The object has it, and it may be called.
    Avail(Signature),
}

/// A type: of the sheet, or derived, and then it has a key. A number type has no methods.
#[derive(Clone, PartialEq, Eq, Debug)]
pub struct TypeInfo {
    /// Its number.
    pub number: Type,
    /// What its values are.
    pub representation: Representation,
    /// Its category, 0 for none.
    pub category: usize,
    /// Whether none but the owner of the object may hold it.
    pub own: bool,
    /// What it says of each method, by number.
    pub methods: Vec<MethodInfo>,
    /// What it was derived by.
    pub key: Option<Key>,
}

impl TypeInfo {
    /// Whether everything about it is settled (T16): objects can be made of such a type of the sheet.
    ///
    /// ```
    /// use pilgonca::{Sheet, Type, EXAMPLE};
    /// let sheet = Sheet::read(EXAMPLE).unwrap();
    /// let classes: Vec<Type> = sheet.types().filter(|one| one.is_class()).map(|one| one.number).collect();
    /// assert_eq!(classes, [Type(1)]);
    /// ```
    pub fn is_class(&self) -> bool {
        let settled =
            |method: &MethodInfo| matches!(method, MethodInfo::Avail(_) | MethodInfo::Unavail);
        self.representation == Representation::Ref && !self.own && self.methods.iter().all(settled)
    }
}

/// Where in a type's record its methods begin, and the bytes of each (B7).
const METHODS_AT: usize = 16;
const METHOD_RECORD: usize = 7;

/// The record with this index.
pub(crate) fn record<const LENGTH: usize>(bytes: &[u8], index: usize) -> [u8; LENGTH] {
    let at = index * LENGTH;
    bytes[at..at + LENGTH].try_into().expect("as long as asked")
}

/// The type with this index (B1 to B10) in a table of so many methods and sheet types.
pub(crate) fn type_info(
    types: &[u8],
    methods: usize,
    sheet_types: usize,
    index: usize,
) -> TypeInfo {
    let bytes: [u8; TYPE_RECORD] = record(types, index);
    let representation = match bytes[0] {
        0 => Representation::Ref,
        1 => Representation::W32,
        _ => Representation::W64,
    };
    let is_ref = representation == Representation::Ref;
    let methods = if is_ref { methods } else { 0 };
    TypeInfo {
        number: Type(number(index)),
        representation,
        category: usize::from(bytes[1]),
        own: is_ref && bytes[2] == 1,
        methods: (0..methods)
            .map(|method| method_info(record(&bytes[METHODS_AT..], method)))
            .collect(),
        key: (index >= sheet_types).then(|| key([bytes[3], bytes[4], bytes[5]])),
    }
}

fn key([kind, left, right]: [u8; 3]) -> Key {
    let kind = match kind {
        0 => Kind::Sub,
        1 => Kind::Sup,
        _ => Kind::Closed,
    };
    Key {
        kind,
        left: Type::from(left),
        right: Type::from(right),
    }
}

fn method_info([state, arguments, slots @ .., answer]: [u8; METHOD_RECORD]) -> MethodInfo {
    let signature = || Signature {
        arguments: slots
            .iter()
            .take(usize::from(arguments))
            .map(|slot| Type::from(*slot))
            .collect(),
        answer: answer.checked_sub(1).map(Type::from),
    };
    match state {
        0 => MethodInfo::Denied,
        1 => MethodInfo::Optional(signature()),
        2 => MethodInfo::Avail(signature()),
        _ => MethodInfo::Unavail,
    }
}
