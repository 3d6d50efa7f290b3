//! Types in words. A type of the sheet has its number and its name; a derived one is told by what it permits and by the two types that it comes from, since
//! its number says nothing to anybody.

use crate::names::{Kind, Names};
use crate::words::listed;
use pilgonca::{MethodInfo, Sheet, Type, TypeInfo};
use std::collections::BTreeSet;

/// So many levels down, only the sheet's types are named.
const DEEPEST: usize = 1;

/// A type as it is told. It keeps what the words need: a request that is refused leaves none of its derived types in a table.
#[derive(Clone, PartialEq, Eq, Debug)]
pub enum Described {
    OfSheet(Type),
    Derived {
        /// By number.
        permits: Vec<usize>,
        from: From,
    },
}

/// What a derived type comes from.
#[derive(Clone, PartialEq, Eq, Debug)]
pub enum From {
    Two(Box<[Described; 2]>),
    /// Types of the sheet, where the way to them is long.
    Many(Vec<Type>),
}

impl Described {
    pub fn of(sheet: &Sheet, number: Type) -> Described {
        at_depth(sheet, number, 0)
    }

    /// In a sentence: `type 3 (reader)`.
    pub fn words(&self, names: &Names) -> String {
        match self {
            Described::OfSheet(number) => names.words(Kind::Type, number.0),
            Described::Derived { permits, from } => {
                let permits = methods(permits, names);
                format!(
                    "the type that permits {permits}, made from {}",
                    from.words(names)
                )
            }
        }
    }

    /// In a list: `3 reader`.
    #[cfg(feature = "visits")]
    pub fn short(&self, names: &Names) -> String {
        match self {
            Described::OfSheet(number) => names.numbered(Kind::Type, number.0),
            Described::Derived { permits, from } => {
                let permits = methods(permits, names);
                format!("[permits {permits}; from {}]", from.words(names))
            }
        }
    }
}

impl From {
    fn words(&self, names: &Names) -> String {
        match self {
            From::Two(two) => {
                let [left, right] = [&two[0], &two[1]].map(|one| one.origin(names));
                format!("{left} and {right}")
            }
            From::Many(types) => {
                let types = types.iter();
                listed(types.map(|one| names.numbered(Kind::Type, one.0)))
            }
        }
    }
}

impl Described {
    /// As one of two that another comes from.
    fn origin(&self, names: &Names) -> String {
        match self {
            Described::OfSheet(number) => names.numbered(Kind::Type, number.0),
            Described::Derived { from, .. } => format!("({})", from.words(names)),
        }
    }
}

fn at_depth(sheet: &Sheet, number: Type, depth: usize) -> Described {
    let info = sheet.type_info(number);
    let Some((info, key)) = info.and_then(|info| info.key.map(|key| (info, key))) else {
        return Described::OfSheet(number);
    };
    let from = if depth == DEEPEST {
        From::Many(roots(sheet, number))
    } else {
        let of = |one| at_depth(sheet, one, depth + 1);
        From::Two(Box::new([of(key.left), of(key.right)]))
    };
    Described::Derived {
        permits: permitted(&info),
        from,
    }
}

/// The methods that a type permits (T12).
pub fn permitted(info: &TypeInfo) -> Vec<usize> {
    let methods = info.methods.iter().enumerate();
    let permitted = methods.filter(|(_, method)| signature(method).is_some());
    permitted.map(|(number, _)| number).collect()
}

/// The signature of a method that is permitted.
pub fn signature(method: &MethodInfo) -> Option<&pilgonca::Signature> {
    match method {
        MethodInfo::Avail(signature) | MethodInfo::Optional(signature) => Some(signature),
        MethodInfo::Denied | MethodInfo::Unavail => None,
    }
}

/// The types of the sheet that a derived type comes from, over any number of steps. In a state handed in a key may name its own type (H8).
fn roots(sheet: &Sheet, number: Type) -> Vec<Type> {
    let key = |one: Type| sheet.type_info(one).and_then(|info| info.key);
    let mut met = BTreeSet::from([number]);
    let mut left = vec![number];
    while let Some(key) = left.pop().map(key) {
        let two = key.map(|key| [key.left, key.right]);
        left.extend(two.into_iter().flatten().filter(|one| met.insert(*one)));
    }
    met.into_iter().filter(|one| key(*one).is_none()).collect()
}

/// Methods by name or number.
pub fn methods(numbers: &[usize], names: &Names) -> String {
    if numbers.is_empty() {
        return "nothing".to_string();
    }
    let words = numbers.iter();
    listed(words.map(|number| names.short(Kind::Method, *number as i64)))
}
