//! The table (T): subjects, methods, categories, types, and the keys of those derived.

/// T1.
pub const MAX_SUBJECTS: usize = 16;
/// T2.
pub const MAX_METHODS: usize = 16;
/// T3.
pub const MAX_CATEGORIES: usize = 31;
/// T4.
pub const MAX_SHEET_TYPES: usize = 48;
/// T5.
pub const MAX_TYPES: usize = 128;
/// T13.
pub const MAX_ARGUMENTS: usize = 4;

/// A type number, from 0.
pub type TypeNo = usize;

/// What a value of the type is: a reference, or a number of 32 or 64 bits (T8).
#[derive(Clone, Copy, PartialEq, Eq, Debug, Hash)]
pub enum Representation {
    Ref,
    W32,
    W64,
}

/// The types that a method takes, and the one that it answers with, if any (T13).
#[derive(Clone, PartialEq, Eq, Debug, Hash, Default)]
pub struct Signature {
    pub arguments: Vec<TypeNo>,
    pub answer: Option<TypeNo>,
}

impl Signature {
    /// Every type it names, arguments first.
    pub fn named(&self) -> impl Iterator<Item = TypeNo> + '_ {
        self.arguments.iter().chain(&self.answer).copied()
    }
}

/// What a ref type says of one method (T10).
#[derive(Clone, PartialEq, Eq, Debug, Hash)]
pub enum MethodState {
    Denied,
    Optional(Signature),
    Avail(Signature),
    Unavail,
}

impl MethodState {
    /// The signature, which the two states that permit the method have (T12).
    pub fn signature(&self) -> Option<&Signature> {
        match self {
            MethodState::Optional(signature) | MethodState::Avail(signature) => Some(signature),
            MethodState::Denied | MethodState::Unavail => None,
        }
    }

    pub fn is_avail(&self) -> bool {
        matches!(self, MethodState::Avail(_))
    }
}

/// One type. A number type has no states, and `own` is false (T11).
#[derive(Clone, PartialEq, Eq, Debug)]
pub struct Type {
    pub representation: Representation,
    pub category: usize,
    pub own: bool,
    pub methods: Vec<MethodState>,
}

impl Type {
    /// A number type.
    pub fn number(representation: Representation, category: usize) -> Type {
        Type {
            representation,
            category,
            own: false,
            methods: Vec::new(),
        }
    }

    pub fn is_ref(&self) -> bool {
        self.representation == Representation::Ref
    }

    /// T16.
    pub fn is_class(&self) -> bool {
        let settled = |state: &MethodState| match state {
            MethodState::Avail(_) | MethodState::Unavail => true,
            MethodState::Denied | MethodState::Optional(_) => false,
        };
        self.is_ref() && !self.own && self.methods.iter().all(settled)
    }

    /// The state of a method, denied where there is none (T19).
    pub fn state(&self, method: usize) -> &MethodState {
        self.methods.get(method).unwrap_or(&MethodState::Denied)
    }

    /// The signature of a method, if the type permits it.
    pub fn permits(&self, method: usize) -> Option<&Signature> {
        self.state(method).signature()
    }
}

/// How a type was derived.
#[derive(Clone, Copy, PartialEq, Eq, Debug, Hash)]
pub enum Kind {
    Sub,
    Sup,
    Closed,
}

/// What a derived type is found again by (T17, D14).
#[derive(Clone, Copy, PartialEq, Eq, Debug, Hash)]
pub struct Key {
    pub kind: Kind,
    pub left: TypeNo,
    pub right: TypeNo,
}

/// The broader categories that a category names, one or two (T6).
#[derive(Clone, Copy, PartialEq, Eq, Debug)]
pub struct Broader {
    pub first: usize,
    pub second: Option<usize>,
}

/// A table that keeps the rules T1 to T17.
#[derive(Clone, PartialEq, Eq, Debug)]
pub struct Table {
    pub subjects: usize,
    pub methods: usize,
    /// Entry k - 1 belongs to category k.
    pub broader: Vec<Broader>,
    pub sheet_types: usize,
    /// The sheet types, then those derived (T5).
    pub types: Vec<Type>,
    /// The keys of the derived types, in their order.
    pub keys: Vec<Key>,
}

impl Table {
    pub fn categories(&self) -> usize {
        self.broader.len()
    }

    /// a ≤ b (T7).
    pub fn category_le(&self, a: usize, b: usize) -> bool {
        a == 0 || self.reached(b)[a]
    }

    /// b and the categories that its links lead to. Links lead down (T6), so
    /// that one walk down from b meets them all.
    fn reached(&self, b: usize) -> [bool; MAX_CATEGORIES + 1] {
        let mut reached = [false; MAX_CATEGORIES + 1];
        reached[b] = true;
        for category in (1..=b).rev() {
            if reached[category] {
                let Broader { first, second } = self.broader[category - 1];
                reached[first] = true;
                reached[second.unwrap_or(first)] = true;
            }
        }
        reached
    }

    /// Whether a number is that of a ref type of the sheet.
    pub fn is_sheet_ref(&self, number: TypeNo) -> bool {
        number < self.sheet_types && self.types[number].is_ref()
    }

    /// Whether a number is that of a class of the sheet.
    pub fn is_sheet_class(&self, number: TypeNo) -> bool {
        number < self.sheet_types && self.types[number].is_class()
    }

    /// The lowest derived type with this key (D14).
    pub fn known(&self, key: Key) -> Option<TypeNo> {
        let index = self.keys.iter().position(|known| *known == key)?;
        Some(self.sheet_types + index)
    }

    /// Leaves so many types.
    pub fn truncate(&mut self, count: usize) {
        self.types.truncate(count);
        self.keys.truncate(count - self.sheet_types);
    }

    /// Whether a type with own stands in a signature (T14).
    pub fn own_in_signature(&self) -> bool {
        let states = self.types.iter().flat_map(|one| &one.methods);
        let mut named = states
            .filter_map(MethodState::signature)
            .flat_map(Signature::named);
        named.any(|one| self.types[one].own)
    }
}

#[cfg(test)]
mod tests {
    use super::*;

    fn categories(list: &[(usize, Option<usize>)]) -> Table {
        Table {
            subjects: 1,
            methods: 1,
            broader: list
                .iter()
                .map(|(first, second)| Broader {
                    first: *first,
                    second: *second,
                })
                .collect(),
            sheet_types: 0,
            types: Vec::new(),
            keys: Vec::new(),
        }
    }

    #[test]
    fn category_order_follows_both_links() {
        // 1 under 0, 2 under 0, 3 under 1 and 2, 4 under 3.
        let table = categories(&[(0, None), (0, Some(0)), (1, Some(2)), (3, None)]);
        assert!(table.category_le(0, 0));
        assert!(table.category_le(0, 4));
        assert!(table.category_le(2, 4));
        assert!(table.category_le(1, 3));
        assert!(!table.category_le(1, 2));
        assert!(!table.category_le(4, 3));
        assert!(!table.category_le(1, 0));
    }

    #[test]
    fn a_class_has_no_own_and_only_outer_states() {
        let avail = MethodState::Avail(Signature::default());
        let mut class = Type {
            representation: Representation::Ref,
            category: 0,
            own: false,
            methods: vec![avail.clone(), MethodState::Unavail],
        };
        assert!(class.is_class());
        class.own = true;
        assert!(!class.is_class());
        class.own = false;
        class.methods[1] = MethodState::Denied;
        assert!(!class.is_class());
        class.methods[1] = MethodState::Optional(Signature::default());
        assert!(!class.is_class());
        assert!(!Type::number(Representation::W32, 0).is_class());
    }
}
