//! Numbers by what they name. Any number may be asked about: the core refuses one that names nothing (Q12).

use std::fmt;

macro_rules! numbers {
    ($($(#[$doc:meta])* $name:ident;)*) => {
        $(
            $(#[$doc])*
            #[derive(Clone, Copy, PartialEq, Eq, PartialOrd, Ord, Hash, Debug)]
            pub struct $name(pub i64);

            impl fmt::Display for $name {
                fn fmt(&self, out: &mut fmt::Formatter) -> fmt::Result {
                    self.0.fmt(out)
                }
            }

            impl From<u8> for $name {
                fn from(byte: u8) -> $name {
                    $name(i64::from(byte))
                }
            }
        )*
    };
}

numbers! {
    /// A module that holds references.
    ///
    /// ```
    /// assert_eq!(pilgonca::Subject(3).to_string(), "3");
    /// ```
    Subject;
    /// A type of the sheet, or one derived since.
    Type;
    /// A reference in a subject's hands.
    Cell;
    /// What a reference leads to: an object or an adapter.
    Place;
    /// A call, answered or not.
    Call;
    /// A method that every type speaks about.
    Method;
}

/// The number of the record with this index. A byte would not do: calls are numbered to 511.
pub(crate) fn number(index: usize) -> i64 {
    i64::try_from(index).expect("no array has so many records")
}

/// The number as an index among so many; none where it names nothing.
pub(crate) fn below(number: i64, count: usize) -> Option<usize> {
    usize::try_from(number).ok().filter(|index| *index < count)
}
