//! The four requests (Q11): what is asked, and what comes of it.

/// A request. Every operand is a signed number of 64 bits (Q12).
#[derive(Clone, PartialEq, Eq, Debug)]
pub enum Request {
    New {
        subject: i64,
        class: i64,
        type_: i64,
    },
    Move {
        subject: i64,
        cell: i64,
        receiver: i64,
        type_: i64,
    },
    Call {
        subject: i64,
        cell: i64,
        method: i64,
        arguments: Vec<i64>,
    },
    Answer {
        subject: i64,
        call: i64,
        value: Option<i64>,
    },
}

/// What an accepted request results in.
#[derive(Clone, Copy, PartialEq, Eq, Debug)]
pub enum Got {
    /// A new cell and its place (Q18).
    Cell { cell: usize, place: usize },
    /// A call, and the adapters that it goes through (C19).
    Call { call: usize, adapters: usize },
    /// The number answered (A12).
    Number(i64),
    /// An answer of nothing (A12).
    Nothing,
}

/// What an operand names of so many things; nothing where it is negative or too high (Q12).
pub fn index(operand: i64, count: usize) -> Option<usize> {
    usize::try_from(operand).ok().filter(|index| *index < count)
}
