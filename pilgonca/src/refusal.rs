//! What a refusal says.

use std::error::Error;
use std::fmt;

/// One list for the names, their numbers and the words, which are the variants' documentation too. tools/refusals holds it against docs/refusals.txt.
macro_rules! refusals {
    ($($name:ident = $number:literal: $words:literal,)*) => {
        /// Why something is refused: the first test that failed. Numbers rise, and some are left out (docs/refusals.txt).
        /// More will come, so a match has an arm for the rest.
        #[non_exhaustive]
        #[repr(u8)]
        #[derive(Clone, Copy, PartialEq, Eq, PartialOrd, Ord, Hash, Debug)]
        pub enum Refusal {
            $(#[doc = $words] $name = $number,)*
        }

        const ALL: &[Refusal] = &[$(Refusal::$name,)*];

        fn words(refusal: Refusal) -> &'static str {
            match refusal {
                $(Refusal::$name => $words,)*
            }
        }
    };
}

refusals! {
    Form = 1: "the line is not of the form that is due there",
    OutOfRange = 2: "a number is outside its range, the input is too long, or the table or state handed in is unsound",
    NotBelow = 3: "a broader category does not come before its own, or an own type stands in a signature",
    ShortBuffer = 4: "the buffer is too short",
    UnknownSubject = 5: "there is no such subject",
    NotHeld = 6: "the subject does not hold the cell, or does not own what was called",
    UnknownType = 7: "there is no such type, or it is not of the kind needed",
    Unrelated = 8: "the types do not go together",
    NotOwner = 9: "the type is own and the receiver does not own the object",
    NotStrict = 10: "what the reference leads to lacks a method or is of another category",
    TypesFull = 11: "no type number is free",
    PlacesFull = 12: "no place is free",
    CellsFull = 13: "no cell is free",
    NotCallable = 14: "the method cannot be called by the type of the cell",
    WrongValues = 15: "the arguments or the answer are not what the signature asks for",
    TooWide = 16: "the number does not fit 32 bits",
    AnsweredAlready = 17: "the call is answered already",
    CallsFull = 18: "the subject has made all of its calls",
    LaterLayer = 19: "a value fails at a layer behind the first of the call",
    UnfitTimes = 22: "a list of times is too long, falls or leaves its range, or the tolerance is too large",
}

impl Refusal {
    /// All of them, by number; their count is no part of the type, since more will come, and does not say which number is the last.
    ///
    /// ```
    /// use pilgonca::Refusal;
    /// assert!(Refusal::ALL.windows(2).all(|two| two[0].number() < two[1].number()));
    /// ```
    pub const ALL: &'static [Refusal] = ALL;

    /// Its number.
    ///
    /// ```
    /// assert_eq!(pilgonca::Refusal::NotOwner.number(), 9);
    /// ```
    pub fn number(self) -> u8 {
        self as u8
    }

    /// The refusal with this number.
    ///
    /// ```
    /// use pilgonca::Refusal;
    /// assert_eq!(Refusal::from_number(14), Some(Refusal::NotCallable));
    /// assert_eq!(Refusal::from_number(0), None);
    /// assert_eq!(Refusal::from_number(20), None);
    /// assert_eq!(Refusal::from_number(22), Some(Refusal::UnfitTimes));
    /// ```
    pub fn from_number(number: usize) -> Option<Refusal> {
        let found = |refusal: &&Refusal| usize::from(refusal.number()) == number;
        Refusal::ALL.iter().find(found).copied()
    }

    /// What a C function returned: nothing is wrong where that is 0.
    pub(crate) fn check(code: usize) -> Result<(), Refusal> {
        match code {
            0 => Ok(()),
            _ => Err(Refusal::from_number(code).expect("the number of a refusal")),
        }
    }
}

/// Plain words.
///
/// ```
/// assert_eq!(pilgonca::Refusal::CellsFull.to_string(), "no cell is free");
/// ```
impl fmt::Display for Refusal {
    fn fmt(&self, out: &mut fmt::Formatter) -> fmt::Result {
        out.write_str(words(*self))
    }
}

impl Error for Refusal {}

/// A sheet that is refused: why, and the offset of the first byte of the line at fault (S31).
#[derive(Clone, Copy, PartialEq, Eq, Debug)]
pub struct SheetRefused {
    /// Why: 1, 2 or 3.
    pub refusal: Refusal,
    /// Where the line begins, in bytes from 0.
    pub offset: usize,
}

impl SheetRefused {
    /// The refusal's number.
    ///
    /// ```
    /// let refused = pilgonca::Sheet::read(b"guide=2\n").unwrap_err();
    /// assert_eq!((refused.number(), refused.offset), (2, 0));
    /// ```
    pub fn number(&self) -> u8 {
        self.refusal.number()
    }
}

/// The words of the refusal, and where.
///
/// ```
/// let refused = pilgonca::Sheet::read(b"guide=1\nsubject=2\n").unwrap_err();
/// assert_eq!(refused.to_string(), "at byte 8: the line is not of the form that is due there");
/// ```
impl fmt::Display for SheetRefused {
    fn fmt(&self, out: &mut fmt::Formatter) -> fmt::Result {
        write!(out, "at byte {}: {}", self.offset, self.refusal)
    }
}

impl Error for SheetRefused {
    fn source(&self) -> Option<&(dyn Error + 'static)> {
        Some(&self.refusal)
    }
}
