//! A table of types: of a sheet's text, or of a visit.

#[cfg(feature = "tools")]
use crate::numbers::number;
use crate::numbers::{below, Type};
use crate::raw::{self, PairTable, Table, LINK_RECORD, MAX_SHEET_TYPES, MAX_TEXT};
#[cfg(feature = "tools")]
use crate::records::Kind;
use crate::records::{type_info, TypeInfo};
use crate::refusal::{Refusal, SheetRefused};
use std::fmt;

/// A table that the core has accepted.
#[derive(Clone)]
pub struct Sheet {
    pub(crate) table: Box<Table>,
}

/// Which of the four relations hold between T and S: S is a subtype of T; T strictly, loosely, freely from S (R2).
#[derive(Clone, Copy, PartialEq, Eq, Debug)]
pub struct Comparison {
    /// S passes as T as it is (R8).
    pub subtype: bool,
    /// S has every method that T calls, and its category fits (R9).
    pub strict: bool,
    /// S shows every method that T calls (R10).
    pub loose: bool,
    /// The signatures that both show agree (R11).
    pub free: bool,
}

impl Comparison {
    /// From the sum that stands for them (B24).
    fn of_sum(sum: usize) -> Comparison {
        Comparison {
            subtype: sum & 1 != 0,
            strict: sum & 2 != 0,
            loose: sum & 4 != 0,
            free: sum & 8 != 0,
        }
    }
}

/// The answers at every pair of a sheet's types.
#[derive(Clone)]
pub struct Pairs {
    entries: Box<PairTable>,
    types: usize,
}

impl Pairs {
    /// How many types the sheet has.
    ///
    /// ```
    /// let sheet = pilgonca::Sheet::read(pilgonca::EXAMPLE).unwrap();
    /// assert_eq!(sheet.pairs().types(), 6);
    /// ```
    pub fn types(&self) -> usize {
        self.types
    }

    /// The answers at a pair. A number that names no sheet type is related to none.
    ///
    /// ```
    /// use pilgonca::{Sheet, Type, EXAMPLE};
    /// let pairs = Sheet::read(EXAMPLE).unwrap().pairs();
    /// assert!(pairs.at(Type(2), Type(1)).subtype);
    /// assert!(!pairs.at(Type(5), Type(2)).loose);
    /// assert!(!pairs.at(Type(0), Type(6)).free);
    /// ```
    pub fn at(&self, t: Type, s: Type) -> Comparison {
        let pair = below(t.0, self.types).zip(below(s.0, self.types));
        let entry = pair.map_or(0, |(t, s)| self.entries[t * MAX_SHEET_TYPES + s]);
        Comparison::of_sum(usize::from(entry))
    }
}

impl Sheet {
    /// Reads a sheet's text (S).
    ///
    /// ```
    /// use pilgonca::{Refusal, Sheet, EXAMPLE};
    /// assert!(Sheet::read(EXAMPLE).is_ok());
    /// let refused = Sheet::read(&EXAMPLE[..EXAMPLE.len() - 1]).unwrap_err();
    /// assert_eq!((refused.refusal, refused.offset), (Refusal::Form, EXAMPLE.len() - 10));
    /// ```
    pub fn read(text: &[u8]) -> Result<Sheet, SheetRefused> {
        let (mut table, mut offset) = (Box::<Table>::default(), 0);
        let code = raw::read(text, table.lend_mut(), &mut offset);
        Refusal::check(code).map_err(|refusal| SheetRefused { refusal, offset })?;
        Ok(Sheet { table })
    }

    /// The sheet's text, without derived types (W).
    ///
    /// ```
    /// use pilgonca::{Sheet, EXAMPLE};
    /// assert_eq!(Sheet::read(EXAMPLE).unwrap().write(), EXAMPLE);
    /// ```
    pub fn write(&self) -> Vec<u8> {
        let mut text = vec![0; MAX_TEXT];
        let length = self
            .write_to(&mut text)
            .expect("a buffer for the longest text");
        text.truncate(length);
        text
    }

    /// The sheet's text in front of a buffer, and its length. A refusal leaves the buffer as it was.
    ///
    /// ```
    /// use pilgonca::{Refusal, Sheet, EXAMPLE};
    /// let (sheet, mut buffer) = (Sheet::read(EXAMPLE).unwrap(), [0; 400]);
    /// assert_eq!(sheet.write_to(&mut buffer), Ok(EXAMPLE.len()));
    /// assert_eq!(sheet.write_to(&mut buffer[..100]), Err(Refusal::ShortBuffer));
    /// ```
    pub fn write_to(&self, buffer: &mut [u8]) -> Result<usize, Refusal> {
        let mut length = 0;
        Refusal::check(raw::write(buffer, self.table.lend(), &mut length))?;
        Ok(length)
    }

    /// The four answers at a pair of types, derived ones too (R14).
    ///
    /// ```
    /// use pilgonca::{Refusal, Sheet, Type, EXAMPLE};
    /// let sheet = Sheet::read(EXAMPLE).unwrap();
    /// assert!(sheet.compare(Type(3), Type(1)).unwrap().subtype);
    /// assert_eq!(sheet.compare(Type(3), Type(6)), Err(Refusal::UnknownType));
    /// ```
    pub fn compare(&self, t: Type, s: Type) -> Result<Comparison, Refusal> {
        match raw::compare(self.table.lend(), t.0, s.0).checked_sub(16) {
            Some(sum) => Ok(Comparison::of_sum(sum)),
            // a number that names no type is all that can be wrong with an accepted table
            None => Err(Refusal::UnknownType),
        }
    }

    /// The answers at all pairs of sheet types (E9).
    ///
    /// ```
    /// use pilgonca::{Sheet, Type, EXAMPLE};
    /// let sheet = Sheet::read(EXAMPLE).unwrap();
    /// let (t, s) = (Type(5), Type(3));
    /// assert_eq!(sheet.pairs().at(t, s), sheet.compare(t, s).unwrap());
    /// ```
    pub fn pairs(&self) -> Pairs {
        let mut entries = Box::new([0; MAX_SHEET_TYPES * MAX_SHEET_TYPES]);
        let code = raw::pairs(self.table.lend(), &mut entries);
        assert_eq!(code, 0, "an accepted table");
        let types = self.sheet_types();
        Pairs { entries, types }
    }

    /// A type derived in this table (E10), with all that its signatures name. It is for tools on types: what a visit gives is a copy of its table.
    ///
    /// ```
    /// use pilgonca::{Kind, Sheet, Type, EXAMPLE};
    /// let mut sheet = Sheet::read(EXAMPLE).unwrap();
    /// let narrowed = sheet.derive(Kind::Sub, Type(3), Type(2)).unwrap();
    /// assert_eq!((narrowed, sheet.types().count()), (Type(6), 7));
    /// ```
    #[cfg(feature = "tools")]
    pub fn derive(&mut self, kind: Kind, t: Type, s: Type) -> Result<Type, Refusal> {
        let mut index = 0;
        let code = raw::tools::derive(self.table.lend_mut(), kind as usize, t.0, s.0, &mut index);
        Refusal::check(code)?;
        Ok(Type(number(index)))
    }

    /// How many subjects there are.
    ///
    /// ```
    /// assert_eq!(pilgonca::Sheet::read(pilgonca::EXAMPLE).unwrap().subjects(), 2);
    /// ```
    pub fn subjects(&self) -> usize {
        self.table.counts[0]
    }

    /// How many methods there are.
    ///
    /// ```
    /// assert_eq!(pilgonca::Sheet::read(pilgonca::EXAMPLE).unwrap().methods(), 2);
    /// ```
    pub fn methods(&self) -> usize {
        self.table.counts[1]
    }

    /// How many categories there are, 0 not counted; they are numbered from 1.
    ///
    /// ```
    /// assert_eq!(pilgonca::Sheet::read(pilgonca::EXAMPLE).unwrap().categories(), 0);
    /// ```
    pub fn categories(&self) -> usize {
        self.table.counts[2]
    }

    /// How many types the sheet describes; derived ones come behind them.
    ///
    /// ```
    /// assert_eq!(pilgonca::Sheet::read(pilgonca::EXAMPLE).unwrap().sheet_types(), 6);
    /// ```
    pub fn sheet_types(&self) -> usize {
        self.table.counts[3]
    }

    /// The one or two broader categories that a category names (T6); none for 0 and for what is no category.
    ///
    /// ```
    /// let text = b"guide=1\nsubjects=1\nmethods=1\ncats=2\nunder=0\nunder=0,1\ntypes=1\ntype=0\nrep=w32\ncat=2\nend=sheet\n";
    /// let sheet = pilgonca::Sheet::read(text).unwrap();
    /// assert_eq!((sheet.broader(1), sheet.broader(2)), (vec![0], vec![0, 1]));
    /// assert!(sheet.broader(0).is_empty() && sheet.broader(3).is_empty());
    /// ```
    pub fn broader(&self, category: usize) -> Vec<usize> {
        if category == 0 || category > self.categories() {
            return Vec::new();
        }
        let at = category * LINK_RECORD;
        let [how_many, links @ ..] = &self.table.links[at..at + LINK_RECORD] else {
            unreachable!("a record has {LINK_RECORD} bytes")
        };
        let named = links.iter().take(usize::from(*how_many));
        named.map(|link| usize::from(*link)).collect()
    }

    /// All types: those of the sheet, then the derived ones.
    ///
    /// ```
    /// use pilgonca::{Representation, Sheet, EXAMPLE};
    /// let sheet = Sheet::read(EXAMPLE).unwrap();
    /// assert_eq!(sheet.types().count(), 6);
    /// assert_eq!(sheet.types().next().unwrap().representation, Representation::W32);
    /// ```
    pub fn types(&self) -> impl Iterator<Item = TypeInfo> {
        let [_, methods, _, sheet_types, types] = self.table.counts;
        (0..types).map(move |index| type_info(&self.table.types, methods, sheet_types, index))
    }

    /// One type; none where the number names none.
    ///
    /// ```
    /// use pilgonca::{MethodInfo, Sheet, Signature, Type, EXAMPLE};
    /// let sheet = Sheet::read(EXAMPLE).unwrap();
    /// let read = Signature { arguments: vec![], answer: Some(Type(0)) };
    /// assert_eq!(sheet.type_info(Type(2)).unwrap().methods, [MethodInfo::Avail(read), MethodInfo::Denied]);
    /// assert!(sheet.type_info(Type(6)).is_none());
    /// ```
    pub fn type_info(&self, t: Type) -> Option<TypeInfo> {
        let [_, methods, _, sheet_types, types] = self.table.counts;
        let index = below(t.0, types)?;
        Some(type_info(&self.table.types, methods, sheet_types, index))
    }
}

impl fmt::Debug for Sheet {
    fn fmt(&self, out: &mut fmt::Formatter) -> fmt::Result {
        let counts = &self.table.counts;
        out.debug_struct("Sheet")
            .field("counts", counts)
            .finish_non_exhaustive()
    }
}
