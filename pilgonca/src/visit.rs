//! A state, and the requests that are put to it.

mod records;
mod script;

use crate::numbers::{below, Call, Cell, Method, Place, Subject, Type};
use crate::raw::{self, State, StateMut, Table, Values};
use crate::records::{type_info, TypeInfo};
use crate::refusal::{Refusal, SheetRefused};
use crate::saved::{self, SavedRefused};
use crate::sheet::Sheet;
use records::{call_info, cell_info, place_info};
use std::fmt;

pub use records::{CallInfo, CellInfo, PlaceInfo, PlaceKind};
pub use script::script;

/// A state: a table with the cells, places and calls made since it was loaded. A request that is refused changes nothing of it (Q14).
///
/// A request's first operand is the subject that asks. Whoever keeps the `Visit` says which that is, by what it knows itself, and never takes it from a module:
/// the core believes it (docs/HOSTILE.md).
#[derive(Clone)]
pub struct Visit {
    state: Box<State>,
}

/// A reference that was made: its cell, and the place that it leads to.
#[derive(Clone, Copy, PartialEq, Eq, Debug)]
pub struct Held {
    /// The new cell.
    pub cell: Cell,
    /// What it leads to: where its reference came from, or a new adapter in front of that.
    pub place: Place,
}

impl Held {
    fn of([_, cell, place]: Values) -> Held {
        Held {
            cell: Cell(cell),
            place: Place(place),
        }
    }
}

/// A call that was made.
#[derive(Clone, PartialEq, Eq, Debug)]
pub struct Called {
    /// The number to answer by.
    pub call: Call,
    /// How many adapters it goes through.
    pub adapters: usize,
    /// What the references among the arguments became, in their order: cells of the owner of what was called, who is to be told of them (C17).
    pub arguments: Vec<Held>,
}

/// What a caller gets for an answer.
#[derive(Clone, Copy, PartialEq, Eq, Debug)]
pub enum Answered {
    /// A reference, now in a cell of its own.
    Reference(Held),
    /// A number.
    Number(i64),
    /// The method has no answer.
    Nothing,
}

impl Visit {
    /// The state of a sheet's text (Q10).
    ///
    /// ```
    /// use pilgonca::{Visit, EXAMPLE};
    /// assert_eq!(Visit::load(EXAMPLE).unwrap().cells().count(), 0);
    /// assert_eq!(Visit::load(b"").unwrap_err().number(), 1);
    /// ```
    pub fn load(text: &[u8]) -> Result<Visit, SheetRefused> {
        let (mut state, mut offset) = (Box::<State>::default(), 0);
        let code = raw::load(text, state.lend_mut(), &mut offset);
        Refusal::check(code).map_err(|refusal| SheetRefused { refusal, offset })?;
        Ok(Visit { state })
    }

    /// A state that was kept as bytes: refused with [`Refusal::OutOfRange`] where it does not pass the check of H.
    ///
    /// ```
    /// use pilgonca::{Subject, Refusal, Type, Visit, EXAMPLE};
    /// let mut visit = Visit::load(EXAMPLE).unwrap();
    /// visit.new_object(Subject(0), Type(1), Type(4)).unwrap();
    /// let mut kept = visit.state().clone();
    /// assert_eq!(Visit::from_state(kept.clone()).unwrap().cells().count(), 1);
    /// kept.cells[0] = 9;
    /// assert_eq!(Visit::from_state(kept).unwrap_err(), Refusal::OutOfRange);
    /// ```
    pub fn from_state(state: State) -> Result<Visit, Refusal> {
        let state = Box::new(state);
        let visit = Visit { state };
        visit.check()?;
        Ok(visit)
    }

    /// Whether it is sound, by the core: asked of any cell, the answer begins with the check (E11).
    fn check(&self) -> Result<(), Refusal> {
        self.offers(Cell(0), &[]).map(drop)
    }

    /// The bytes of a file that keeps the state ([`saved`]). A state that a sheet began always comes back (Q19).
    ///
    /// ```
    /// use pilgonca::{Subject, Type, Visit, EXAMPLE};
    /// let mut visit = Visit::load(EXAMPLE).unwrap();
    /// visit.new_object(Subject(0), Type(1), Type(4)).unwrap();
    /// let bytes = visit.save();
    /// assert_eq!(bytes.len(), 8 + 2 + 16 + 6 * 128 + 3 + 3 + 4);
    /// let again = Visit::from_saved(&bytes).unwrap();
    /// assert_eq!((again.cells().count(), again.save()), (1, bytes));
    /// ```
    pub fn save(&self) -> Vec<u8> {
        saved::write(&self.state)
    }

    /// The state of a file, of this version or an older one ([`saved`]). Its bytes are trusted in nothing: what they hold is a state handed in, and the core
    /// checks it.
    ///
    /// ```
    /// use pilgonca::{SavedRefused, Visit, EXAMPLE};
    /// let mut bytes = Visit::load(EXAMPLE).unwrap().save();
    /// assert_eq!(Visit::from_saved(EXAMPLE).unwrap_err(), SavedRefused::NotMarked);
    /// bytes[30] ^= 1;
    /// assert!(matches!(Visit::from_saved(&bytes), Err(SavedRefused::Checksum { .. })));
    /// ```
    pub fn from_saved(bytes: &[u8]) -> Result<Visit, SavedRefused> {
        let state = saved::read(bytes)?;
        let visit = Visit { state };
        let sound = visit.check();
        sound.map_err(|refusal| saved::reason(&visit.state, refusal))?;
        Ok(visit)
    }

    /// The bytes of the state, to be kept.
    ///
    /// ```
    /// use pilgonca::{Visit, EXAMPLE};
    /// assert_eq!(Visit::load(EXAMPLE).unwrap().state().counts, [2, 2, 0, 6, 6, 0, 0, 0]);
    /// ```
    pub fn state(&self) -> &State {
        &self.state
    }

    /// Puts a request to the state, and gives its values.
    fn request(
        &mut self,
        ask: impl FnOnce(StateMut, &mut Values) -> usize,
    ) -> Result<Values, Refusal> {
        let mut values = [0; 3];
        Refusal::check(ask(self.state.lend_mut(), &mut values))?;
        Ok(values)
    }

    /// The subject makes an object of the class, which it owns, and holds it as the type (N).
    ///
    /// ```
    /// use pilgonca::{Refusal, Subject, Type, Visit, EXAMPLE};
    /// let mut visit = Visit::load(EXAMPLE).unwrap();
    /// let held = visit.new_object(Subject(0), Type(1), Type(4)).unwrap();
    /// assert_eq!((held.cell.0, held.place.0), (0, 0));
    /// assert_eq!(visit.new_object(Subject(0), Type(2), Type(2)), Err(Refusal::UnknownType));
    /// ```
    pub fn new_object(&mut self, subject: Subject, class: Type, to: Type) -> Result<Held, Refusal> {
        self.request(|state, values| raw::new_object(state, subject.0, class.0, to.0, values))
            .map(Held::of)
    }

    /// The subject hands what its cell leads to on to the receiver, as the type (M); it keeps its own cell.
    ///
    /// ```
    /// use pilgonca::{Place, Refusal, Subject, Type, Visit, EXAMPLE};
    /// let mut visit = Visit::load(EXAMPLE).unwrap();
    /// let held = visit.new_object(Subject(0), Type(1), Type(4)).unwrap();
    /// let lent = visit.move_reference(Subject(0), held.cell, Subject(1), Type(2)).unwrap();
    /// assert_eq!(lent.place, held.place);
    /// let adapted = visit.move_reference(Subject(1), lent.cell, Subject(1), Type(3)).unwrap();
    /// assert_eq!(adapted.place, Place(1));
    /// let refused = visit.move_reference(Subject(1), adapted.cell, Subject(1), Type(4));
    /// assert_eq!(refused, Err(Refusal::NotOwner));
    /// ```
    pub fn move_reference(
        &mut self,
        subject: Subject,
        cell: Cell,
        receiver: Subject,
        to: Type,
    ) -> Result<Held, Refusal> {
        let ask = |state: StateMut, values: &mut Values| {
            raw::move_reference(state, subject.0, cell.0, receiver.0, to.0, values)
        };
        self.request(ask).map(Held::of)
    }

    /// The subject calls the method through its cell (C). Where the signature has a reference, the argument is the number of a cell that the subject holds.
    /// What such arguments became is in [`Called::arguments`]. A subject that has made [`MAX_CALLS_EACH`](raw::MAX_CALLS_EACH) calls is refused with
    /// [`Refusal::CallsFull`], however many the others have made (C7); an answer gives none back.
    ///
    /// ```
    /// use pilgonca::{Call, Method, Subject, Type, Visit, EXAMPLE};
    /// let mut visit = Visit::load(EXAMPLE).unwrap();
    /// let held = visit.new_object(Subject(0), Type(1), Type(1)).unwrap();
    /// let called = visit.call(Subject(0), held.cell, Method(1), &[5]).unwrap();
    /// assert_eq!((called.call, called.adapters), (Call(0), 0));
    /// ```
    pub fn call(
        &mut self,
        subject: Subject,
        cell: Cell,
        method: Method,
        arguments: &[i64],
    ) -> Result<Called, Refusal> {
        let ask = |state: StateMut, values: &mut Values| {
            raw::call(state, subject.0, cell.0, method.0, arguments, values)
        };
        let before = self.cells().count();
        let [_, call, adapters] = self.request(ask)?;
        // the owner's, one for each reference (C17)
        let made = self.cells().skip(before).map(|made| Held {
            cell: made.number,
            place: made.place,
        });
        Ok(Called {
            call: Call(call),
            adapters: usize::try_from(adapters).expect("adapters are counted from 0"),
            arguments: made.collect(),
        })
    }

    /// The owner of what was called answers (A): the number, the number of a cell that it holds, or nothing, as the signature asks.
    ///
    /// ```
    /// use pilgonca::{Answered, Method, Refusal, Subject, Type, Visit, EXAMPLE};
    /// let mut visit = Visit::load(EXAMPLE).unwrap();
    /// let held = visit.new_object(Subject(0), Type(1), Type(1)).unwrap();
    /// let read = visit.call(Subject(0), held.cell, Method(0), &[]).unwrap().call;
    /// assert_eq!(visit.answer(Subject(0), read, Some(12)), Ok(Answered::Number(12)));
    /// assert_eq!(visit.answer(Subject(0), read, Some(12)), Err(Refusal::AnsweredAlready));
    /// let mark = visit.call(Subject(0), held.cell, Method(1), &[5]).unwrap().call;
    /// assert_eq!(visit.answer(Subject(0), mark, None), Ok(Answered::Nothing));
    /// ```
    pub fn answer(
        &mut self,
        subject: Subject,
        call: Call,
        value: Option<i64>,
    ) -> Result<Answered, Refusal> {
        let given = usize::from(value.is_some());
        let value = value.unwrap_or(0);
        let ask = |state: StateMut, values: &mut Values| {
            raw::answer(state, subject.0, call.0, given, value, values)
        };
        let values = self.request(ask)?;
        Ok(match values[0] {
            0 => Answered::Nothing,
            1 => Answered::Number(values[1]),
            _ => Answered::Reference(Held::of(values)),
        })
    }

    /// Whether a cell offers a chain of methods, each called on what the one before answered (L18). A number that names no cell offers none.
    ///
    /// ```
    /// use pilgonca::{Method, Subject, Type, Visit, EXAMPLE};
    /// let mut visit = Visit::load(EXAMPLE).unwrap();
    /// let held = visit.new_object(Subject(0), Type(1), Type(2)).unwrap();
    /// assert_eq!(visit.offers(held.cell, &[Method(0)]), Ok(true));
    /// assert_eq!(visit.offers(held.cell, &[Method(1)]), Ok(false));
    /// ```
    pub fn offers(&self, cell: Cell, chain: &[Method]) -> Result<bool, Refusal> {
        let chain: Vec<i64> = chain.iter().map(|method| method.0).collect();
        let mut offered = 0;
        let code = raw::offers(self.state.lend(), cell.0, &chain, &mut offered);
        Refusal::check(code)?;
        Ok(offered == 1)
    }

    /// The table as it stands, derived types included.
    ///
    /// ```
    /// use pilgonca::{Visit, EXAMPLE};
    /// assert_eq!(Visit::load(EXAMPLE).unwrap().sheet().write(), EXAMPLE);
    /// ```
    pub fn sheet(&self) -> Sheet {
        let [subjects, methods, categories, sheet_types, types, ..] = self.state.counts;
        let table = Table {
            types: self.state.types,
            links: self.state.links,
            counts: [subjects, methods, categories, sheet_types, types],
        };
        Sheet {
            table: Box::new(table),
        }
    }

    /// All cells.
    ///
    /// ```
    /// use pilgonca::{Subject, Type, Visit, EXAMPLE};
    /// let mut visit = Visit::load(EXAMPLE).unwrap();
    /// let held = visit.new_object(Subject(1), Type(1), Type(2)).unwrap();
    /// let cell = visit.cells().next().unwrap();
    /// assert_eq!((cell.number, cell.place), (held.cell, held.place));
    /// assert_eq!((cell.holder, cell.type_), (Subject(1), Type(2)));
    /// ```
    pub fn cells(&self) -> impl Iterator<Item = CellInfo> {
        (0..self.state.counts[5]).map(|index| cell_info(&self.state.cells, index))
    }

    /// All places.
    ///
    /// ```
    /// use pilgonca::{PlaceKind, Subject, Type, Visit, EXAMPLE};
    /// let mut visit = Visit::load(EXAMPLE).unwrap();
    /// visit.new_object(Subject(1), Type(1), Type(2)).unwrap();
    /// let kind = PlaceKind::Object { class: Type(1), owner: Subject(1) };
    /// assert_eq!(visit.places().next().unwrap().kind, kind);
    /// ```
    pub fn places(&self) -> impl Iterator<Item = PlaceInfo> {
        (0..self.state.counts[6]).map(|index| place_info(&self.state.places, index))
    }

    /// All calls, of all subjects in one row.
    ///
    /// ```
    /// use pilgonca::{Method, Subject, Type, Visit, EXAMPLE};
    /// let mut visit = Visit::load(EXAMPLE).unwrap();
    /// let held = visit.new_object(Subject(1), Type(1), Type(2)).unwrap();
    /// visit.call(Subject(1), held.cell, Method(0), &[]).unwrap();
    /// let call = visit.calls().next().unwrap();
    /// assert_eq!((call.caller, call.cell, call.method), (Subject(1), held.cell, Method(0)));
    /// assert!(!call.answered);
    /// let made_by = |subject| visit.calls().filter(|call| call.caller == subject).count();
    /// assert_eq!((made_by(Subject(0)), made_by(Subject(1))), (0, 1));
    /// ```
    pub fn calls(&self) -> impl Iterator<Item = CallInfo> {
        (0..self.state.counts[7]).map(|index| call_info(&self.state.calls, index))
    }

    /// All types: those of the sheet, then the derived ones.
    ///
    /// ```
    /// use pilgonca::{Kind, Subject, Type, Visit, EXAMPLE};
    /// let mut visit = Visit::load(EXAMPLE).unwrap();
    /// let held = visit.new_object(Subject(0), Type(1), Type(2)).unwrap();
    /// visit.move_reference(Subject(0), held.cell, Subject(1), Type(3)).unwrap();
    /// let derived: Vec<Kind> = visit.types().filter_map(|one| one.key).map(|key| key.kind).collect();
    /// assert_eq!(derived, [Kind::Sub, Kind::Closed]);
    /// ```
    pub fn types(&self) -> impl Iterator<Item = TypeInfo> {
        let [_, methods, _, sheet_types, types, ..] = self.state.counts;
        (0..types).map(move |index| type_info(&self.state.types, methods, sheet_types, index))
    }

    /// One type; none where the number names none.
    ///
    /// ```
    /// use pilgonca::{Type, Visit, EXAMPLE};
    /// let visit = Visit::load(EXAMPLE).unwrap();
    /// assert!(visit.type_info(Type(1)).unwrap().is_class());
    /// assert!(visit.type_info(Type(6)).is_none());
    /// ```
    pub fn type_info(&self, t: Type) -> Option<TypeInfo> {
        let [_, methods, _, sheet_types, types, ..] = self.state.counts;
        let index = below(t.0, types)?;
        Some(type_info(&self.state.types, methods, sheet_types, index))
    }

    /// One cell; none where the number names none.
    ///
    /// ```
    /// use pilgonca::{Cell, Subject, Type, Visit, EXAMPLE};
    /// let mut visit = Visit::load(EXAMPLE).unwrap();
    /// visit.new_object(Subject(1), Type(1), Type(2)).unwrap();
    /// assert_eq!(visit.cell_info(Cell(0)).unwrap().holder, Subject(1));
    /// assert!(visit.cell_info(Cell(1)).is_none());
    /// ```
    pub fn cell_info(&self, cell: Cell) -> Option<CellInfo> {
        let index = below(cell.0, self.state.counts[5])?;
        Some(cell_info(&self.state.cells, index))
    }

    /// One place; none where the number names none.
    ///
    /// ```
    /// use pilgonca::{Place, PlaceKind, Subject, Type, Visit, EXAMPLE};
    /// let mut visit = Visit::load(EXAMPLE).unwrap();
    /// visit.new_object(Subject(1), Type(1), Type(2)).unwrap();
    /// let kind = PlaceKind::Object { class: Type(1), owner: Subject(1) };
    /// assert_eq!(visit.place_info(Place(0)).unwrap().kind, kind);
    /// assert!(visit.place_info(Place(1)).is_none());
    /// ```
    pub fn place_info(&self, place: Place) -> Option<PlaceInfo> {
        let index = below(place.0, self.state.counts[6])?;
        Some(place_info(&self.state.places, index))
    }

    /// The object behind every adapter of a place (Q2); none where the number names no place.
    ///
    /// ```
    /// use pilgonca::{Place, Subject, Type, Visit, EXAMPLE};
    /// let mut visit = Visit::load(EXAMPLE).unwrap();
    /// let held = visit.new_object(Subject(0), Type(1), Type(2)).unwrap();
    /// let adapted = visit.move_reference(Subject(0), held.cell, Subject(1), Type(3)).unwrap();
    /// assert_eq!(adapted.place, Place(1));
    /// assert_eq!(visit.base_of(adapted.place), Some(Place(0)));
    /// assert_eq!(visit.base_of(Place(2)), None);
    /// ```
    pub fn base_of(&self, place: Place) -> Option<Place> {
        let mut place = place;
        loop {
            let index = below(place.0, self.state.counts[6])?;
            match place_info(&self.state.places, index).kind {
                PlaceKind::Object { .. } => return Some(place),
                // which has a lower number
                PlaceKind::Adapter { behind, .. } => place = behind,
            }
        }
    }
}

impl fmt::Debug for Visit {
    fn fmt(&self, out: &mut fmt::Formatter) -> fmt::Result {
        let counts = &self.state.counts;
        out.debug_struct("Visit")
            .field("counts", counts)
            .finish_non_exhaustive()
    }
}
