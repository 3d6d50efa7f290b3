//! The book of demand 3 (L): a second record of a run, fed the requests and
//! which of them were accepted. It has no cells, places or owners.

use crate::chains::{first_difference, offered, All};
use crate::refusal::Refusal;
use crate::relations::{Relation, Relations};
use crate::requests::{Got, Request};
use crate::restriction::{closed, sub};
use crate::state::State;
use crate::table::{Table, TypeNo};

/// The entry of one cell (L3).
#[derive(Clone, PartialEq, Eq, Debug)]
pub struct Page {
    pub class: TypeNo,
    pub closed: Vec<TypeNo>,
    pub trail: Vec<TypeNo>,
}

impl Page {
    /// S of a page's crossing (L4).
    pub fn last_trail(&self) -> TypeNo {
        self.trail.last().copied().unwrap_or(self.class)
    }

    /// V of a page's crossing (L4).
    pub fn last_closed(&self) -> TypeNo {
        self.closed.last().copied().unwrap_or(self.class)
    }

    /// The types whose signatures a call goes by (L11).
    fn layers(&self) -> Vec<TypeNo> {
        let mut layers = vec![self.last_trail()];
        layers.extend(self.closed.iter().rev());
        layers.push(self.class);
        layers
    }

    /// The types that must all permit a chain for the cell to offer it (L21).
    pub fn permitted(&self) -> Vec<TypeNo> {
        let mut types = vec![self.class];
        types.extend(&self.trail);
        types
    }
}

/// Why a book does not fit what was accepted.
#[derive(Clone, PartialEq, Eq, Debug)]
pub enum Trouble {
    /// An accepted request names a page, call, type or method that the book
    /// does not have, or derives past the 128 types.
    Impossible(Request),
    /// Not as many cells as pages (L19).
    PageCount { cells: usize, pages: usize },
    /// The page's class is not the object's (L20).
    Class { cell: usize },
    /// The adapters in front of the object are not of the page's closed types (L20).
    Closed { cell: usize },
    /// The last type of the page's trail is not the cell's (L20).
    Trail { cell: usize },
    /// The table of the state and that of the book differ (L22).
    Table,
    /// The calls of the state and the notes of the book differ (L22).
    Notes,
    /// A chain that is offered and not permitted, or the reverse (L21).
    Chain { cell: usize, chain: Vec<usize> },
}

/// The book (L2).
#[derive(Clone, Debug)]
pub struct Book {
    pub table: Table,
    relations: Relations,
    pub pages: Vec<Page>,
    /// The page and the method of each call.
    pub notes: Vec<(usize, usize)>,
}

impl Book {
    /// The book as it begins.
    pub fn of_sheet(table: &Table) -> Book {
        Book {
            table: table.clone(),
            relations: Relations::default(),
            pages: Vec::new(),
            notes: Vec::new(),
        }
    }

    /// The book of requests and their results: of these it is only told which
    /// accept.
    pub fn of_run(
        table: &Table,
        requests: &[Request],
        results: &[Result<Got, Refusal>],
    ) -> Result<Book, Trouble> {
        let mut book = Book::of_sheet(table);
        for (request, result) in requests.iter().zip(results) {
            book.feed(request, result.is_ok())?;
        }
        Ok(book)
    }

    /// Feeds one request (L1).
    pub fn feed(&mut self, request: &Request, accepted: bool) -> Result<(), Trouble> {
        if !accepted {
            return Ok(());
        }
        self.accept(request)
            .ok_or_else(|| Trouble::Impossible(request.clone()))
    }

    fn accept(&mut self, request: &Request) -> Option<()> {
        match request {
            Request::New { class, type_, .. } => self.new_page(*class, *type_),
            Request::Move { cell, type_, .. } => self.move_page(*cell, *type_),
            Request::Call {
                cell,
                method,
                arguments,
                ..
            } => self.call(*cell, *method, arguments),
            Request::Answer { call, value, .. } => self.answer(*call, *value),
        }
    }

    /// L9.
    fn new_page(&mut self, class: i64, type_: i64) -> Option<()> {
        let page = Page {
            class: self.sheet_type(class)?,
            closed: Vec::new(),
            trail: Vec::new(),
        };
        let types = [self.sheet_type(type_)?];
        self.next_page(page, &types)
    }

    /// L10.
    fn move_page(&mut self, cell: i64, type_: i64) -> Option<()> {
        let page = self.page(cell)?.clone();
        let types = [self.sheet_type(type_)?];
        self.next_page(page, &types)
    }

    /// L11 and L12.
    fn call(&mut self, cell: i64, method: i64, arguments: &[i64]) -> Option<()> {
        let layers = self.page(cell)?.layers();
        let page = usize::try_from(cell).ok()?;
        let method = usize::try_from(method).ok()?;
        let signature = self.table.types[layers[0]].permits(method)?.clone();
        for (position, operand) in arguments.iter().enumerate() {
            let named = *signature.arguments.get(position)?;
            if !self.table.types[named].is_ref() {
                continue;
            }
            let of_layer = |layer: &TypeNo| {
                let signature = self.table.types[*layer].permits(method)?;
                signature.arguments.get(position).copied()
            };
            let types: Option<Vec<TypeNo>> = layers.iter().map(of_layer).collect();
            let page = self.page(*operand)?.clone();
            self.next_page(page, &types?)?;
        }
        self.notes.push((page, method));
        Some(())
    }

    /// L13.
    fn answer(&mut self, call: i64, value: Option<i64>) -> Option<()> {
        let call = usize::try_from(call).ok()?;
        let (page, method) = *self.notes.get(call)?;
        let layers = self.pages.get(page)?.layers();
        let of_layer = |layer: &TypeNo| self.table.types[*layer].permits(method)?.answer;
        let due = of_layer(&layers[0]).filter(|due| self.table.types[*due].is_ref());
        let (Some(_), Some(value)) = (due, value) else {
            return Some(());
        };
        let types: Option<Vec<TypeNo>> = layers.iter().rev().map(of_layer).collect();
        let page = self.page(value)?.clone();
        self.next_page(page, &types?)
    }

    /// A page crosses to types in order and becomes the next one (L14).
    fn next_page(&mut self, mut page: Page, types: &[TypeNo]) -> Option<()> {
        for t in types {
            self.cross(&mut page, *t)?;
        }
        self.pages.push(page);
        Some(())
    }

    /// L5, L6 and L8.
    fn cross(&mut self, page: &mut Page, t: TypeNo) -> Option<()> {
        let s = page.last_trail();
        if self.table.types[t].own {
            page.closed.clear();
            page.trail.clear();
            self.adapt(page, t)?;
        } else if !self.holds(Relation::Subtype, t, s) {
            let r = sub(&mut self.table, t, s).ok()?;
            self.adapt(page, r)?;
        }
        page.trail.push(t);
        Some(())
    }

    /// L7.
    fn adapt(&mut self, page: &mut Page, r: TypeNo) -> Option<()> {
        let v = page.last_closed();
        if !self.holds(Relation::SubtypeOwnAside, r, v) {
            let adapter = closed(&mut self.table, r, v).ok()?;
            page.closed.push(adapter);
        }
        Some(())
    }

    fn holds(&mut self, relation: Relation, t: TypeNo, s: TypeNo) -> bool {
        self.relations.holds_in(&self.table, relation, t, s)
    }

    fn page(&self, cell: i64) -> Option<&Page> {
        self.pages.get(usize::try_from(cell).ok()?)
    }

    fn sheet_type(&self, number: i64) -> Option<TypeNo> {
        let number = usize::try_from(number).ok()?;
        (number < self.table.sheet_types).then_some(number)
    }

    /// Holds the whole book against a state that came of the same requests
    /// (L19, L20 but for the adapters, L21).
    pub fn check(&self, state: &State) -> Result<(), Trouble> {
        let (cells, pages) = (state.cells.len(), self.pages.len());
        if cells != pages {
            return Err(Trouble::PageCount { cells, pages });
        }
        (0..pages).try_for_each(|cell| self.check_cell(state, cell))
    }

    /// The claim of one cell, over all chains (L21).
    fn check_cell(&self, state: &State, cell: usize) -> Result<(), Trouble> {
        let page = &self.pages[cell];
        let (offered, permitted) = (offered(state, cell), page.permitted());
        let left = All {
            table: &state.table,
            types: &offered,
        };
        let right = All {
            table: &self.table,
            types: &permitted,
        };
        if let Some(chain) = first_difference(left, right) {
            return Err(Trouble::Chain { cell, chain });
        }
        if page.class != state.class(state.cells[cell].place) {
            return Err(Trouble::Class { cell });
        }
        Ok(())
    }

    /// All of the claim: the same, and adapters and types of cells, derived
    /// types and calls (L19 to L22).
    pub fn check_exactly(&self, state: &State) -> Result<(), Trouble> {
        self.check(state)?;
        for (cell, page) in self.pages.iter().enumerate() {
            let layers = state.layers(cell);
            if layers[0] != page.last_trail() {
                return Err(Trouble::Trail { cell });
            }
            if layers != page.layers() {
                return Err(Trouble::Closed { cell });
            }
        }
        if self.table != state.table {
            return Err(Trouble::Table);
        }
        let calls = state.calls.iter().map(|call| (call.cell, call.method));
        if !calls.eq(self.notes.iter().copied()) {
            return Err(Trouble::Notes);
        }
        Ok(())
    }
}

#[cfg(test)]
mod tests {
    use super::*;
    use crate::sheet;

    fn book() -> Book {
        let text = "guide=1\nsubjects=1\nmethods=1\ncats=0\ntypes=3\n\
            type=0\nrep=ref\ncat=0\nown=no\nm=avail()0\n\
            type=1\nrep=ref\ncat=0\nown=no\nm=unavail\n\
            type=2\nrep=ref\ncat=0\nown=yes\nm=avail()0\nend=sheet\n";
        Book::of_sheet(&sheet::read(text.as_bytes()).unwrap())
    }

    fn new(class: i64, type_: i64) -> Request {
        Request::New {
            subject: 0,
            class,
            type_,
        }
    }

    #[test]
    fn pages_follow_accepted_requests_alone() {
        let mut book = book();
        book.feed(&new(0, 1), false).unwrap();
        assert!(book.pages.is_empty());
        book.feed(&new(0, 1), true).unwrap();
        assert_eq!(book.pages[0].trail, [1]);
        assert_eq!(book.pages[0].closed, [4]);
        let back = Request::Move {
            subject: 0,
            cell: 0,
            receiver: 0,
            type_: 2,
        };
        book.feed(&back, true).unwrap();
        assert_eq!(book.pages[1].trail, [2]);
        assert!(book.pages[1].closed.is_empty());
        assert_eq!(book.pages[0].trail, [1]);
    }

    #[test]
    fn what_cannot_have_been_accepted_is_trouble() {
        let mut book = book();
        let request = new(0, 9);
        assert_eq!(book.feed(&request, true), Err(Trouble::Impossible(request)));
    }

    #[test]
    fn a_missing_cell_is_trouble() {
        let mut book = book();
        book.feed(&new(0, 0), true).unwrap();
        let state = State::of_sheet(book.table.clone());
        let trouble = Trouble::PageCount { cells: 0, pages: 1 };
        assert_eq!(book.check(&state), Err(trouble));
    }
}
