//! What the picture of a run shows: a tree for each object, of the adapters in front of it and the cells that lead there. What is alike stands once, with the
//! numbers of all of it: cells of one holder, type and place; then adapters in front of one place, and objects, that differ in numbers alone.

use crate::reach::Power;
use crate::scripts::follow::Run;
use pilgonca::{CellInfo, PlaceInfo, PlaceKind, Refusal, Subject, Type};

/// What the holder of a cell can do with each method.
type Powers = Vec<Option<Power>>;

/// Cells that differ in their numbers alone.
pub struct Row {
    pub holder: Subject,
    pub type_: Type,
    pub powers: Powers,
    /// Each with its place.
    pub cells: Vec<(i64, i64)>,
}

/// Places that differ in numbers alone.
pub struct Tree {
    pub kind: PlaceKind,
    /// Each with the place behind it; an object has none.
    pub places: Vec<(i64, Option<i64>)>,
    /// By holder and type.
    pub rows: Vec<Row>,
    /// The adapters in front.
    pub fronts: Vec<Tree>,
    /// The same for those that are alike. Closed types are told apart by number, as D14 does: equal contents under another key are another type.
    key: String,
}

/// The trees of the objects of a run.
pub fn forest(run: &Run) -> Result<Vec<Tree>, Refusal> {
    let cells: Vec<(CellInfo, Powers)> = run.visit.cells().zip(run.powers()?).collect();
    let places: Vec<PlaceInfo> = run.visit.places().collect();
    Ok(trees(&places, &cells))
}

/// The same for these places and cells.
pub fn trees(places: &[PlaceInfo], cells: &[(CellInfo, Powers)]) -> Vec<Tree> {
    let mut fronts: Vec<Vec<Tree>> = places.iter().map(|_| Vec::new()).collect();
    let mut objects = Vec::new();
    // what is behind a place has a lower number (Q2), so its fronts are whole when its turn comes
    for (number, place) in places.iter().enumerate().rev() {
        let there = cells.iter().filter(|(cell, _)| cell.place == place.number);
        let tree = Tree::of(
            place,
            rows(there),
            merged(std::mem::take(&mut fronts[number])),
        );
        match place.kind {
            PlaceKind::Object { .. } => objects.push(tree),
            PlaceKind::Adapter { behind, .. } => fronts[behind.0 as usize].push(tree),
        }
    }
    merged(objects)
}

/// The cells of a place.
fn rows<'a>(cells: impl Iterator<Item = &'a (CellInfo, Powers)>) -> Vec<Row> {
    let mut rows: Vec<Row> = Vec::new();
    for (cell, powers) in cells {
        let number = (cell.number.0, cell.place.0);
        let same = |row: &&mut Row| {
            (row.holder, row.type_) == (cell.holder, cell.type_) && row.powers == *powers
        };
        match rows.iter_mut().find(same) {
            Some(row) => row.cells.push(number),
            None => rows.push(Row {
                holder: cell.holder,
                type_: cell.type_,
                powers: powers.clone(),
                cells: vec![number],
            }),
        }
    }
    rows.sort_by_key(|row| (row.holder.0, row.type_.0));
    rows
}

/// Trees in descending order, in ascending order and with those that are alike as one.
fn merged(trees: Vec<Tree>) -> Vec<Tree> {
    let mut merged: Vec<Tree> = Vec::new();
    for tree in trees.into_iter().rev() {
        match merged.iter_mut().find(|one| one.key == tree.key) {
            Some(one) => one.absorb(tree),
            None => merged.push(tree),
        }
    }
    merged
}

impl Tree {
    fn of(place: &PlaceInfo, rows: Vec<Row>, fronts: Vec<Tree>) -> Tree {
        let (kind, behind) = match place.kind {
            PlaceKind::Object { class, owner } => (format!("{class} {owner}"), None),
            PlaceKind::Adapter { behind, closed } => (format!("{closed}"), Some(behind.0)),
        };
        let held = rows.iter();
        let held = held.map(|row| (row.holder, row.type_, &row.powers, row.cells.len()));
        let held: Vec<_> = held.collect();
        let in_front = fronts.iter();
        let in_front = in_front.map(|front| format!("{} {}", front.places.len(), front.key));
        let mut in_front: Vec<String> = in_front.collect();
        in_front.sort();
        Tree {
            key: format!("({kind} {held:?} {})", in_front.concat()),
            kind: place.kind,
            places: vec![(place.number.0, behind)],
            rows,
            fronts,
        }
    }

    /// Takes in one that is alike.
    fn absorb(&mut self, other: Tree) {
        self.places.extend(other.places);
        for (row, same) in self.rows.iter_mut().zip(other.rows) {
            row.cells.extend(same.cells);
        }
        for front in other.fronts {
            if let Some(one) = self.fronts.iter_mut().find(|one| one.key == front.key) {
                one.absorb(front);
            }
        }
    }

    /// How many boxes it takes.
    pub fn size(&self) -> usize {
        1 + self.fronts.iter().map(Tree::size).sum::<usize>()
    }
}
