//! Where the references of a run stand in its picture. Holders are on the left, objects on the right, adapters between. A row is a kind of reference, and what
//! it leads to stands beside its rows, so that no lines cross. Of the adapters in front of another, the one with most in front of it stands below that, the
//! others one column further left. Each of these has less than half of the boxes, so columns are few however deep the nesting: 8 at most for the 128 places of
//! a state.

use crate::scripts::run_tree::Tree;
use crate::scripts::run_words::{PlaceWords, RowWords, Writer};
use crate::svg::BELOW_TITLE;

/// Between two rows.
const ROWS: usize = 6;
/// More, between two objects or two adapters in front of one place, and for an arrow that goes up.
const APART: usize = 12;

/// Cells in their row.
pub struct Leaf {
    pub words: RowWords,
    /// The index of what they lead to.
    pub node: usize,
    /// The middle of the row, and its height.
    pub y: usize,
    pub height: usize,
}

/// Objects or adapters.
pub struct Node {
    pub words: PlaceWords,
    /// The index of what is behind adapters.
    pub behind: Option<usize>,
    /// From the right: the objects' is 0.
    pub column: usize,
    pub y: usize,
    pub height: usize,
}

/// Everything, with its place.
pub struct Plan {
    pub leaves: Vec<Leaf>,
    pub nodes: Vec<Node>,
    /// Where the rows end.
    pub bottom: usize,
}

impl Plan {
    pub fn of(forest: &[Tree], writer: &Writer) -> Plan {
        let mut plan = Plan {
            leaves: Vec::new(),
            nodes: Vec::new(),
            bottom: BELOW_TITLE,
        };
        for tree in forest {
            let at = At {
                behind: None,
                column: 0,
                places: 0,
            };
            plan.stack(tree, writer, at, 0);
            plan.bottom += APART;
        }
        plan
    }

    /// Puts a tree below what is there, in front of a node, with a first row of at least this height. Its index.
    fn stack(&mut self, tree: &Tree, writer: &Writer, at: At, least: usize) -> usize {
        let words = writer.place(tree, at.places);
        let height = words.height();
        let (index, column) = (self.nodes.len(), at.column);
        self.nodes.push(Node {
            words,
            behind: at.behind,
            column,
            y: 0,
            height,
        });
        let in_front = |column: usize| At {
            behind: Some(index),
            column,
            places: tree.places.len(),
        };
        let (beside, below) = fronts(tree, column);
        let mut least = least.max(height);
        if !tree.rows.is_empty() || beside.is_empty() {
            self.nodes[index].y = self.rows(tree, writer, index, least);
            least = 0;
        }
        for (number, front) in beside.into_iter().enumerate() {
            self.bottom += if number > 0 { APART } else { 0 };
            let front = self.stack(front, writer, in_front(column + 1), least);
            if least > 0 {
                // without a row of its own it stands in the first row of what is in front of it
                self.nodes[index].y = self.nodes[front].y;
                least = 0;
            }
        }
        if let Some(front) = below {
            let end = self.nodes[index].y + height / 2;
            self.bottom = self.bottom.max(end + APART);
            self.stack(front, writer, in_front(column), 0);
        }
        index
    }

    /// The rows of a node, which take at least so much together. Their middle.
    fn rows(&mut self, tree: &Tree, writer: &Writer, node: usize, least: usize) -> usize {
        let rows = tree.rows.iter();
        let rows: Vec<RowWords> = rows.map(|row| writer.row(row, tree.places.len())).collect();
        let gaps = ROWS * rows.len().saturating_sub(1);
        let all = rows.iter().map(RowWords::height).sum::<usize>() + gaps;
        let (top, room) = (self.bottom, all.max(least));
        let mut y = top + (room - all) / 2;
        for words in rows {
            let height = words.height();
            self.leaves.push(Leaf {
                words,
                node,
                y: y + height / 2,
                height,
            });
            y += height + ROWS;
        }
        self.bottom = top + room + ROWS;
        top + room / 2
    }
}

/// Where a tree goes.
struct At {
    behind: Option<usize>,
    column: usize,
    /// How many places are behind it.
    places: usize,
}

/// What stands beside a tree of this column, and what stands below. In front of an object nothing does.
fn fronts(tree: &Tree, column: usize) -> (Vec<&Tree>, Option<&Tree>) {
    let mut fronts: Vec<&Tree> = tree.fronts.iter().collect();
    if column == 0 {
        return (fronts, None);
    }
    let largest = (0..fronts.len()).max_by_key(|index| fronts[*index].size());
    let below = largest.map(|index| fronts.remove(index));
    (fronts, below)
}

#[cfg(test)]
mod tests {
    use super::*;
    use crate::names::Names;
    use crate::scripts::run_tree::trees;
    use pilgonca::{Cell, CellInfo, Place, PlaceInfo, PlaceKind, Sheet, Subject, Type, EXAMPLE};

    /// How many columns 128 places take: an object, and 127 adapters, each in front of the place that is given by its number. No two are alike, since their
    /// cells are of different types.
    fn columns(behind: fn(i64) -> i64) -> usize {
        let place = |number: i64| PlaceInfo {
            number: Place(number),
            kind: match number {
                0 => PlaceKind::Object {
                    class: Type(1),
                    owner: Subject(0),
                },
                _ => PlaceKind::Adapter {
                    behind: Place(behind(number)),
                    closed: Type(1),
                },
            },
        };
        let cell = |number: i64| CellInfo {
            number: Cell(number),
            holder: Subject(0),
            type_: Type(number),
            place: Place(number),
        };
        let places: Vec<PlaceInfo> = (0..128).map(place).collect();
        let cells: Vec<_> = (0..128).map(|number| (cell(number), Vec::new())).collect();
        let sheet = &Sheet::read(EXAMPLE).expect("a sheet");
        let names = &Names::default();
        let plan = Plan::of(&trees(&places, &cells), &Writer { sheet, names });
        assert_eq!((plan.nodes.len(), plan.leaves.len()), (128, 128));
        1 + plan.nodes.iter().map(|node| node.column).max().unwrap_or(0)
    }

    #[test]
    fn columns_are_few() {
        assert_eq!(columns(|number| number - 1), 2, "one in front of the other");
        assert_eq!(columns(|_| 0), 2, "all in front of the object");
        assert_eq!(columns(|number| number / 2), 8, "two in front of each");
    }
}
