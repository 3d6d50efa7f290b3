//! Chains (L15 to L18): what types permit, what a cell offers, and whether two
//! lists of types permit the same chains.

use crate::state::State;
use crate::table::{Table, TypeNo};
use std::collections::{BTreeSet, VecDeque};

/// Whether a type permits a chain (L15 to L17).
pub fn permits(table: &Table, one: TypeNo, chain: &[usize]) -> bool {
    let one = &table.types[one];
    match chain {
        [] => one.is_ref(),
        [method] => one.permits(*method).is_some(),
        [method, rest @ ..] => one
            .permits(*method)
            .and_then(|signature| signature.answer)
            .is_some_and(|answer| permits(table, answer, rest)),
    }
}

/// The types that both have to permit a chain for a cell to offer it (L18).
pub fn offered(state: &State, cell: usize) -> Vec<TypeNo> {
    let cell = state.cells[cell];
    vec![cell.type_, state.place_type(cell.place)]
}

/// Types of one table that must all permit a chain.
#[derive(Clone, Copy)]
pub struct All<'a> {
    pub table: &'a Table,
    pub types: &'a [TypeNo],
}

impl All<'_> {
    pub fn permit(&self, chain: &[usize]) -> bool {
        self.types
            .iter()
            .all(|one| permits(self.table, *one, chain))
    }
}

/// The types reached by a chain, each once; `None` where no longer chain goes on.
type Reached = Option<BTreeSet<TypeNo>>;

fn start(all: All) -> Reached {
    Some(all.types.iter().copied().collect())
}

/// Whether every type reached permits the method.
fn step_permitted(table: &Table, reached: &Reached, method: usize) -> bool {
    let permits = |one: &TypeNo| table.types[*one].permits(method).is_some();
    reached
        .as_ref()
        .is_some_and(|types| types.iter().all(permits))
}

/// The answer types of all the types reached, each having one.
fn step(table: &Table, reached: &Reached, method: usize) -> Reached {
    let answer = |one: &TypeNo| table.types[*one].permits(method)?.answer;
    reached.as_ref()?.iter().map(answer).collect()
}

/// A shortest chain that one side permits and the other does not. What the two
/// sides have reached is searched pair by pair, each pair once, so that chains
/// of every length are covered.
pub fn first_difference(left: All, right: All) -> Option<Vec<usize>> {
    if left.permit(&[]) != right.permit(&[]) {
        return Some(Vec::new());
    }
    let methods = left.table.methods.min(right.table.methods);
    let first = (start(left), start(right));
    let mut known = BTreeSet::from([first.clone()]);
    let mut queue = VecDeque::from([(first, Vec::new())]);
    while let Some(((of_left, of_right), chain)) = queue.pop_front() {
        for method in 0..methods {
            let longer: Vec<usize> = chain.iter().copied().chain([method]).collect();
            let on_left = step_permitted(left.table, &of_left, method);
            let on_right = step_permitted(right.table, &of_right, method);
            if on_left != on_right {
                return Some(longer);
            }
            if !on_left {
                continue;
            }
            let next = (
                step(left.table, &of_left, method),
                step(right.table, &of_right, method),
            );
            if known.insert(next.clone()) {
                queue.push_back((next, longer));
            }
        }
    }
    None
}

#[cfg(test)]
mod tests {
    use super::*;
    use crate::sheet;

    /// 0 w32; 1 answers with itself, a number, or nothing; 2 lacks method 1.
    fn table() -> Table {
        let text = "guide=1\nsubjects=1\nmethods=3\ncats=0\ntypes=4\ntype=0\nrep=w32\ncat=0\n\
            type=1\nrep=ref\ncat=0\nown=no\nm=avail()1\nm=optional()0\nm=avail()-\n\
            type=2\nrep=ref\ncat=0\nown=no\nm=avail()2\nm=denied\nm=avail()-\n\
            type=3\nrep=ref\ncat=0\nown=no\nm=avail()3\nm=avail()-\nm=optional()0\n\
            end=sheet\n";
        sheet::read(text.as_bytes()).unwrap()
    }

    #[test]
    fn chains_of_one_type() {
        let table = table();
        assert!(!permits(&table, 0, &[]));
        assert!(!permits(&table, 0, &[0]));
        assert!(permits(&table, 1, &[]));
        assert!(permits(&table, 1, &[0, 0, 0, 1]));
        assert!(permits(&table, 1, &[0, 2]));
        assert!(!permits(&table, 1, &[1, 0]));
        assert!(!permits(&table, 1, &[2, 0]));
        assert!(!permits(&table, 2, &[0, 1]));
    }

    #[test]
    fn differences_are_found_at_any_length() {
        let table = table();
        let all = |types: &'static [TypeNo]| All {
            table: &table,
            types,
        };
        assert_eq!(first_difference(all(&[1]), all(&[1, 1])), None);
        assert_eq!(first_difference(all(&[1]), all(&[2])), Some(vec![1]));
        assert_eq!(first_difference(all(&[1, 2]), all(&[2])), None);
        assert_eq!(first_difference(all(&[0]), all(&[2])), Some(vec![]));
        // A missing and a number answer both end the chain.
        assert_eq!(first_difference(all(&[1]), all(&[3])), None);
    }

    #[test]
    fn agrees_with_short_chains() {
        let table = table();
        for left in 1..4 {
            for right in 1..4 {
                let (left, right) = ([left], [right]);
                let (left, right) = (
                    All {
                        table: &table,
                        types: &left,
                    },
                    All {
                        table: &table,
                        types: &right,
                    },
                );
                let short = (0..27)
                    .flat_map(|code| {
                        let chain = [code % 3, code / 3 % 3, code / 9];
                        (0..=3).map(move |length| chain[..length].to_vec())
                    })
                    .all(|chain| left.permit(&chain) == right.permit(&chain));
                assert_eq!(first_difference(left, right).is_none(), short);
            }
        }
    }
}
