//! The most edges of a two-sided graph of which no two share an end, by Hopcroft and Karp: augmenting paths, many at
//! a time, until there is none. It knows nothing of what the two sides are.

use std::collections::VecDeque;

/// A graph: for each on the left those on the right that it may be matched with.
pub struct Graph {
    pub edges: Vec<Vec<usize>>,
    pub right: usize,
}

/// The size of a largest matching of a graph.
pub fn largest(graph: &Graph) -> usize {
    let mut matching = Matching {
        of_left: vec![None; graph.edges.len()],
        of_right: vec![None; graph.right],
    };
    while let Some(rounds) = rounds(graph, &matching) {
        augment(graph, &mut matching, rounds);
    }
    matching.of_left.iter().flatten().count()
}

/// Who is matched with whom, from both sides.
struct Matching {
    of_left: Vec<Option<usize>>,
    of_right: Vec<Option<usize>>,
}

impl Matching {
    fn free(&self) -> impl Iterator<Item = usize> + '_ {
        (0..self.of_left.len()).filter(|left| self.of_left[*left].is_none())
    }
}

/// For each on the left in how many steps, each an edge and back by a matched one, it is reached from one that is
/// free; `None` for all of them where no such way leads to one on the right that is free: then the matching is largest.
fn rounds(graph: &Graph, matching: &Matching) -> Option<Vec<Option<usize>>> {
    let mut rounds = vec![None; graph.edges.len()];
    let mut queue: VecDeque<usize> = matching.free().collect();
    for left in &queue {
        rounds[*left] = Some(0);
    }
    let mut ends = false;
    while let Some(left) = queue.pop_front() {
        for right in &graph.edges[left] {
            match matching.of_right[*right] {
                None => ends = true,
                Some(next) if rounds[next].is_none() => {
                    rounds[next] = rounds[left].map(|round| round + 1);
                    queue.push_back(next);
                }
                Some(_) => (),
            }
        }
    }
    ends.then_some(rounds)
}

/// Changes the matching along ways through the rounds that have nobody in common, as many as are found.
fn augment(graph: &Graph, matching: &mut Matching, mut rounds: Vec<Option<usize>>) {
    // the next edge to be tried, of each on the left
    let mut next = vec![0; graph.edges.len()];
    let free: Vec<usize> = matching.free().collect();
    for start in free {
        let mut way = vec![start];
        while let Some(left) = way.last().copied() {
            let Some(right) = graph.edges[left].get(next[left]).copied() else {
                // a dead end: nobody comes here again
                rounds[left] = None;
                way.pop();
                continue;
            };
            next[left] += 1;
            match matching.of_right[right] {
                None => {
                    take(graph, matching, &way, &next);
                    way.drain(..).for_each(|left| rounds[left] = None);
                }
                Some(other) if is_next(&rounds, left, other) => way.push(other),
                Some(_) => (),
            }
        }
    }
}

/// Whether the second of two on the left is of the round behind the first one's.
fn is_next(rounds: &[Option<usize>], first: usize, second: usize) -> bool {
    let two = rounds[first].zip(rounds[second]);
    two.is_some_and(|(first, second)| second == first + 1)
}

/// Matches each on a way with the one its last tried edge leads to.
fn take(graph: &Graph, matching: &mut Matching, way: &[usize], next: &[usize]) {
    for left in way {
        let right = graph.edges[*left][next[*left] - 1];
        matching.of_left[*left] = Some(right);
        matching.of_right[right] = Some(*left);
    }
}
