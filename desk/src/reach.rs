//! What the holder of a reference can come to call by itself: it hands the reference on to itself, as one type after another, until it holds it as a type that
//! lets it call. Every step is a request that the core serves, on a copy of the state. What a type on the way hides is gone (L21), so a way that hides the
//! method is not followed; and a step that the types rule out (X1, by the core's own pairs) is not tried.

mod graph;

pub use graph::{of_sheet, within, TypePowers};

use crate::described::signature;
use crate::names::{Kind as NameKind, Names};
use pilgonca::{
    Cell, CellInfo, Kind, Method, MethodInfo, Pairs, PlaceKind, Refusal, Representation, Sheet,
    Subject, Type, TypeInfo, Visit,
};
use std::collections::{HashMap, HashSet, VecDeque};

/// So many steps are tried for one reference, and of a sheet for one class. Sheets that people write need some dozens.
pub const MOST_STEPS: usize = 10_000;

/// What a holder can do with a method.
#[derive(Clone, PartialEq, Eq, Debug)]
pub enum Power {
    /// The type of the reference lets it be called (C3).
    Now,
    /// After handing it to itself as these types, in turn.
    Alone(Vec<Type>),
    /// The same while there was room, which this refusal says there is no more.
    Once(Vec<Type>, Refusal),
    /// No way was found, and the core refused some for lack of room: types, places or cells.
    NoRoom(Refusal),
    /// No way was found in so many steps, and there are more to try.
    Unsettled(usize),
    /// There is no way.
    Never,
}

impl Power {
    /// Whether it is sure that the holder could call the method, or come to.
    pub fn is_yes(&self) -> bool {
        matches!(self, Power::Now | Power::Alone(_) | Power::Once(..))
    }

    /// With the types that its holder hands the reference to itself as.
    pub fn words(&self, names: &Names) -> String {
        let path = |types: &[Type]| {
            let types = types.iter();
            let types = types.map(|one| names.numbered(NameKind::Type, one.0));
            types.collect::<Vec<String>>().join(" and then as ")
        };
        match self {
            Power::Now => "can call".to_string(),
            Power::Alone(types) => format!("can come to call alone: to itself as {}", path(types)),
            Power::Once(types, refusal) => {
                let path = path(types);
                format!("could come to call alone, to itself as {path}, while there was room; now {refusal}")
            }
            Power::NoRoom(refusal) => {
                format!("no room: no way to call it was found, and {refusal} for further ones")
            }
            Power::Unsettled(steps) => {
                format!(
                    "not settled: no way to call it was found in {steps} steps, and there are more"
                )
            }
            Power::Never => {
                "offers: no type that the reference can be handed on as lets it be called"
                    .to_string()
            }
        }
    }
}

/// What the types of a sheet allow, asked of the core once.
pub struct Reach {
    types: Vec<TypeInfo>,
    pairs: Pairs,
    methods: usize,
    most_steps: usize,
    /// By method, then by type: whether a type that lets the method be called may be reached from it, for one who does not own the object, and for its owner.
    hopes: [Vec<Vec<bool>>; 2],
}

impl Reach {
    pub fn of(sheet: &Sheet) -> Reach {
        Reach::within(sheet, MOST_STEPS)
    }

    /// With another limit of steps.
    pub fn within(sheet: &Sheet, most_steps: usize) -> Reach {
        let types = sheet.types().take(sheet.sheet_types()).collect();
        let (pairs, methods) = (sheet.pairs(), sheet.methods());
        let mut reach = Reach {
            types,
            pairs,
            methods,
            most_steps,
            hopes: [Vec::new(), Vec::new()],
        };
        reach.hopes = [false, true].map(|owner| {
            (0..methods)
                .map(|method| reach.hope(method, owner))
                .collect()
        });
        reach
    }

    /// What the holder of a cell can do with each method; none where the cell does not offer it and its holder cannot get it by taking the object back.
    pub fn powers(&self, visit: &Visit, cell: &CellInfo) -> Result<Vec<Option<Power>>, Refusal> {
        let mut search = Search::of(self, visit, cell)?;
        search.go();
        Ok((0..self.methods)
            .map(|method| search.power(method))
            .collect())
    }

    /// The same for every cell, by number. What a holder can do depends on the type, the place, and whether it owns the object.
    pub fn of_visit(visit: &Visit) -> Result<Vec<Vec<Option<Power>>>, Refusal> {
        let reach = Reach::of(&visit.sheet());
        let mut known = HashMap::new();
        let mut all = Vec::new();
        for cell in visit.cells() {
            let key = (
                cell.type_,
                cell.place,
                owner(visit, &cell) == Some(cell.holder),
            );
            let powers = match known.get(&key) {
                Some(powers) => Clone::clone(powers),
                None => reach.powers(visit, &cell)?,
            };
            known.insert(key, powers.clone());
            all.push(powers);
        }
        Ok(all)
    }

    /// The types that a reference of this type may become by the types alone (X1), for the owner or for another.
    fn next(&self, from: Type, owner: bool) -> impl Iterator<Item = &TypeInfo> {
        self.types.iter().filter(move |to| {
            let answers = self.pairs.at(to.number, from);
            let is_ref = to.representation == Representation::Ref;
            is_ref
                && if to.own {
                    owner && answers.free
                } else {
                    answers.loose
                }
        })
    }

    fn hope(&self, method: usize, owner: bool) -> Vec<bool> {
        let count = self.types.len();
        let mut hope = vec![false; count];
        let mut before = usize::MAX;
        let settled = |hope: &[bool]| hope.iter().filter(|one| **one).count();
        while before != settled(&hope) {
            before = settled(&hope);
            for from in 0..count {
                let mut next = self.next(Type(from as i64), owner);
                hope[from] = hope[from]
                    || next.any(|to| {
                        let (permits, calls) = (permits(to, method), calls(to, method));
                        calls || (owner || permits) && hope[to.number.0 as usize]
                    });
            }
        }
        hope
    }

    fn hopes(&self, owner: bool, method: usize, from: Type) -> bool {
        self.hopes[usize::from(owner)][method][from.0 as usize]
    }
}

/// Whether a type permits a method.
fn permits(info: &TypeInfo, method: usize) -> bool {
    info.methods.get(method).and_then(signature).is_some()
}

/// Whether a type lets a method be called.
fn calls(info: &TypeInfo, method: usize) -> bool {
    matches!(info.methods.get(method), Some(MethodInfo::Avail(_)))
}

/// Where a holder has come to.
struct Node {
    visit: Visit,
    cell: Cell,
    type_: Type,
    offered: Vec<bool>,
    path: Vec<Type>,
}

/// A search from one cell, the shortest ways first.
struct Search<'a> {
    reach: &'a Reach,
    keys: Keys,
    holder: Subject,
    owner: bool,
    start: Type,
    offered: Vec<bool>,
    found: Vec<Option<Vec<Type>>>,
    left: VecDeque<Node>,
    seen: HashSet<(Type, usize)>,
    no_room: Option<Refusal>,
    steps: usize,
    /// Whether it ended at the limit.
    cut: bool,
}

impl<'a> Search<'a> {
    fn of(reach: &'a Reach, visit: &Visit, cell: &CellInfo) -> Result<Search<'a>, Refusal> {
        let offered = offered(visit, cell.number, reach.methods)?;
        let info = &reach.types[cell.type_.0 as usize];
        let at_once = |method: usize| offered[method] && calls(info, method);
        let found = (0..reach.methods).map(|method| at_once(method).then(Vec::new));
        let start = Node {
            visit: visit.clone(),
            cell: cell.number,
            type_: cell.type_,
            offered: offered.clone(),
            path: Vec::new(),
        };
        Ok(Search {
            reach,
            keys: Keys::of(visit),
            holder: cell.holder,
            // where no type has own nothing leads past adapters (X3), and the owner can do no more than others
            owner: owner(visit, cell) == Some(cell.holder) && reach.types.iter().any(|one| one.own),
            start: cell.type_,
            found: found.collect(),
            offered,
            left: VecDeque::from([start]),
            seen: HashSet::new(),
            no_room: None,
            steps: 0,
            cut: false,
        })
    }

    fn go(&mut self) {
        while let Some(node) = self.left.pop_front() {
            if !self.is_worth(node.type_, &node.offered) {
                continue;
            }
            for to in self.reach.next(node.type_, self.owner) {
                if self.steps == self.reach.most_steps {
                    self.cut = true;
                    return;
                }
                self.steps += 1;
                self.step(&node, to);
            }
        }
    }

    /// Whether a method that is still looked for may be found from here. What is not offered can come back for the owner alone.
    fn is_worth(&self, from: Type, offered: &[bool]) -> bool {
        let mut methods = (0..self.reach.methods).filter(|method| self.found[*method].is_none());
        methods.any(|method| {
            let hopes = self.reach.hopes(self.owner, method, from);
            hopes && (self.owner || offered[method])
        })
    }

    fn step(&mut self, node: &Node, to: &TypeInfo) {
        let mut visit = node.visit.clone();
        let moved = visit.move_reference(self.holder, node.cell, self.holder, to.number);
        let held = match moved {
            Ok(held) => held,
            Err(refusal) => {
                self.no_room = self.no_room.or(lack_of_room(refusal));
                return;
            }
        };
        if !self
            .seen
            .insert((to.number, self.keys.place(&visit, held.place)))
        {
            return;
        }
        let path = [&node.path[..], &[to.number]].concat();
        // one that was handed in may be unsound behind a request, and then serves no other (Q19)
        let Ok(offered) = offered(&visit, held.cell, self.reach.methods) else {
            return;
        };
        for (method, offered) in offered.iter().enumerate() {
            if *offered && calls(to, method) && self.found[method].is_none() {
                self.found[method] = Some(path.clone());
            }
        }
        let (cell, type_) = (held.cell, to.number);
        self.left.push_back(Node {
            visit,
            cell,
            type_,
            offered,
            path,
        });
    }

    fn power(&self, method: usize) -> Option<Power> {
        if let Some(path) = &self.found[method] {
            return Some(match path.is_empty() {
                true => Power::Now,
                false => Power::Alone(path.clone()),
            });
        }
        if !self.reach.hopes(self.owner, method, self.start) {
            return self.offered[method].then_some(Power::Never);
        }
        match (self.cut, self.no_room) {
            _ if !self.owner && !self.offered[method] => None,
            (true, _) => Some(Power::Unsettled(self.steps)),
            (false, Some(refusal)) => Some(Power::NoRoom(refusal)),
            (false, None) => self.offered[method].then_some(Power::Never),
        }
    }
}

/// The methods that a cell offers (L18).
fn offered(visit: &Visit, cell: Cell, methods: usize) -> Result<Vec<bool>, Refusal> {
    let one = |method: usize| visit.offers(cell, &[Method(method as i64)]);
    (0..methods).map(one).collect()
}

/// The owner of what a cell leads to.
fn owner(visit: &Visit, cell: &CellInfo) -> Option<Subject> {
    let base = visit.place_info(visit.base_of(cell.place)?)?;
    match base.kind {
        PlaceKind::Object { owner, .. } => Some(owner),
        PlaceKind::Adapter { .. } => None,
    }
}

fn lack_of_room(refusal: Refusal) -> Option<Refusal> {
    let full = [Refusal::TypesFull, Refusal::PlacesFull, Refusal::CellsFull];
    full.contains(&refusal).then_some(refusal)
}

/// Derived types of several copies of a state under numbers of ours: the same for the same derivation (D14).
struct Keys {
    /// So many types are the same in every copy.
    common: usize,
    known: HashMap<(Kind, usize, usize), usize>,
}

impl Keys {
    fn of(visit: &Visit) -> Keys {
        Keys {
            common: visit.types().count(),
            known: HashMap::new(),
        }
    }

    /// Our number for the type of a place.
    fn place(&mut self, visit: &Visit, place: pilgonca::Place) -> usize {
        match visit.place_info(place).map(|info| info.kind) {
            Some(PlaceKind::Object { class, .. }) => self.number(visit, class),
            Some(PlaceKind::Adapter { closed, .. }) => self.number(visit, closed),
            None => usize::MAX,
        }
    }

    fn number(&mut self, visit: &Visit, type_: Type) -> usize {
        let number = type_.0 as usize;
        let key = visit.type_info(type_).and_then(|info| info.key);
        match key {
            Some(key) if number >= self.common => {
                let [left, right] = [key.left, key.right].map(|one| self.number(visit, one));
                let next = self.common + self.known.len();
                *self.known.entry((key.kind, left, right)).or_insert(next)
            }
            _ => number,
        }
    }
}
