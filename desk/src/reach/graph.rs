//! What a sheet lets the holders of references do, by the types that they hold them as: everything that can become of an object of each class, step by step,
//! by the core.

use super::{calls, lack_of_room, offered, permits, Keys, Power, Reach, MOST_STEPS};
use pilgonca::{Cell, Refusal, Representation, Subject, Type, TypeInfo, Visit};
use std::collections::{HashMap, VecDeque};

/// What the holder of a reference of one type can do. It does not own the object, unless only owners hold the type.
#[derive(Clone, PartialEq, Eq, Debug)]
pub struct TypePowers {
    pub type_: Type,
    /// The classes of what such a reference can lead to.
    pub classes: Vec<Type>,
    /// Whether there may be more: the steps or the room came to an end.
    pub open: bool,
    /// By method, for some reference of this type at least.
    pub methods: Vec<Power>,
}

/// The one who makes objects, and the one whom references are lent to.
const OWNER: Subject = Subject(0);
const OTHER: Subject = Subject(1);

/// What the ref types of a sheet give, in their order; the visit is one that begins with it.
pub fn of_sheet(visit: &Visit) -> Result<Vec<TypePowers>, Refusal> {
    within(visit, MOST_STEPS)
}

/// With another limit of steps.
pub fn within(visit: &Visit, most_steps: usize) -> Result<Vec<TypePowers>, Refusal> {
    let sheet = visit.sheet();
    let reach = Reach::within(&sheet, most_steps);
    let classes = reach.types.iter().filter(|info| info.is_class());
    let graphs: Vec<Graph> = classes
        .map(|class| Graph::of(&reach, visit, class.number))
        .collect::<Result<_, _>>()?;
    let refs = reach.types.iter();
    let refs = refs.filter(|info| info.representation == Representation::Ref);
    let alone = sheet.subjects() == 1;
    Ok(refs
        .map(|info| of_type(&reach, &graphs, info, info.own || alone))
        .collect())
}

fn of_type(reach: &Reach, graphs: &[Graph], info: &TypeInfo, owner: bool) -> TypePowers {
    let (having, lacking): (Vec<&Graph>, Vec<&Graph>) =
        graphs.iter().partition(|graph| graph.has(info.number));
    TypePowers {
        type_: info.number,
        classes: having.iter().map(|graph| graph.class).collect(),
        open: lacking.iter().any(|graph| graph.is_open()),
        methods: (0..reach.methods)
            .map(|method| {
                let powers = graphs.iter();
                let powers = powers.map(|graph| graph.power(reach, info, method, owner));
                powers.min_by_key(rank).unwrap_or(Power::Never)
            })
            .collect(),
    }
}

/// What says more comes first, and of two ways the shorter.
fn rank(power: &Power) -> (usize, usize) {
    match power {
        Power::Now => (0, 0),
        Power::Alone(path) => (1, path.len()),
        Power::Once(path, _) => (2, path.len()),
        Power::Unsettled(_) => (3, 0),
        Power::NoRoom(_) => (4, 0),
        Power::Never => (5, 0),
    }
}

/// A reference as somebody may come to hold it: its type, and the type of what it leads to.
struct Node {
    type_: Type,
    offered: Vec<bool>,
    /// What it can become in one step.
    next: Vec<usize>,
}

/// All that can become of an object of one class.
struct Graph {
    class: Type,
    nodes: Vec<Node>,
    /// Where they stand: by type, and by our number for what they lead to.
    known: HashMap<(Type, usize), usize>,
    keys: Keys,
    left: VecDeque<(usize, Visit, Cell)>,
    no_room: Option<Refusal>,
    steps: usize,
    /// Whether it ended at the limit.
    cut: bool,
}

impl Graph {
    fn of(reach: &Reach, visit: &Visit, class: Type) -> Result<Graph, Refusal> {
        let mut graph = Graph {
            class,
            nodes: Vec::new(),
            known: HashMap::new(),
            keys: Keys::of(visit),
            left: VecDeque::new(),
            no_room: None,
            steps: 0,
            cut: false,
        };
        for to in reach.next(class, true) {
            let mut made = visit.clone();
            if let Ok(held) = made.new_object(OWNER, class, to.number) {
                graph.node(reach, made, held.cell)?;
            }
        }
        while let Some((from, visit, cell)) = graph.left.pop_front() {
            graph.steps_from(reach, from, &visit, cell)?;
        }
        Ok(graph)
    }

    /// The place of a reference among those that are known.
    fn node(&mut self, reach: &Reach, visit: Visit, cell: Cell) -> Result<usize, Refusal> {
        let info = visit.cell_info(cell).ok_or(Refusal::NotHeld)?;
        let key = (info.type_, self.keys.place(&visit, info.place));
        if let Some(known) = self.known.get(&key) {
            return Ok(*known);
        }
        let number = self.nodes.len();
        self.known.insert(key, number);
        self.nodes.push(Node {
            type_: info.type_,
            offered: offered(&visit, cell, reach.methods)?,
            next: Vec::new(),
        });
        self.left.push_back((number, visit, cell));
        Ok(number)
    }

    /// Hands a reference on as every type: as one with own to the owner, else to the other, if there is one.
    fn steps_from(
        &mut self,
        reach: &Reach,
        from: usize,
        visit: &Visit,
        cell: Cell,
    ) -> Result<(), Refusal> {
        let info = visit.cell_info(cell).ok_or(Refusal::NotHeld)?;
        let lone = visit.sheet().subjects() == 1;
        for to in reach.next(info.type_, true) {
            if self.steps == reach.most_steps {
                self.cut = true;
                return Ok(());
            }
            self.steps += 1;
            let receiver = if to.own || lone { OWNER } else { OTHER };
            let mut visit = visit.clone();
            match visit.move_reference(info.holder, cell, receiver, to.number) {
                Ok(held) => {
                    let next = self.node(reach, visit, held.cell)?;
                    self.nodes[from].next.push(next);
                }
                Err(refusal) => self.no_room = self.no_room.or(lack_of_room(refusal)),
            }
        }
        Ok(())
    }

    fn is_open(&self) -> bool {
        self.cut || self.no_room.is_some()
    }

    fn has(&self, type_: Type) -> bool {
        self.nodes.iter().any(|node| node.type_ == type_)
    }

    /// What the holder of some reference of a type can do with a method, at most; never, where there is none.
    fn power(&self, reach: &Reach, info: &TypeInfo, method: usize, owner: bool) -> Power {
        let starts = (0..self.nodes.len()).filter(|node| self.nodes[*node].type_ == info.number);
        if let Some(path) = self.shortest(reach, starts.collect(), method, owner) {
            return match path.is_empty() {
                true => Power::Now,
                false => Power::Alone(path),
            };
        }
        let hopes = reach.hopes(owner, method, info.number);
        match (self.cut, self.no_room) {
            _ if !hopes || !owner && !permits(info, method) => Power::Never,
            (true, _) => Power::Unsettled(self.steps),
            (false, Some(refusal)) => Power::NoRoom(refusal),
            (false, None) => Power::Never,
        }
    }

    /// The types of the shortest way from one of these to a reference that lets the method be called.
    fn shortest(
        &self,
        reach: &Reach,
        starts: Vec<usize>,
        method: usize,
        owner: bool,
    ) -> Option<Vec<Type>> {
        let info = |node: usize| &reach.types[self.nodes[node].type_.0 as usize];
        let offers = |node: usize| self.nodes[node].offered[method];
        let mut seen = vec![false; self.nodes.len()];
        let mut left: VecDeque<(usize, Vec<Type>)> = VecDeque::new();
        for start in starts.into_iter().filter(|start| owner || offers(*start)) {
            seen[start] = true;
            left.push_back((start, Vec::new()));
        }
        while let Some((at, path)) = left.pop_front() {
            if offers(at) && calls(info(at), method) {
                return Some(path);
            }
            for next in self.nodes[at].next.iter().copied() {
                let open = if info(next).own {
                    owner
                } else {
                    owner || offers(next)
                };
                if open && !std::mem::replace(&mut seen[next], true) {
                    left.push_back((next, [&path[..], &[info(next).number]].concat()));
                }
            }
        }
        None
    }
}
