//! The way that each cell's reference came, followed from the requests that were accepted (L9 to L13): the types that it crossed, and whose hands it went
//! through.

use crate::described::{signature, Described};
use crate::names::{Kind, Names};
use crate::scripts::requests::Request;
use pilgonca::{
    Call, CallInfo, Cell, CellInfo, PlaceKind, Representation, Sheet, Signature, Subject, Type,
    Visit,
};

/// One crossing of a reference.
#[derive(Clone, PartialEq, Eq, Debug)]
pub struct Crossing {
    pub to: Type,
    pub hands: Hands,
}

/// From whom to whom, and by what.
#[derive(Clone, Copy, PartialEq, Eq, Debug)]
pub enum Hands {
    Made {
        by: Subject,
    },
    Moved {
        from: Subject,
        to: Subject,
    },
    Argument {
        from: Subject,
        to: Subject,
        call: Call,
        position: usize,
    },
    Answer {
        from: Subject,
        to: Subject,
        call: Call,
    },
}

/// The way of one cell's reference.
#[derive(Clone, Default, PartialEq, Eq, Debug)]
pub struct Trail {
    /// The cell that it was handed on from; none for one that came with its object.
    pub from: Option<Cell>,
    /// What it crossed since its object was made, or last unwrapped (L3).
    pub crossings: Vec<Crossing>,
}

impl Trail {
    pub fn types(&self) -> impl Iterator<Item = Type> + '_ {
        self.crossings.iter().map(|one| one.to)
    }

    /// In words: who gave it to whom, as what.
    pub fn words(&self, sheet: &Sheet, names: &Names) -> String {
        let mut steps: Vec<(Hands, Vec<String>)> = Vec::new();
        for Crossing { to, hands } in &self.crossings {
            let type_ = Described::of(sheet, *to).short(names);
            match steps.last_mut() {
                // one value through the layers of a call
                Some((last, types)) if last == hands && hands.is_of_call() => types.push(type_),
                _ => steps.push((*hands, vec![type_])),
            }
        }
        let steps = steps.iter().map(|(hands, types)| {
            let types = types.join(", then ");
            format!("{} as {types}", hands.words(names))
        });
        steps.collect::<Vec<String>>().join(" > ")
    }
}

impl Hands {
    fn is_of_call(self) -> bool {
        matches!(self, Hands::Argument { .. } | Hands::Answer { .. })
    }

    fn words(self, names: &Names) -> String {
        let short = |subject: Subject| names.short(Kind::Subject, subject.0);
        match self {
            Hands::Made { by } => format!("{} made it", short(by)),
            Hands::Moved { from, to } if from == to => format!("{} to itself", short(to)),
            Hands::Moved { from, to } => format!("{} to {}", short(from), short(to)),
            Hands::Argument {
                from,
                to,
                call,
                position,
            } => {
                let (from, to, position) = (short(from), short(to), position + 1);
                format!("{from} to {to}, argument {position} of call {call},")
            }
            Hands::Answer { from, to, call } => {
                format!("{} to {}, answer to call {call},", short(from), short(to))
            }
        }
    }
}

/// The trails of all cells, by number.
#[derive(Default)]
pub struct Trails(Vec<Trail>);

impl Trails {
    pub fn count(&self) -> usize {
        self.0.len()
    }

    /// None where there is no such cell.
    pub fn of(&self, cell: Cell) -> Option<&Trail> {
        self.0.get(usize::try_from(cell.0).ok()?)
    }

    /// Adds trails for the cells that a request made, which was accepted and left the visit as it is.
    pub fn note(&mut self, visit: &Visit, request: &Request) {
        let sheet = visit.sheet();
        match request {
            Request::New { subject, to, .. } => {
                let by = Subject(*subject);
                self.cross(&sheet, None, Hands::Made { by }, &[Type(*to)]);
            }
            Request::Move {
                subject,
                cell,
                receiver,
                to,
            } => {
                let [from, receiver] = [*subject, *receiver].map(Subject);
                let hands = Hands::Moved { from, to: receiver };
                self.cross(&sheet, Some(*cell), hands, &[Type(*to)]);
            }
            Request::Call { arguments, .. } => {
                // the last one there is
                if let Some(call) = visit.calls().last() {
                    let layers = Layers::of(visit, &sheet, &call);
                    self.arguments(&sheet, &layers, &call, arguments);
                }
            }
            Request::Answer {
                subject,
                call,
                value,
            } => {
                let mut calls = visit.calls();
                if let Some(call) = calls.find(|info| info.number == Call(*call)) {
                    let layers = Layers::of(visit, &sheet, &call);
                    let (from, to, call) = (Subject(*subject), call.caller, call.number);
                    self.answer(&sheet, &layers, Hands::Answer { from, to, call }, *value);
                }
            }
        }
    }

    /// A reference, new or from a cell, crosses to types in order and becomes the next cell. A type with own begins a new
    /// trail: adapters are left behind there (X3).
    fn cross(&mut self, sheet: &Sheet, cell: Option<i64>, hands: Hands, to: &[Type]) {
        let from = cell.map(Cell);
        let before = from.and_then(|cell| self.of(cell)).cloned();
        let mut crossings = before.unwrap_or_default().crossings;
        for to in to.iter().copied() {
            if sheet.type_info(to).is_some_and(|info| info.own) {
                crossings.clear();
            }
            crossings.push(Crossing { to, hands });
        }
        self.0.push(Trail { from, crossings });
    }

    /// Each argument that is a reference passes the argument types of the layers, the called cell's type first (L11).
    fn arguments(&mut self, sheet: &Sheet, layers: &Layers, call: &CallInfo, given: &[i64]) {
        let (from, to, call) = (call.caller, layers.owner, call.number);
        for (position, argument) in given.iter().enumerate() {
            let signatures = layers.signatures.iter();
            let types = signatures.filter_map(|one| one.arguments.get(position));
            let types: Vec<Type> = types.copied().collect();
            if is_reference(sheet, &types) {
                let hands = Hands::Argument {
                    from,
                    to,
                    call,
                    position,
                };
                self.cross(sheet, Some(*argument), hands, &types);
            }
        }
    }

    /// An answer that is a reference passes the answer types of the layers, the class's first (L13).
    fn answer(&mut self, sheet: &Sheet, layers: &Layers, hands: Hands, value: Option<i64>) {
        let signatures = layers.signatures.iter().rev();
        let types: Vec<Type> = signatures.filter_map(|one| one.answer).collect();
        if value.is_some() && is_reference(sheet, &types) {
            self.cross(sheet, value, hands, &types);
        }
    }
}

/// Whether values of these types, all of one kind, are references.
fn is_reference(sheet: &Sheet, types: &[Type]) -> bool {
    let info = types.first().and_then(|first| sheet.type_info(*first));
    info.is_some_and(|info| info.representation == Representation::Ref)
}

/// What a call goes through.
struct Layers {
    /// What each layer has as its signature: the cell's type, each adapter's from the outermost on, the class (C9).
    signatures: Vec<Signature>,
    /// The owner of the object that is called.
    owner: Subject,
}

impl Layers {
    fn of(visit: &Visit, sheet: &Sheet, call: &CallInfo) -> Layers {
        let cell = visit.cell_info(call.cell);
        let cell = cell.expect("a call is through a cell (H11)");
        let (behind, owner) = behind(visit, &cell);
        let layers = std::iter::once(cell.type_).chain(behind);
        let signature = |layer: Type| {
            let methods = sheet.type_info(layer)?.methods;
            methods
                .get(call.method.0 as usize)
                .and_then(signature)
                .cloned()
        };
        Layers {
            signatures: layers.filter_map(signature).collect(),
            owner,
        }
    }
}

/// The types that a call through a cell goes through, in words: the cell's, those of adapters, the class (C9).
pub fn layers(visit: &Visit, sheet: &Sheet, cell: &CellInfo, names: &Names) -> String {
    let (behind, _) = behind(visit, cell);
    let layers = std::iter::once(cell.type_).chain(behind);
    let layers = layers.map(|one| Described::of(sheet, one).short(names));
    layers.collect::<Vec<String>>().join(" > ")
}

/// The types behind a cell's own, that of the outermost adapter first, the class last; and who owns the object.
pub fn behind(visit: &Visit, cell: &CellInfo) -> (Vec<Type>, Subject) {
    let places: Vec<PlaceKind> = visit.places().map(|info| info.kind).collect();
    let mut found = Vec::new();
    let mut place = cell.place;
    loop {
        match places[place.0 as usize] {
            PlaceKind::Adapter { behind, closed } => {
                found.push(closed);
                place = behind;
            }
            PlaceKind::Object { class, owner } => {
                found.push(class);
                return (found, owner);
            }
        }
    }
}
