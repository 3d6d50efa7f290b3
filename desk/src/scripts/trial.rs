//! A request served a second time, to see where it fails: by the rules in their order (N, M, C, A), on a copy of the state. Relations and derivations are the
//! core's answers; the core has the last word, and a reason that comes to another number than its refusal is not told (tests hold that there is none).

use crate::described::{permitted, signature, Described};
use crate::reasons::{Reason, Reasons, Relation, Says};
use crate::scripts::callers::made_by;
use crate::scripts::requests::Request;
use crate::scripts::why::{Cross, Full, Given, Layer, LeadsTo, NoClass, Operand, Value, Why};
use pilgonca::raw::{MAX_CALLS_EACH, MAX_CELLS, MAX_PLACES};
use pilgonca::{
    CellInfo, Kind, Method, PlaceKind, Refusal, Representation, Sheet, Signature, Subject, Type,
    TypeInfo, Visit,
};

/// Why the core refused a request on a state; none where this finds no reason that comes to its number.
pub fn why(visit: &Visit, request: &Request, refusal: Refusal) -> Option<Why> {
    let found = served(visit, request).err()?;
    (found.refusal() == refusal).then_some(found)
}

/// Serves a request on a copy.
pub fn served(visit: &Visit, request: &Request) -> Result<(), Why> {
    let mut trial = Trial::of(visit);
    match request {
        Request::New { subject, class, to } => trial.new_object(*subject, *class, *to),
        Request::Move {
            subject,
            cell,
            receiver,
            to,
        } => trial.moved(*subject, *cell, *receiver, *to),
        Request::Call {
            subject,
            cell,
            method,
            arguments,
        } => trial.call(*subject, *cell, *method, arguments),
        Request::Answer {
            subject,
            call,
            value,
        } => trial.answer(*subject, *call, *value),
    }
}

/// A copy of the state.
struct Trial<'a> {
    visit: &'a Visit,
    sheet: Sheet,
    places: Vec<PlaceKind>,
    /// How many places there were before.
    old: usize,
    cells: Vec<CellInfo>,
    made: usize,
}

/// A reference on its way.
#[derive(Clone, Copy)]
struct Reference {
    type_: Type,
    place: usize,
}

/// A value on its way.
#[derive(Clone, Copy)]
enum Carried {
    Number(i64),
    Reference(Reference),
}

/// What the values of a call or an answer pass.
struct Way {
    layers: Vec<(Layer, Type)>,
    method: usize,
    receiver: Subject,
}

impl<'a> Trial<'a> {
    fn of(visit: &'a Visit) -> Trial<'a> {
        let places: Vec<PlaceKind> = visit.places().map(|info| info.kind).collect();
        Trial {
            visit,
            sheet: visit.sheet(),
            old: places.len(),
            places,
            cells: visit.cells().collect(),
            made: 0,
        }
    }

    /// N1 to N8.
    fn new_object(&mut self, subject: i64, class: i64, to: i64) -> Result<(), Why> {
        let owner = self.subject(subject, false)?;
        let class = self.class(class)?;
        let to = self.reference_type(to)?;
        self.place(PlaceKind::Object { class, owner })?;
        let place = self.places.len() - 1;
        self.cross(
            Reference {
                type_: class,
                place,
            },
            to,
            owner,
        )?;
        self.cell()
    }

    /// M1 to M6.
    fn moved(&mut self, subject: i64, cell: i64, receiver: i64, to: i64) -> Result<(), Why> {
        let subject = self.subject(subject, false)?;
        let receiver = self.subject(receiver, true)?;
        let cell = self.held(subject, cell)?;
        let to = self.reference_type(to)?;
        self.cross(reference(&cell), to, receiver)?;
        self.cell()
    }

    /// C1 to C19.
    fn call(&mut self, subject: i64, cell: i64, method: i64, given: &[i64]) -> Result<(), Why> {
        let subject = self.subject(subject, false)?;
        let cell = self.held(subject, cell)?;
        let count = self.sheet.methods();
        let unknown = Why::Operand(Operand::NoMethod {
            number: method,
            count,
        });
        let method = index(method, count).ok_or(unknown)?;
        let signature = self.avail(cell.type_, method)?;
        let due = signature.arguments.len();
        if given.len() != due {
            let given = given.len();
            return Err(Why::Given(Given::Count {
                type_: cell.type_,
                method,
                due,
                given,
            }));
        }
        let values = given.iter().zip(&signature.arguments).enumerate();
        let values: Vec<Carried> = values
            .map(|(index, (number, due))| {
                self.value(subject, Value::Argument(index), *number, *due)
            })
            .collect::<Result<_, _>>()?;
        if made_by(self.visit, subject) == MAX_CALLS_EACH {
            return Err(Why::CallsMade {
                caller: subject,
                others: self.sheet.subjects() > 1,
            });
        }
        let way = Way {
            layers: self.layers(&cell),
            method,
            receiver: self.owner(cell.place.0 as usize),
        };
        for (position, value) in values.into_iter().enumerate() {
            self.pass(Value::Argument(position), value, &way)?;
        }
        Ok(())
    }

    /// A1 to A13.
    fn answer(&mut self, subject: i64, call: i64, given: Option<i64>) -> Result<(), Why> {
        let subject = self.subject(subject, false)?;
        let calls: Vec<_> = self.visit.calls().collect();
        let unknown = Why::Operand(Operand::NoCall {
            call,
            count: calls.len(),
        });
        let called = &calls[index(call, calls.len()).ok_or(unknown)?];
        let cell = self.cells[called.cell.0 as usize];
        let owner = self.owner(cell.place.0 as usize);
        if owner != subject {
            return Err(Why::Operand(Operand::CallFor { call, owner }));
        }
        if called.answered {
            return Err(Why::Operand(Operand::Answered { call }));
        }
        let Method(method) = called.method;
        let (type_, method) = (cell.type_, method as usize);
        let due = self.signature(type_, method).and_then(|one| one.answer);
        match (due, given) {
            (None, None) => Ok(()),
            (None, Some(_)) => Err(Why::Given(Given::NothingDue { type_, method })),
            (Some(due), None) => Err(Why::Given(Given::AnswerDue { type_, method, due })),
            (Some(due), Some(number)) => {
                let value = self.value(subject, Value::Answer, number, due)?;
                let mut layers = self.layers(&cell);
                layers.reverse();
                let receiver = called.caller;
                let way = Way {
                    layers,
                    method,
                    receiver,
                };
                self.pass(Value::Answer, value, &way)
            }
        }
    }

    /// A value through the layers; a reference then becomes a cell (C8 to C17, A7 to A10).
    fn pass(&mut self, what: Value, carried: Carried, way: &Way) -> Result<(), Why> {
        let mut carried = carried;
        for (index, (layer, type_)) in way.layers.iter().enumerate() {
            let named = self.named(what, *type_, way.method);
            let passed = self.layer(carried, named, way.receiver);
            carried = passed.map_err(|why| Why::Passing {
                what,
                layer: *layer,
                first: index == 0,
                why: Box::new(why),
            })?;
        }
        match carried {
            Carried::Reference(_) => self.cell(),
            Carried::Number(_) => Ok(()),
        }
    }

    /// One layer, and the type that it has for the value, if any (C11, C14, C15).
    fn layer(
        &mut self,
        carried: Carried,
        named: Option<Type>,
        receiver: Subject,
    ) -> Result<Carried, Why> {
        let named = named.ok_or(Why::Cross(Box::new(Cross::Unfit)))?;
        match (carried, self.info(named).representation) {
            (Carried::Reference(from), Representation::Ref) => {
                self.cross(from, named, receiver).map(Carried::Reference)
            }
            (Carried::Number(number), Representation::W32) if i32::try_from(number).is_err() => {
                Err(Why::Wide { number })
            }
            (Carried::Number(_), Representation::W32 | Representation::W64) => Ok(carried),
            _ => Err(Why::Cross(Box::new(Cross::Unfit))),
        }
    }

    /// The type that a layer has for a value.
    fn named(&self, what: Value, layer: Type, method: usize) -> Option<Type> {
        let signature = self.signature(layer, method)?;
        match what {
            Value::Argument(position) => signature.arguments.get(position).copied(),
            Value::Answer => signature.answer,
        }
    }

    /// X.
    fn cross(&mut self, from: Reference, to: Type, receiver: Subject) -> Result<Reference, Why> {
        let own = self.info(to).own;
        let answers = self.sheet.compare(to, from.type_);
        let answers = answers.map_err(|_| Why::Unexplained)?;
        if !(if own { answers.free } else { answers.loose }) {
            let relation = if own { Relation::Free } else { Relation::Loose };
            let reason = self.reason(relation, to, from.type_)?;
            let [from, to] = [from.type_, to].map(|one| Described::of(&self.sheet, one));
            return Err(Why::Cross(Box::new(Cross::Types { from, to, reason })));
        }
        let mut place = from.place;
        if own {
            let owner = self.owner(place);
            if owner != receiver {
                let to = Described::of(&self.sheet, to);
                return Err(Why::Cross(Box::new(Cross::Owner {
                    owner,
                    receiver,
                    to,
                })));
            }
            place = self.base(place);
        } else if answers.subtype {
            return Ok(Reference { type_: to, place });
        }
        let narrowed = match own {
            true => to,
            false => self.derive(Kind::Sub, to, from.type_)?,
        };
        let place = self.adapted(place, narrowed, to)?;
        Ok(Reference { type_: to, place })
    }

    /// X6 to X9.
    fn adapted(&mut self, place: usize, narrowed: Type, to: Type) -> Result<usize, Why> {
        let v = self.type_of(place);
        let reasons = Reasons::of(&self.sheet);
        if reasons
            .find(Relation::SubtypeOwnAside, narrowed, v)
            .is_none()
        {
            return Ok(place);
        }
        let answers = self.sheet.compare(narrowed, v);
        if !answers.is_ok_and(|answers| answers.strict) {
            let reason = self.reason(Relation::Strict, narrowed, v)?;
            let to = Described::of(&self.sheet, to);
            return Err(Why::Cross(Box::new(Cross::Lacks {
                leads_to: self.leads_to(place),
                to,
                reason,
            })));
        }
        let closed = self.derive(Kind::Closed, narrowed, v)?;
        let behind = pilgonca::Place(place as i64);
        self.place(PlaceKind::Adapter { behind, closed })?;
        Ok(self.places.len() - 1)
    }

    /// Why a relation fails that the core says fails.
    fn reason(&self, relation: Relation, t: Type, s: Type) -> Result<Reason, Why> {
        let found = Reasons::of(&self.sheet).find(relation, t, s);
        found.ok_or(Why::Unexplained)
    }

    fn derive(&mut self, kind: Kind, t: Type, s: Type) -> Result<Type, Why> {
        let used = self.visit.types().count();
        let derived = self.sheet.derive(kind, t, s);
        derived.map_err(|_| Why::Full {
            what: Full::Types,
            used,
        })
    }

    fn place(&mut self, place: PlaceKind) -> Result<(), Why> {
        if self.places.len() == MAX_PLACES {
            return Err(Why::Full {
                what: Full::Places,
                used: self.old,
            });
        }
        self.places.push(place);
        Ok(())
    }

    fn cell(&mut self) -> Result<(), Why> {
        if self.cells.len() + self.made == MAX_CELLS {
            return Err(Why::Full {
                what: Full::Cells,
                used: self.cells.len(),
            });
        }
        self.made += 1;
        Ok(())
    }

    fn subject(&self, number: i64, receiver: bool) -> Result<Subject, Why> {
        let count = self.sheet.subjects();
        index(number, count).ok_or(Why::Operand(Operand::NoSubject {
            number,
            receiver,
            count,
        }))?;
        Ok(Subject(number))
    }

    /// A cell that the subject holds.
    fn held(&self, subject: Subject, cell: i64) -> Result<CellInfo, Why> {
        let count = self.cells.len();
        let found = index(cell, count).ok_or(Why::Operand(Operand::NoCell { cell, count }))?;
        let info = self.cells[found];
        match info.holder == subject {
            true => Ok(info),
            false => Err(Why::Operand(Operand::CellOf {
                cell,
                holder: info.holder,
            })),
        }
    }

    /// C5, C8, A6.
    fn value(&self, subject: Subject, what: Value, number: i64, due: Type) -> Result<Carried, Why> {
        if self.info(due).representation != Representation::Ref {
            return Ok(Carried::Number(number));
        }
        let holder = match self.held(subject, number) {
            Ok(cell) => return Ok(Carried::Reference(reference(&cell))),
            Err(Why::Operand(Operand::CellOf { holder, .. })) => Some(holder),
            Err(_) => None,
        };
        Err(Why::Given(Given::NoReference {
            what,
            number,
            due,
            holder,
        }))
    }

    /// A ref type of the sheet (N3, M3).
    fn reference_type(&self, number: i64) -> Result<Type, Why> {
        let count = self.sheet.sheet_types();
        index(number, count).ok_or(Why::Operand(Operand::NoType { number, count }))?;
        match self.info(Type(number)).representation {
            Representation::Ref => Ok(Type(number)),
            _ => Err(Why::Operand(Operand::NumberType { number })),
        }
    }

    /// N2.
    fn class(&self, number: i64) -> Result<Type, Why> {
        let class = self.reference_type(number)?;
        let info = self.info(class);
        let unsettled = |says: &Says| matches!(says, Says::Denied | Says::Optional);
        let mut says = info.methods.iter().map(Says::of).enumerate();
        let because = match info.own {
            true => Some(NoClass::Own),
            false => {
                let found = says.find(|(_, says)| unsettled(says));
                found.map(|(method, says)| NoClass::Says { method, says })
            }
        };
        because.map_or(Ok(class), |because| {
            Err(Why::Operand(Operand::NoClass { number, because }))
        })
    }

    /// C3.
    fn avail(&self, type_: Type, method: usize) -> Result<Signature, Why> {
        let info = self.info(type_);
        let says = info.methods.get(method).map_or(Says::Denied, Says::of);
        match (says, self.signature(type_, method)) {
            (Says::Avail, Some(signature)) => Ok(signature),
            _ => Err(Why::Operand(Operand::NotAvail {
                type_,
                method,
                says,
            })),
        }
    }

    fn info(&self, number: Type) -> TypeInfo {
        self.sheet.type_info(number).expect("a type of the table")
    }

    fn signature(&self, layer: Type, method: usize) -> Option<Signature> {
        let info = self.info(layer);
        info.methods.get(method).and_then(signature).cloned()
    }

    /// C9, each with its type.
    fn layers(&self, cell: &CellInfo) -> Vec<(Layer, Type)> {
        let type_ = cell.type_;
        let mut found = vec![(Layer::Cell { type_ }, type_)];
        let mut place = cell.place.0 as usize;
        while let PlaceKind::Adapter { behind, closed } = self.places[place] {
            found.push((Layer::Adapter { place }, closed));
            place = behind.0 as usize;
        }
        let class = self.type_of(place);
        found.push((Layer::Class { class }, class));
        found
    }

    fn base(&self, place: usize) -> usize {
        match self.places[place] {
            PlaceKind::Object { .. } => place,
            PlaceKind::Adapter { behind, .. } => self.base(behind.0 as usize),
        }
    }

    fn owner(&self, place: usize) -> Subject {
        match self.places[place] {
            PlaceKind::Object { owner, .. } => owner,
            PlaceKind::Adapter { behind, .. } => self.owner(behind.0 as usize),
        }
    }

    /// Q3.
    fn type_of(&self, place: usize) -> Type {
        match self.places[place] {
            PlaceKind::Object { class, .. } => class,
            PlaceKind::Adapter { closed, .. } => closed,
        }
    }

    fn leads_to(&self, place: usize) -> LeadsTo {
        let known = (place < self.old).then_some(place);
        match self.places[place] {
            PlaceKind::Object { class, .. } => LeadsTo::Object {
                place: known,
                class,
            },
            PlaceKind::Adapter { closed, .. } => LeadsTo::Adapter {
                place: known,
                permits: permitted(&self.info(closed)),
            },
        }
    }
}

fn reference(cell: &CellInfo) -> Reference {
    Reference {
        type_: cell.type_,
        place: cell.place.0 as usize,
    }
}

/// Q12.
fn index(number: i64, count: usize) -> Option<usize> {
    usize::try_from(number).ok().filter(|index| *index < count)
}
