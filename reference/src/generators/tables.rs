//! Generated tables. Types come in families whose members are made from one
//! another, so that crossings are often legal.

use super::plans::{Arguments, Plan};
use crate::random::Random;
use crate::table::*;

/// A table by a plan.
pub fn table(random: &mut Random, plan: &Plan) -> Table {
    let methods = random.within(plan.methods);
    let broader = broader(random, plan.categories);
    let sheet_types = random.within(plan.types);
    let count = random.within(plan.families);
    let families: Vec<Family> = (0..count)
        .map(|_| family(random, plan, methods, count))
        .collect();
    let roles = roles(random, sheet_types, count);
    let mut types: Vec<Type> = Vec::new();
    for number in 0..sheet_types {
        let one = match roles[number] {
            Role::Number(representation) => {
                Type::number(representation, category(random, broader.len(), 40))
            }
            Role::Reference(role) => {
                let earlier: Vec<&Type> = (0..number)
                    .filter(|other| roles[*other].like(role))
                    .map(|other| &types[other])
                    .collect();
                let maker = Maker {
                    roles: &roles,
                    family: &families[role.family],
                    role,
                    categories: broader.len(),
                };
                maker.make(random, &earlier)
            }
        };
        types.push(one);
    }
    Table {
        subjects: random.within(plan.subjects),
        methods,
        broader,
        sheet_types,
        types,
        keys: Vec::new(),
    }
}

fn broader(random: &mut Random, range: (usize, usize)) -> Vec<Broader> {
    let count = random.within(range);
    (1..=count)
        .map(|category| Broader {
            first: random.below(category),
            second: random.chance(40).then(|| random.below(category)),
        })
        .collect()
}

/// A category, none in so many of a hundred.
fn category(random: &mut Random, categories: usize, none: usize) -> usize {
    if random.chance(none) {
        0
    } else {
        random.below(categories + 1)
    }
}

/// What a type is to be, decided before signatures name it.
#[derive(Clone, Copy, Debug)]
enum Role {
    Number(Representation),
    Reference(Reference),
}

#[derive(Clone, Copy, Debug)]
struct Reference {
    family: usize,
    own: bool,
    class: bool,
}

impl Role {
    fn like(self, other: Reference) -> bool {
        match self {
            Role::Number(_) => false,
            Role::Reference(one) => one.family == other.family && one.class == other.class,
        }
    }
}

fn roles(random: &mut Random, count: usize, families: usize) -> Vec<Role> {
    let classes = *random.pick(&[15, 30, 50]);
    (0..count)
        .map(|number| {
            if random.chance(if number < 2 { 40 } else { 7 }) {
                return Role::Number(*random.pick(&[
                    Representation::W32,
                    Representation::W32,
                    Representation::W64,
                ]));
            }
            let class = number < families + 2 || random.chance(classes);
            Role::Reference(Reference {
                family: random.below(families),
                own: !class && random.chance(22),
                class,
            })
        })
        .collect()
}

/// What the types of a family have in common.
#[derive(Clone, Debug)]
struct Family {
    arguments: Arguments,
    shapes: Vec<Shape>,
    /// In a tidy family a method is avail in every type, or avail in classes
    /// alone and denied or optional elsewhere: loose then holds often.
    tidy: bool,
    everywhere: Vec<bool>,
    /// How many of its types in a hundred have no category.
    no_category: usize,
    /// How often a signature names an interface rather than a class.
    interfaces: usize,
}

fn family(random: &mut Random, plan: &Plan, methods: usize, families: usize) -> Family {
    let everywhere = *random.pick(&[20, 40, 60]);
    Family {
        arguments: plan.arguments,
        shapes: (0..methods)
            .map(|_| shape(random, &plan.arguments, families))
            .collect(),
        tidy: random.chance(70),
        everywhere: (0..methods).map(|_| random.chance(everywhere)).collect(),
        no_category: *random.pick(&[100, 90, 70, 40]),
        interfaces: *random.pick(&[95, 80, 50]),
    }
}

/// What a family's method takes and gives: numbers, or references of a family.
#[derive(Clone, Debug)]
struct Shape {
    arguments: Vec<Slot>,
    answer: Option<Slot>,
}

#[derive(Clone, Copy, Debug)]
enum Slot {
    Number,
    Family(usize),
}

fn shape(random: &mut Random, arguments: &Arguments, families: usize) -> Shape {
    let arguments = random.weighted(arguments);
    Shape {
        arguments: (0..arguments).map(|_| slot(random, families)).collect(),
        answer: random.chance(70).then(|| slot(random, families)),
    }
}

fn slot(random: &mut Random, families: usize) -> Slot {
    if random.chance(25) {
        Slot::Number
    } else {
        Slot::Family(random.below(families))
    }
}

/// Makes one ref type of a family.
struct Maker<'a> {
    roles: &'a [Role],
    family: &'a Family,
    role: Reference,
    categories: usize,
}

impl Maker<'_> {
    /// A type of its own, or changed in a few places from an earlier one.
    fn make(&self, random: &mut Random, earlier: &[&Type]) -> Type {
        let shapes = &self.family.shapes;
        if let Some(model) = random.pick_some(earlier).filter(|_| random.chance(55)) {
            let mut one = (*model).clone();
            one.own = self.role.own;
            if random.chance(30) {
                one.category = category(random, self.categories, self.family.no_category);
            }
            for _ in 0..random.within((0, 2.min(shapes.len()))) {
                let method = random.below(shapes.len());
                one.methods[method] = self.state(random, method);
            }
            return one;
        }
        Type {
            representation: Representation::Ref,
            category: category(random, self.categories, self.family.no_category),
            own: self.role.own,
            methods: (0..shapes.len())
                .map(|method| self.state(random, method))
                .collect(),
        }
    }

    fn state(&self, random: &mut Random, method: usize) -> MethodState {
        let odd = random.chance(1);
        let odd = odd.then(|| shape(random, &self.family.arguments, 1));
        let shape = odd.as_ref().unwrap_or(&self.family.shapes[method]);
        let signature = self.signature(random, shape).unwrap_or_default();
        let odd = random.chance(4);
        match random.weighted(&self.weights(odd, method)) {
            0 => MethodState::Denied,
            1 => MethodState::Optional(signature),
            2 => MethodState::Avail(signature),
            _ => MethodState::Unavail,
        }
    }

    /// Weights of denied, optional, avail and unavail.
    fn weights(&self, odd: bool, method: usize) -> [usize; 4] {
        match (self.role.class, self.family.tidy && !odd) {
            (true, true) if self.family.everywhere[method] => [0, 0, 100, 0],
            (true, _) => [0, 0, 90, 10],
            (false, true) if self.family.everywhere[method] => [0, 0, 100, 0],
            (false, true) => [45, 50, 0, 5],
            (false, false) => [25, 30, 35, 10],
        }
    }

    /// A signature of a shape; `None` if there is no type to stand in it.
    fn signature(&self, random: &mut Random, shape: &Shape) -> Option<Signature> {
        let mut arguments = Vec::new();
        for slot in &shape.arguments {
            arguments.push(self.type_for(random, *slot)?);
        }
        let answer = match shape.answer {
            Some(slot) => Some(self.type_for(random, slot)?),
            None => None,
        };
        Some(Signature { arguments, answer })
    }

    /// A type without own that fits the slot, or any other type without own.
    fn type_for(&self, random: &mut Random, slot: Slot) -> Option<TypeNo> {
        let interface = random.chance(self.family.interfaces);
        let fits = |role: Role, class: bool| match (slot, role) {
            (Slot::Number, Role::Number(_)) => true,
            (Slot::Family(wanted), Role::Reference(one)) => {
                !one.own && one.family == wanted && one.class == class
            }
            _ => false,
        };
        let some = |random: &mut Random, wanted: &dyn Fn(Role) -> bool| {
            let list: Vec<TypeNo> = (0..self.roles.len())
                .filter(|number| wanted(self.roles[*number]))
                .collect();
            random.pick_some(&list).copied()
        };
        some(random, &|role| fits(role, !interface))
            .or_else(|| some(random, &|role| fits(role, interface)))
            .or_else(|| {
                some(
                    random,
                    &|role| !matches!(role, Role::Reference(one) if one.own),
                )
            })
    }
}
