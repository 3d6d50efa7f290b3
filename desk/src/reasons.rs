//! Why a relation does not hold between two types: the way through signatures to a pair that breaks a rule by itself, and that rule. A relation is the
//! largest that keeps its rules (R3), so where it fails there is such a way; the shortest is told. Whether it holds is the core's word, and tests hold the two
//! together.

use crate::described::{signature, Described};
use crate::names::{Kind, Names};
use crate::words::plural;
use pilgonca::{MethodInfo, Representation, Sheet, Type, TypeInfo};
use std::collections::{HashSet, VecDeque};

/// A relation at a pair (T, S), by what it asks (R8 to R12).
#[derive(Clone, Copy, PartialEq, Eq, Debug)]
pub enum Relation {
    Subtype,
    /// Own not compared (R12): the one that Compare does not answer.
    SubtypeOwnAside,
    Strict,
    Loose,
    Free,
}

/// A step from a pair to one that its signatures name.
#[derive(Clone, Copy, PartialEq, Eq, Debug)]
pub struct Hop {
    pub method: usize,
    pub part: Part,
}

/// What of a signature.
#[derive(Clone, Copy, PartialEq, Eq, Debug)]
pub enum Part {
    /// From 0 on. The sides are exchanged there (R6).
    Argument(usize),
    Answer,
}

/// What a type says of a method.
#[derive(Clone, Copy, PartialEq, Eq, Debug)]
pub enum Says {
    Denied,
    Optional,
    Avail,
    Unavail,
}

impl Says {
    pub fn of(method: &MethodInfo) -> Says {
        match method {
            MethodInfo::Denied => Says::Denied,
            MethodInfo::Optional(_) => Says::Optional,
            MethodInfo::Avail(_) => Says::Avail,
            MethodInfo::Unavail => Says::Unavail,
        }
    }

    pub fn word(self) -> &'static str {
        match self {
            Says::Denied => "denied",
            Says::Optional => "optional",
            Says::Avail => "avail",
            Says::Unavail => "unavail",
        }
    }

    fn permits(self) -> bool {
        matches!(self, Says::Optional | Says::Avail)
    }

    /// R1.
    fn is_below(self, other: Says) -> bool {
        match self {
            Says::Denied => true,
            Says::Optional => other != Says::Denied,
            Says::Avail | Says::Unavail => self == other,
        }
    }
}

/// A rule that a pair (T, S) breaks by itself.
#[derive(Clone, Copy, PartialEq, Eq, Debug)]
pub enum Broken {
    /// One is a number, the other a reference.
    Kinds {
        t: Representation,
    },
    /// Numbers of two widths.
    Widths {
        t: Representation,
    },
    /// T's category is neither S's nor broader.
    Categories {
        t: usize,
        s: usize,
    },
    /// T has own, S has not.
    Own,
    States {
        method: usize,
        t: Says,
        s: Says,
    },
    Arguments {
        method: usize,
        t: usize,
        s: usize,
    },
    Answers {
        method: usize,
        in_t: bool,
    },
}

/// Why a relation fails at a pair.
#[derive(Clone, PartialEq, Eq, Debug)]
pub struct Reason {
    /// From the pair asked about to the one that breaks a rule.
    pub hops: Vec<Hop>,
    /// That pair: T and S.
    pub pair: [Type; 2],
    pub broken: Broken,
    told: [Described; 2],
}

/// The types of a table, read once.
pub struct Reasons<'a> {
    sheet: &'a Sheet,
    types: Vec<TypeInfo>,
}

impl<'a> Reasons<'a> {
    pub fn of(sheet: &'a Sheet) -> Reasons<'a> {
        let types = sheet.types().collect();
        Reasons { sheet, types }
    }

    /// Why the relation fails at (T, S); none where it holds, or where a number names no type.
    pub fn find(&self, relation: Relation, t: Type, s: Type) -> Option<Reason> {
        let mut seen = HashSet::from([(t, s)]);
        let mut left = VecDeque::from([(t, s, Vec::new())]);
        while let Some((t, s, hops)) = left.pop_front() {
            let (of_t, of_s) = (self.info(t)?, self.info(s)?);
            if let Some(broken) = self.broken(relation, of_t, of_s) {
                let told = [t, s].map(|one| Described::of(self.sheet, one));
                let pair = [t, s];
                return Some(Reason {
                    hops,
                    pair,
                    broken,
                    told,
                });
            }
            for (hop, t, s) in named(of_t, of_s) {
                if seen.insert((t, s)) {
                    left.push_back((t, s, [&hops[..], &[hop]].concat()));
                }
            }
        }
        None
    }

    fn info(&self, number: Type) -> Option<&TypeInfo> {
        self.types.get(usize::try_from(number.0).ok()?)
    }

    /// The first rule that the pair breaks, whatever its signatures name.
    pub fn broken(&self, relation: Relation, t: &TypeInfo, s: &TypeInfo) -> Option<Broken> {
        let is_ref = |info: &TypeInfo| info.representation == Representation::Ref;
        let subtype = matches!(relation, Relation::Subtype | Relation::SubtypeOwnAside);
        if is_ref(t) != is_ref(s) {
            return Some(Broken::Kinds {
                t: t.representation,
            });
        }
        if subtype && t.representation != s.representation {
            return Some(Broken::Widths {
                t: t.representation,
            });
        }
        let compared = subtype || relation == Relation::Strict;
        if compared && !self.is_broader(t.category, s.category) {
            let (t, s) = (t.category, s.category);
            return Some(Broken::Categories { t, s });
        }
        if relation == Relation::Subtype && t.own && !s.own {
            return Some(Broken::Own);
        }
        let methods = t.methods.iter().zip(&s.methods).enumerate();
        let mut broken = methods.filter_map(|(method, (t, s))| {
            state_broken(relation, method, t, s).or_else(|| shape_broken(method, t, s))
        });
        broken.next()
    }

    /// Whether a category is the other, or broader (T7).
    fn is_broader(&self, category: usize, than: usize) -> bool {
        category == 0
            || category == than
            || self
                .sheet
                .broader(than)
                .into_iter()
                .any(|one| self.is_broader(category, one))
    }
}

/// The pairs that signatures name, of methods that both permit (R5, R6).
fn named(t: &TypeInfo, s: &TypeInfo) -> Vec<(Hop, Type, Type)> {
    let mut found = Vec::new();
    for (method, (t, s)) in t.methods.iter().zip(&s.methods).enumerate() {
        if let (Some(t), Some(s)) = (signature(t), signature(s)) {
            let arguments = t.arguments.iter().zip(&s.arguments).enumerate();
            for (index, (of_t, of_s)) in arguments {
                let part = Part::Argument(index);
                found.push((Hop { method, part }, *of_s, *of_t));
            }
            if let (Some(of_t), Some(of_s)) = (t.answer, s.answer) {
                let part = Part::Answer;
                found.push((Hop { method, part }, of_t, of_s));
            }
        }
    }
    found
}

fn state_broken(
    relation: Relation,
    method: usize,
    t: &MethodInfo,
    s: &MethodInfo,
) -> Option<Broken> {
    let (t, s) = (Says::of(t), Says::of(s));
    let keeps = match relation {
        Relation::Subtype | Relation::SubtypeOwnAside => t.is_below(s),
        Relation::Strict => t != Says::Avail || s == Says::Avail,
        Relation::Loose => t != Says::Avail || s.permits(),
        Relation::Free => true,
    };
    (!keeps).then_some(Broken::States { method, t, s })
}

/// R4.
fn shape_broken(method: usize, t: &MethodInfo, s: &MethodInfo) -> Option<Broken> {
    let (t, s) = (signature(t)?, signature(s)?);
    let (of_t, of_s) = (t.arguments.len(), s.arguments.len());
    if of_t != of_s {
        return Some(Broken::Arguments {
            method,
            t: of_t,
            s: of_s,
        });
    }
    let in_t = t.answer.is_some();
    (in_t != s.answer.is_some()).then_some(Broken::Answers { method, in_t })
}

impl Reason {
    /// In words. The two that were asked about are called as the caller calls them; further in, types are told by their own words.
    pub fn words(&self, names: &Names, asked: [&str; 2]) -> String {
        let [t, s] = match self.hops.is_empty() {
            true => asked.map(str::to_string),
            false => [0, 1].map(|side: usize| self.told[side].words(names)),
        };
        let way = self.hops.iter().map(|hop| hop.words(names));
        way.chain([self.broken.words(names, &t, &s)])
            .collect::<Vec<String>>()
            .join(": ")
    }
}

impl Hop {
    fn words(self, names: &Names) -> String {
        let method = names.words(Kind::Method, self.method as i64);
        match self.part {
            Part::Argument(index) => format!("in argument {} of {method}", index + 1),
            Part::Answer => format!("in the answer of {method}"),
        }
    }
}

impl Broken {
    fn words(self, names: &Names, t: &str, s: &str) -> String {
        let method = |number: usize| names.words(Kind::Method, number as i64);
        match self {
            Broken::Kinds {
                t: Representation::Ref,
            } => {
                format!("{t} is a reference and {s} a number")
            }
            Broken::Kinds { .. } => format!("{t} is a number and {s} a reference"),
            Broken::Widths {
                t: Representation::W32,
            } => format!("{t} has 32 bits and {s} has 64"),
            Broken::Widths { .. } => format!("{t} has 64 bits and {s} has 32"),
            Broken::Categories { t: of_t, s: of_s } => categories(names, [t, s], [of_t, of_s]),
            Broken::Own => format!("{t} has own and {s} has not"),
            Broken::States {
                method: of,
                t: of_t,
                s: of_s,
            } => {
                let (of, of_t, of_s) = (method(of), of_t.word(), of_s.word());
                format!("of {of} {t} says {of_t} and {s} says {of_s}")
            }
            Broken::Arguments {
                method: of,
                t: of_t,
                s: of_s,
            } => {
                let (of, of_t) = (method(of), plural(of_t, "argument"));
                format!("{of} takes {of_t} in {t} and {of_s} in {s}")
            }
            Broken::Answers { method: of, in_t } => {
                let (with, without) = if in_t { (t, s) } else { (s, t) };
                format!(
                    "{} has an answer in {with} and none in {without}",
                    method(of)
                )
            }
        }
    }
}

fn categories(names: &Names, [t, s]: [&str; 2], [of_t, of_s]: [usize; 2]) -> String {
    let [of_t, words] = [of_t, of_s].map(|number| names.words(Kind::Category, number as i64));
    match of_s {
        0 => format!("{t} is of {of_t} and {s} of none"),
        _ => format!("{t} is of {of_t}, which is not {words} of {s}, nor broader"),
    }
}
