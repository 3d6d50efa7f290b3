//! The relations of a pair of types in words, and the strongest of them: each of the four holds where the one before it does (R8 to R11).

use crate::names::{Kind, Names};
use crate::paint::{Paint, Tone};
use crate::reasons::{Reasons, Relation};
use pilgonca::{Comparison, Representation, Sheet, Type, TypeInfo};

/// The strongest relation between a type T and a type S that is to become T.
#[derive(Clone, Copy, PartialEq, Eq, Debug)]
pub enum Strongest {
    Subtype,
    Strict,
    Loose,
    Free,
    None,
}

pub const ALL: [Strongest; 5] = [
    Strongest::Subtype,
    Strongest::Strict,
    Strongest::Loose,
    Strongest::Free,
    Strongest::None,
];

impl Strongest {
    pub fn of(answers: &Comparison) -> Strongest {
        match answers {
            Comparison { subtype: true, .. } => Strongest::Subtype,
            Comparison { strict: true, .. } => Strongest::Strict,
            Comparison { loose: true, .. } => Strongest::Loose,
            Comparison { free: true, .. } => Strongest::Free,
            _ => Strongest::None,
        }
    }

    pub fn mark(self) -> char {
        match self {
            Strongest::Subtype => '#',
            Strongest::Strict => '+',
            Strongest::Loose => 'o',
            Strongest::Free => '-',
            Strongest::None => '.',
        }
    }

    pub fn name(self) -> &'static str {
        match self {
            Strongest::Subtype => "subtype",
            Strongest::Strict => "strict",
            Strongest::Loose => "loose",
            Strongest::Free => "free",
            Strongest::None => "none",
        }
    }

    /// For a reference of type S that is to become a T without own.
    pub fn words(self) -> &'static str {
        match self {
            Strongest::Subtype => "S passes as T as it is, without an adapter",
            Strongest::Strict => "S has every method that T calls, and its category fits; an adapter may come between",
            Strongest::Loose => {
                "S shows every method that T calls, optional at least: what it leads to decides"
            }
            Strongest::Free => {
                "signatures agree, but S does not show what T calls: S cannot become T"
            }
            Strongest::None => "S cannot become T",
        }
    }
}

/// The mark of a pair whose T has own, where the relation is not none.
pub const OWN_MARK: char = '*';
pub const HEADING: &str = "The strongest relation of a type T (row) from a type S (column):";
pub const OWN: &str =
    "A T with own can be had from every S but one with none, by the owner of an object that has what T calls and whose category fits.";

/// A comparison: the four answers, why those that are no are so, and what they come to.
pub struct Compared {
    pub from: Type,
    pub to: Type,
    pub becomes: bool,
    pub rows: Vec<Row>,
    pub conclusion: String,
}

/// One of the four answers.
pub struct Row {
    pub name: &'static str,
    pub holds: bool,
    /// What it means, or why it does not hold.
    pub words: String,
}

impl Compared {
    pub fn of(
        sheet: &Sheet,
        [t, s]: [&TypeInfo; 2],
        answers: &Comparison,
        names: &Names,
    ) -> Compared {
        let reasons = Reasons::of(sheet);
        let rows = [
            ("subtype", answers.subtype, Relation::Subtype),
            ("strict", answers.strict, Relation::Strict),
            ("loose", answers.loose, Relation::Loose),
            ("free", answers.free, Relation::Free),
        ];
        let rows = rows.map(|(name, holds, relation)| {
            let words = match holds {
                true => means(relation, t).to_string(),
                false => {
                    let reason = reasons.find(relation, t.number, s.number);
                    reason.map_or(String::new(), |reason| reason.words(names, ["T", "S"]))
                }
            };
            Row { name, holds, words }
        });
        Compared {
            from: s.number,
            to: t.number,
            becomes: becomes(t, s, answers),
            rows: rows.into(),
            conclusion: conclusion(t, s, answers, names),
        }
    }

    pub fn words(&self, names: &Names, paint: Paint) -> String {
        let words = |number: Type| names.words(Kind::Type, number.0);
        let (from, to) = (words(self.from), words(self.to));
        let mut text = format!("from  S is {from}\nto    T is {to}\n\n");
        for Row { name, holds, words } in &self.rows {
            let answer = match holds {
                true => paint.of(Tone::Good, "yes"),
                false => paint.of(Tone::Bad, "no "),
            };
            text += &format!("  {name:7}  {answer}  {words}\n");
        }
        format!("{text}\n{}\n", self.conclusion)
    }
}

/// What a relation means where it holds (R8 to R11).
fn means(relation: Relation, t: &TypeInfo) -> &'static str {
    let number = t.representation != Representation::Ref;
    match relation {
        Relation::Subtype | Relation::SubtypeOwnAside => "S passes as T as it is",
        Relation::Strict if number => "both are numbers, and T's category is S's or a broader one",
        Relation::Loose | Relation::Free if number => "both are numbers",
        Relation::Strict => {
            "S has every method that T calls, and T's category is S's or a broader one"
        }
        Relation::Loose => "S shows every method that T calls, optional at least",
        Relation::Free => "the methods that both show have signatures that agree",
    }
}

/// Whether a value of type S can become one of type T, by the types (X1, C15).
pub fn becomes(t: &TypeInfo, s: &TypeInfo, answers: &Comparison) -> bool {
    let is_ref = |info: &TypeInfo| info.representation == Representation::Ref;
    match is_ref(t) && is_ref(s) && !t.own {
        true => answers.loose,
        false => answers.free,
    }
}

/// What becomes of a value of type S where T is due.
pub fn conclusion(t: &TypeInfo, s: &TypeInfo, answers: &Comparison, names: &Names) -> String {
    let words = |number: Type| names.words(Kind::Type, number.0);
    let (to, from) = (words(t.number), words(s.number));
    if t.representation != Representation::Ref || s.representation != Representation::Ref {
        return match answers.free {
            true => format!("Both are numbers: one of {from} is taken as {to} if it fits."),
            false => {
                format!("One is a number and the other a reference: {from} never becomes {to}.")
            }
        };
    }
    let becomes = format!("A reference of {from} becomes {to}");
    match (t.own, Strongest::of(answers)) {
        (_, Strongest::None) | (false, Strongest::Free) => {
            format!("A reference of {from} cannot become {to}: refused with 8.")
        }
        (true, _) => {
            format!("{becomes} for the owner of its object alone, if that has what {to} calls and its category fits.")
        }
        (false, Strongest::Subtype) => format!("{becomes} without an adapter."),
        (false, Strongest::Strict) => format!("{becomes}; an adapter may come between."),
        (false, Strongest::Loose) => {
            format!(
                "{becomes} if what it leads to has what {to} calls and its category fits; an adapter may come between."
            )
        }
    }
}
