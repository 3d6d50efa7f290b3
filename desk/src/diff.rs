//! `desk diff`: what a new version of a sheet gives and takes, type by type. Types and methods are taken by number.

use crate::commands::{Desk, Stop};
use crate::described::signature;
use crate::documents::named;
use crate::explain::refused;
use crate::input;
use crate::json::Json;
use crate::names::{Kind, Names};
use crate::paint::{Paint, Tone};
use crate::powers::{can, path, powers};
use crate::reach::{Power, TypePowers};
use crate::reasons::Says;
use crate::summary::kind;
use crate::words::{listed, plural};
use pilgonca::{MethodInfo, Pairs, Refusal, Representation, Sheet, Type, TypeInfo};
use std::path::Path;

const HEAD: &str = "\
What the new sheet gives (+) and takes (-), and what else is changed (~). Types and methods are taken by number.
";

impl Desk {
    pub fn diff(&self, old: &Path, new: &Path) -> Result<String, Stop> {
        let (old_bytes, new_bytes) = (input::read(old)?, input::read(new)?);
        let old = self.accepted_unnamed(old, &old_bytes)?;
        let new = self.accepted_unnamed(new, &new_bytes)?;
        // a name is of something that either has
        self.names
            .fit(&new)
            .or_else(|why| self.names.fit(&old).map_err(|_| why))?;
        let old = Side::of(old, &old_bytes).map_err(refused)?;
        let new = Side::of(new, &new_bytes).map_err(refused)?;
        let differ = Differ {
            old,
            new,
            names: &self.names,
            paint: self.paints.out,
        };
        let sections = differ.sections();
        let printed = self.shown(|| differ.document(&sections), || differ.told(&sections));
        match sections.is_empty() {
            true => Ok(printed),
            false => Err(Stop::no(printed)),
        }
    }
}

/// One of the two sheets.
struct Side {
    sheet: Sheet,
    types: Vec<TypeInfo>,
    pairs: Pairs,
    powers: Vec<TypePowers>,
}

impl Side {
    fn of(sheet: Sheet, text: &[u8]) -> Result<Side, Refusal> {
        Ok(Side {
            types: sheet.types().collect(),
            pairs: sheet.pairs(),
            powers: powers(text)?,
            sheet,
        })
    }

    /// What the holder of a type can do with a method.
    fn power(&self, type_: Type, method: usize) -> Power {
        let powers = self.powers.iter().find(|one| one.type_ == type_);
        let power = powers.and_then(|one| one.methods.get(method));
        power.cloned().unwrap_or(Power::Never)
    }

    /// Nothing where that is not settled.
    fn can_be_had(&self, type_: Type) -> Option<bool> {
        let powers = self.powers.iter().find(|one| one.type_ == type_);
        let had = powers.is_some_and(|one| !one.classes.is_empty());
        (had || !powers.is_some_and(|one| one.open)).then_some(had)
    }

    /// Whether a reference of a type can become another, by the types (X1).
    fn becomes(&self, from: Type, to: Type) -> bool {
        let info = self.types.get(to.0 as usize);
        let answers = self.pairs.at(to, from);
        info.is_some_and(|info| {
            let is_ref = info.representation == Representation::Ref;
            is_ref
                && if info.own {
                    answers.free
                } else {
                    answers.loose
                }
        })
    }
}

/// A change, by what it does to those who hold references.
#[derive(Clone, Copy, PartialEq, Eq)]
enum Change {
    Gives,
    Takes,
    Other,
}

impl Change {
    fn word(self) -> &'static str {
        match self {
            Change::Gives => "gives",
            Change::Takes => "takes",
            Change::Other => "other",
        }
    }
}

/// The changes of one type, or of the whole sheet.
struct Section {
    type_: Option<Type>,
    changes: Vec<(Change, String)>,
}

/// How many changes give, take, and do neither.
fn counted(sections: &[Section]) -> [usize; 3] {
    [Change::Gives, Change::Takes, Change::Other].map(|what| {
        let changes = sections.iter().flat_map(|section| &section.changes);
        changes.filter(|(change, _)| *change == what).count()
    })
}

struct Differ<'a> {
    old: Side,
    new: Side,
    names: &'a Names,
    paint: Paint,
}

impl Differ<'_> {
    /// All that is changed.
    fn sections(&self) -> Vec<Section> {
        let mut sections = vec![Section {
            type_: None,
            changes: self.counts(),
        }];
        for number in 0..self.old.types.len().max(self.new.types.len()) {
            sections.push(Section {
                type_: Some(Type(number as i64)),
                changes: self.type_(number),
            });
        }
        sections.retain(|section| !section.changes.is_empty());
        sections
    }

    fn told(&self, sections: &[Section]) -> String {
        if sections.is_empty() {
            return "The two sheets say the same.\n".to_string();
        }
        let [gives, takes, others] = counted(sections);
        let end = format!("\nIn all: gives {gives}, takes {takes}, changes {others} besides.\n");
        let sections = sections.iter().map(|section| self.section(section));
        HEAD.to_string() + &sections.collect::<String>() + &end
    }

    fn document(&self, sections: &[Section]) -> Json {
        let changes = sections.iter().flat_map(|Section { type_, changes }| {
            let of = type_.map(|one| named(one, self.names));
            let of = Json::from(of).to_string();
            changes.iter().map(move |(change, words)| {
                Json::Object(vec![
                    ("type", Json::Written(of.clone())),
                    ("change", change.word().into()),
                    ("words", words.as_str().into()),
                ])
            })
        });
        let [gives, takes, others] = counted(sections);
        Json::Object(vec![
            ("alike", sections.is_empty().into()),
            ("gives", gives.into()),
            ("takes", takes.into()),
            ("others", others.into()),
            ("changes", Json::list(changes)),
        ])
    }

    fn section(&self, Section { type_, changes }: &Section) -> String {
        let lines = changes.iter().map(|(change, words)| {
            let mark = match change {
                Change::Gives => self.paint.of(Tone::Good, "+"),
                Change::Takes => self.paint.of(Tone::Bad, "-"),
                Change::Other => "~".to_string(),
            };
            format!("  {mark} {words}\n")
        });
        let title = type_.map_or(String::new(), |one| {
            let title = self.names.words(Kind::Type, one.0);
            format!("{}\n", self.paint.of(Tone::Strong, &title))
        });
        format!("\n{title}{}", lines.collect::<String>())
    }

    fn counts(&self) -> Vec<(Change, String)> {
        let (old, new) = (&self.old.sheet, &self.new.sheet);
        let counts = [
            ("subject", old.subjects(), new.subjects()),
            ("method", old.methods(), new.methods()),
            ("category", old.categories(), new.categories()),
            ("type", old.sheet_types(), new.sheet_types()),
        ];
        let mut changes = Vec::new();
        for (what, old, new) in counts {
            if old != new {
                let words = format!("{} before, {new} now", plural(old, what));
                changes.push((Change::Other, words));
            }
        }
        for category in 1..=old.categories().min(new.categories()) {
            let (before, now) = (old.broader(category), new.broader(category));
            if before != now {
                let category = self.names.words(Kind::Category, category as i64);
                let [before, now] = [before, now].map(|broader| self.categories(&broader));
                changes.push((
                    Change::Other,
                    format!("{category}: under {before} before, under {now} now"),
                ));
            }
        }
        changes
    }

    fn categories(&self, numbers: &[usize]) -> String {
        listed(numbers.iter().map(|number| self.category(*number)))
    }

    fn category(&self, number: usize) -> String {
        match number {
            0 => "none".to_string(),
            _ => self.names.numbered(Kind::Category, number as i64),
        }
    }

    /// All about one type.
    fn type_(&self, number: usize) -> Vec<(Change, String)> {
        let type_ = Type(number as i64);
        match (self.old.types.get(number), self.new.types.get(number)) {
            (Some(old), Some(new)) => {
                let mut changes = self.looks(old, new);
                changes.extend(self.lines(old, new));
                changes.extend(self.gained(type_));
                changes.extend(self.becoming(type_));
                changes
            }
            (None, Some(new)) => {
                let mut changes = vec![(Change::Other, format!("new: {}", kind(new)))];
                changes.extend(self.gained(type_));
                changes.extend(self.becoming(type_));
                changes
            }
            (Some(old), None) => {
                let mut changes = vec![(Change::Other, format!("gone; it was {}", kind(old)))];
                changes.extend(self.gained(type_));
                changes.extend(self.becoming(type_));
                changes
            }
            (None, None) => Vec::new(),
        }
    }

    /// What it is, and its category.
    fn looks(&self, old: &TypeInfo, new: &TypeInfo) -> Vec<(Change, String)> {
        let mut changes = Vec::new();
        if kind(old) != kind(new) {
            let words = format!("{} before, {} now", kind(old), kind(new));
            changes.push((Change::Other, words));
        }
        if old.category != new.category {
            let [old, new] = [old, new].map(|info| self.category(info.category));
            changes.push((Change::Other, format!("category {old} before, {new} now")));
        }
        changes
    }

    /// What its lines say of methods.
    fn lines(&self, old: &TypeInfo, new: &TypeInfo) -> Vec<(Change, String)> {
        let mut changes = Vec::new();
        for method in 0..old.methods.len().max(new.methods.len()) {
            let name = self.names.words(Kind::Method, method as i64);
            let [old, new] = [old, new].map(|info| info.methods.get(method));
            if old != new {
                let [old, new] = [old, new].map(|one| self.line(one));
                changes.push((Change::Other, format!("{name}: {old} before, {new} now")));
            }
        }
        changes
    }

    fn line(&self, method: Option<&MethodInfo>) -> String {
        let Some(method) = method else {
            return "not spoken of".to_string();
        };
        let word = Says::of(method).word();
        let Some(signature) = signature(method) else {
            return word.to_string();
        };
        let type_ = |one: &Type| self.names.numbered(Kind::Type, one.0);
        let arguments = match &signature.arguments[..] {
            [] => "takes nothing".to_string(),
            types => format!("takes {}", listed(types.iter().map(type_))),
        };
        let answer = signature.answer.as_ref();
        let answer = answer.map_or("nothing".to_string(), type_);
        format!("{word} ({arguments}, answers {answer})")
    }

    /// What its holder can do, and could.
    fn gained(&self, type_: Type) -> Vec<(Change, String)> {
        let mut changes = Vec::new();
        match (self.old.can_be_had(type_), self.new.can_be_had(type_)) {
            (Some(false), Some(true)) => changes.push((
                Change::Gives,
                "a reference of this type can be had now".to_string(),
            )),
            (Some(true), Some(false)) => {
                let words = "no reference of this type can be had any more".to_string();
                changes.push((Change::Takes, words));
            }
            _ => {}
        }
        for method in 0..self.old.sheet.methods().max(self.new.sheet.methods()) {
            let (old, new) = (self.old.power(type_, method), self.new.power(type_, method));
            let (before, now) = (self.can(method, &old), self.can(method, &new));
            let change = match level(&new).cmp(&level(&old)) {
                std::cmp::Ordering::Greater => Change::Gives,
                std::cmp::Ordering::Less => Change::Takes,
                std::cmp::Ordering::Equal if old == new => continue,
                std::cmp::Ordering::Equal => Change::Other,
            };
            changes.push((change, format!("its holder {now}; before: {before}")));
        }
        changes
    }

    fn can(&self, method: usize, power: &Power) -> String {
        let name = self.names.short(Kind::Method, method as i64);
        match power {
            Power::Now => format!("can call {name}"),
            Power::Alone(types) => {
                format!(
                    "can come to call {name} alone (as {})",
                    path(types, self.names)
                )
            }
            Power::Never => format!("can never call {name}"),
            _ => format!("may come to call {}", can(method, power, self.names)),
        }
    }

    /// What a reference of this type can become.
    fn becoming(&self, from: Type) -> Vec<(Change, String)> {
        let mut changes = Vec::new();
        for to in 0..self.old.types.len().max(self.new.types.len()) {
            let to = Type(to as i64);
            let name = self.names.numbered(Kind::Type, to.0);
            let owner = |side: &Side| {
                let own = side.types.get(to.0 as usize).is_some_and(|info| info.own);
                if own {
                    ", for the owner"
                } else {
                    ""
                }
            };
            match (self.old.becomes(from, to), self.new.becomes(from, to)) {
                (false, true) => {
                    changes.push((
                        Change::Gives,
                        format!("can become {name} now{}", owner(&self.new)),
                    ));
                }
                (true, false) => {
                    changes.push((
                        Change::Takes,
                        format!("can no longer become {name}{}", owner(&self.old)),
                    ));
                }
                _ => {}
            }
        }
        changes
    }
}

/// How much a power is.
fn level(power: &Power) -> usize {
    match power {
        Power::Never => 0,
        Power::NoRoom(_) | Power::Unsettled(_) => 1,
        Power::Alone(_) | Power::Once(..) => 2,
        Power::Now => 3,
    }
}
