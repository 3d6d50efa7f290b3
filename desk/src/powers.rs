//! `desk powers`: what a sheet lets the holder of a reference do, by the type that it holds it as.

use crate::commands::{Desk, Stop};
use crate::documents::visits;
use crate::explain::refused;
use crate::input;
use crate::names::{Kind, Names};
use crate::paint::{Paint, Tone};
use crate::reach::{of_sheet, Power, TypePowers};
use crate::words::{listed, under};
use pilgonca::{Refusal, Sheet, Type, Visit};
use std::path::Path;

const HEAD: &str = "\
What the holder of a reference can do, by its type. The holder does not own the object, unless the type
has own: an owner can do more, where it can take its object back as a type with own.

  can call          the type lets its holder call the method
  can come to call  its holder can hand the reference to itself as the types named, and then call it, if no
                    type hid the method before
  not settled       no way was found in so many steps, or there is no room for further ones
  never             whatever such a reference leads to, and whatever type it is handed on as
";

/// The same where nobody else is there.
const LONE: &str =
    "The sheet has one subject: every holder owns the object, and can take it back.\n";

impl Desk {
    pub fn powers(&self, path: &Path) -> Result<String, Stop> {
        let bytes = input::read(path)?;
        let sheet = self.accepted(path, &bytes)?;
        let powers = powers(&bytes).map_err(refused)?;
        Ok(self.shown(
            || visits::powers(&sheet, &powers, &self.names),
            || all_told(&sheet, &powers, &self.names, self.paints.out),
        ))
    }
}

fn all_told(sheet: &Sheet, powers: &[TypePowers], names: &Names, paint: Paint) -> String {
    let lone = if sheet.subjects() == 1 { LONE } else { "" };
    let types = powers.iter().map(|one| told(sheet, one, names, paint));
    let types: String = types.collect();
    let none = match types.is_empty() {
        true => "\nThe sheet has no ref types.\n",
        false => "",
    };
    format!("{HEAD}{lone}{types}{none}")
}

/// The powers of a text that is accepted.
pub fn powers(text: &[u8]) -> Result<Vec<TypePowers>, Refusal> {
    let visit = Visit::load(text).map_err(|refused| refused.refusal)?;
    of_sheet(&visit)
}

fn told(sheet: &Sheet, powers: &TypePowers, names: &Names, paint: Paint) -> String {
    let own = sheet.type_info(powers.type_).is_some_and(|info| info.own);
    let own = if own {
        ", own: only the owner holds it"
    } else {
        ""
    };
    let title = names.words(Kind::Type, powers.type_.0) + own;
    let head = format!("\n{}\n", paint.of(Tone::Strong, &title));
    if powers.classes.is_empty() {
        let had = match powers.open {
            true => "whether a reference of this type can be had is not settled",
            false => "no reference of this type can be had",
        };
        return format!("{head}  {had}\n");
    }
    let of = |test: fn(&Power) -> bool| {
        let methods = powers.methods.iter().enumerate();
        let methods = methods.filter(move |(_, power)| test(power));
        methods.map(|(number, power)| can(number, power, names))
    };
    let mut text = head;
    let classes = powers.classes.iter();
    let classes = listed(classes.map(|class| names.numbered(Kind::Type, class.0)));
    text += &under("  leads to objects of  ", &classes);
    text += &row("  can call             ", of(|power| *power == Power::Now));
    text += &row(
        "  can come to call     ",
        of(|power| matches!(power, Power::Alone(_))),
    );
    let open = |power: &Power| {
        matches!(
            power,
            Power::Unsettled(_) | Power::NoRoom(_) | Power::Once(..)
        )
    };
    if powers.methods.iter().any(open) {
        text += &row("  not settled          ", of(open));
    }
    text + &row(
        "  never                ",
        of(|power| *power == Power::Never),
    )
}

fn row(head: &str, words: impl Iterator<Item = String>) -> String {
    let words: Vec<String> = words.collect();
    match words.is_empty() {
        true => format!("{head}nothing\n"),
        false => under(head, &words.join(", ")),
    }
}

/// A method, and how its holder comes to call it.
pub fn can(method: usize, power: &Power, names: &Names) -> String {
    let method = names.short(Kind::Method, method as i64);
    match power {
        Power::Now | Power::Never => method,
        Power::Alone(types) | Power::Once(types, _) => {
            format!("{method} (as {})", path(types, names))
        }
        Power::NoRoom(refusal) => format!("{method} ({refusal})"),
        Power::Unsettled(steps) => format!("{method} (not in {steps} steps)"),
    }
}

/// The types of a way, in turn.
pub fn path(types: &[Type], names: &Names) -> String {
    let types = types.iter();
    let types = types.map(|one| names.numbered(Kind::Type, one.0));
    types.collect::<Vec<String>>().join(" and then as ")
}
