//! A sheet that is accepted, in short: how many of everything, and what each type shows.

use crate::names::{Kind, Names};
use crate::paint::{Paint, Tone};
use crate::words::{plural, under};
use pilgonca::{MethodInfo, Representation, Sheet, TypeInfo};

/// What a type is, in a word.
pub fn kind(info: &TypeInfo) -> &'static str {
    match info.representation {
        Representation::W32 => "w32",
        Representation::W64 => "w64",
        Representation::Ref if info.own => "own",
        Representation::Ref if info.is_class() => "class",
        Representation::Ref => "ref",
    }
}

/// The counts, the categories, and a line for each type.
pub fn summary(file: &str, sheet: &Sheet, names: &Names, paint: Paint) -> String {
    let accepted = paint.of(Tone::Good, "accepted");
    format!(
        "{file}: {accepted}\n\n{}{}{}\n{}",
        counts(sheet),
        named(sheet, names),
        categories(sheet, names),
        types(sheet, names, paint)
    )
}

fn counts(sheet: &Sheet) -> String {
    let of = |test: fn(&TypeInfo) -> bool| sheet.types().filter(test).count();
    let counts = [
        plural(sheet.subjects(), "subject"),
        plural(sheet.methods(), "method"),
        plural(sheet.categories(), "category"),
        plural(sheet.sheet_types(), "type"),
    ];
    let of_types = [
        plural(of(TypeInfo::is_class), "class"),
        plural(of(|info| info.own), "own type"),
        plural(
            of(|info| info.representation != Representation::Ref),
            "number type",
        ),
    ];
    format!(
        "  {}, of which {}\n",
        counts.join(", "),
        of_types.join(", ")
    )
}

/// A line for each category: what is broader.
fn categories(sheet: &Sheet, names: &Names) -> String {
    let label = |category: &usize| match category {
        0 => "none".to_string(),
        _ => names.label(Kind::Category, *category as i64),
    };
    let line = |category: usize| {
        let broader: Vec<String> = sheet.broader(category).iter().map(label).collect();
        let words = names.words(Kind::Category, category as i64);
        format!("  {words} is under {}\n", broader.join(" and "))
    };
    (1..=sheet.categories()).map(line).collect()
}

/// A line for each type, with a letter for each method.
fn types(sheet: &Sheet, names: &Names, paint: Paint) -> String {
    let labels: Vec<String> = sheet.types().map(|info| label(&info, names)).collect();
    let width = labels.iter().map(|label| label.chars().count()).max();
    let width = width.unwrap_or(0).max(4);
    let columns = |cells: Vec<String>| {
        cells
            .iter()
            .map(|cell| format!("{cell:>3}"))
            .collect::<String>()
    };
    let numbers = (0..sheet.methods()).map(|number| number.to_string());
    let mut text = format!(
        "  {:width$}  kind   cat {}\n",
        "type",
        columns(numbers.collect())
    );
    for (info, label) in sheet.types().zip(&labels) {
        let letters = info.methods.iter().map(|method| letter(method).to_string());
        let letters = columns(letters.collect());
        let line = format!(
            "  {label:width$}  {:5}  {:>3} {letters}",
            kind(&info),
            info.category
        );
        text += &format!("{}\n", line.trim_end());
    }
    let key = "a avail, o optional, d denied, u unavail";
    text + &format!("\n  {}\n", paint.of(Tone::Quiet, key))
}

/// The number of a type with its name, numbers below each other.
pub fn label(info: &TypeInfo, names: &Names) -> String {
    let number = info.number.0;
    let label = names.label(Kind::Type, number);
    if number < 10 {
        format!(" {label}")
    } else {
        label
    }
}

/// The names of what no line has room for.
fn named(sheet: &Sheet, names: &Names) -> String {
    let listed = |kind: Kind, count: usize| {
        let named = (0..count).filter(|number| names.name(kind, *number).is_some());
        let named: Vec<String> = named
            .map(|number| names.label(kind, number as i64))
            .collect();
        match named.is_empty() {
            true => String::new(),
            false => under(&format!("  {kind}s: "), &named.join(", ")),
        }
    };
    listed(Kind::Subject, sheet.subjects()) + &listed(Kind::Method, sheet.methods())
}

fn letter(method: &MethodInfo) -> char {
    match method {
        MethodInfo::Avail(_) => 'a',
        MethodInfo::Optional(_) => 'o',
        MethodInfo::Denied => 'd',
        MethodInfo::Unavail => 'u',
    }
}
