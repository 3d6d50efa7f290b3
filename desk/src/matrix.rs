//! The pairs of a sheet's types as a table of marks, or as the program `pairs` prints them.

use crate::names::Names;
use crate::paint::{Paint, Tone};
use crate::relation::{Strongest, ALL, HEADING, OWN, OWN_MARK};
use crate::summary::{kind, label};
use pilgonca::{raw, Comparison, Pairs, Sheet, Type, TypeInfo};

/// The strongest relation of every pair: T down, S across.
pub fn matrix(sheet: &Sheet, names: &Names, paint: Paint) -> String {
    let pairs = sheet.pairs();
    let label = |info: &TypeInfo| format!("{} ({})", label(info, names), kind(info));
    let labels: Vec<String> = sheet.types().map(|info| label(&info)).collect();
    let width = labels.iter().map(|label| label.chars().count()).max();
    let width = width.unwrap_or(0);
    let mut text = headings(pairs.types(), width + 5);
    for (info, label) in sheet.types().zip(&labels) {
        let corner = if info.number == Type(0) { "T" } else { " " };
        let row = row(&pairs, &info, paint);
        text += &format!("  {corner} {label:width$} {row}\n");
    }
    text + "\n" + &legend(paint)
}

/// The numbers of the columns, tens above units.
fn headings(count: usize, width: usize) -> String {
    let margin = " ".repeat(width);
    let tens = |number: usize| {
        if number < 10 {
            " ".to_string()
        } else {
            (number / 10).to_string()
        }
    };
    let line = |digit: &dyn Fn(usize) -> String| {
        (0..count)
            .map(|number| format!(" {}", digit(number)))
            .collect::<String>()
    };
    let mut text = format!("{margin} S\n");
    if count > 10 {
        text += &format!("{margin}{}\n", line(&tens));
    }
    text + &format!("{margin}{}\n", line(&|number| (number % 10).to_string()))
}

/// In the row of a type with own, only the owner of the object counts (X1, X2).
fn row(pairs: &Pairs, t: &TypeInfo, paint: Paint) -> String {
    let marks = (0..pairs.types()).map(|s| {
        let strongest = Strongest::of(&pairs.at(t.number, Type(s as i64)));
        let (mark, tone) = match strongest {
            Strongest::None => (strongest.mark(), Tone::Quiet),
            _ if t.own => (OWN_MARK, Tone::Strong),
            Strongest::Subtype => (strongest.mark(), Tone::Good),
            Strongest::Free => (strongest.mark(), Tone::Quiet),
            _ => (strongest.mark(), Tone::Strong),
        };
        format!(" {}", paint.of(tone, &mark.to_string()))
    });
    marks.collect()
}

fn legend(paint: Paint) -> String {
    let line = |mark: char, name: &str, words: &str| format!("  {mark} {name:7}  {words}\n");
    let lines = ALL.map(|one| line(one.mark(), one.name(), one.words()));
    let lines = lines.concat() + &line(OWN_MARK, "own", OWN);
    format!("{HEADING}\n{}", paint.of(Tone::Quiet, &lines))
}

/// What the program `pairs` prints for an input (P1, P16, P17).
pub fn plain(input: &[u8]) -> String {
    if input.len() > raw::MAX_SCRIPT {
        return "no=2\n".to_string();
    }
    match Sheet::read(input) {
        Ok(sheet) => lines(&sheet.pairs()),
        Err(refused) => format!("no={} at={}\n", refused.number(), refused.offset),
    }
}

fn lines(pairs: &Pairs) -> String {
    let line = |t: usize, s: usize| {
        let answers = pairs.at(Type(t as i64), Type(s as i64));
        let Comparison {
            subtype,
            strict,
            loose,
            free,
        } = answers;
        let [subtype, strict, loose, free] = [subtype, strict, loose, free].map(u8::from);
        format!("{t} {s} {subtype} {strict} {loose} {free}\n")
    };
    let types = 0..pairs.types();
    types
        .clone()
        .flat_map(|t| types.clone().map(move |s| line(t, s)))
        .collect()
}
