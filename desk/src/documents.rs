//! What the commands about sheets find, as JSON. desk/schema/desk.json describes it.

#[cfg(feature = "visits")]
pub mod visits;

use crate::args::Args;
use crate::commands::Stop;
use crate::described::signature;
use crate::doors::Held;
use crate::json::Json;
use crate::names::{Kind, Names};
use crate::problem::{At, Problem};
use crate::reasons::Says;
use crate::relation::{becomes, Compared, Strongest};
use pilgonca::{MethodInfo, Representation, Sheet, Signature, Type, TypeInfo};

/// The whole document of a command that is over.
pub fn document(args: &Args, stop: &Stop, status: u8) -> Json {
    let result = match stop.printed.is_empty() {
        true => Json::Null,
        false => Json::Written(stop.printed.clone()),
    };
    Json::Object(vec![
        ("desk", env!("CARGO_PKG_VERSION").into()),
        ("command", args.name.as_str().into()),
        ("status", status.into()),
        ("result", result),
        ("problem", stop.problem.as_ref().map(problem).into()),
    ])
}

fn problem(problem: &Problem) -> Json {
    Json::Object(vec![
        ("words", problem.words.as_str().into()),
        ("at", problem.at.as_deref().map(at).into()),
        ("note", problem.note.as_deref().into()),
    ])
}

fn at(at: &At) -> Json {
    Json::Object(vec![
        ("file", at.file.as_str().into()),
        ("line", at.line.into()),
        ("column", at.column.into()),
        ("refused", at.refused.into()),
        ("wrong", at.wrong.as_str().into()),
        ("right", at.right.as_str().into()),
    ])
}

/// A type by its number and name.
pub fn named(number: Type, names: &Names) -> Json {
    Json::named(Kind::Type, number.0, names)
}

/// A sheet that is accepted.
pub fn check(sheet: &Sheet, names: &Names) -> Json {
    let all = |kind: Kind, count: usize| {
        Json::list((0..count).map(|number| Json::named(kind, number as i64, names)))
    };
    let category = |number: usize| {
        Json::Object(vec![
            ("number", number.into()),
            ("name", names.name(Kind::Category, number).into()),
            ("under", Json::list(sheet.broader(number))),
        ])
    };
    Json::Object(vec![
        ("subjects", all(Kind::Subject, sheet.subjects())),
        ("methods", all(Kind::Method, sheet.methods())),
        (
            "categories",
            Json::list((1..=sheet.categories()).map(category)),
        ),
        (
            "types",
            Json::list(sheet.types().map(|info| type_(&info, names))),
        ),
    ])
}

fn type_(info: &TypeInfo, names: &Names) -> Json {
    let representation = match info.representation {
        Representation::Ref => "ref",
        Representation::W32 => "w32",
        Representation::W64 => "w64",
    };
    let name = names.name(Kind::Type, info.number.0 as usize);
    Json::Object(vec![
        ("number", info.number.0.into()),
        ("name", name.into()),
        ("representation", representation.into()),
        ("category", info.category.into()),
        ("own", info.own.into()),
        ("class", info.is_class().into()),
        ("methods", Json::list(info.methods.iter().map(method))),
    ])
}

fn method(method: &MethodInfo) -> Json {
    let types = |signature: &Signature| {
        let arguments = signature.arguments.iter();
        Json::Object(vec![
            ("arguments", Json::list(arguments.map(|one| one.0))),
            ("answer", signature.answer.map(|one| one.0).into()),
        ])
    };
    Json::Object(vec![
        ("says", Says::of(method).word().into()),
        ("signature", signature(method).map(types).into()),
    ])
}

/// Tiny sheets, each with its number: the one type of each, and its text.
pub fn tiny(sheets: &[(usize, Vec<u8>)]) -> Result<Json, Stop> {
    let one = |(number, text): &(usize, Vec<u8>)| {
        let sheet = Sheet::read(text).map_err(|why| Stop::from(why.to_string()))?;
        let types = sheet.types().map(|info| type_(&info, &Names::default()));
        Ok(Json::Object(vec![
            ("number", (*number).into()),
            ("types", Json::list(types)),
            ("text", String::from_utf8_lossy(text).into_owned().into()),
        ]))
    };
    let sheets: Result<Vec<Json>, Stop> = sheets.iter().map(one).collect();
    Ok(Json::Object(vec![("sheets", Json::List(sheets?))]))
}

/// Two lists of times, held against each other.
pub fn doors(held: &Held) -> Json {
    let list = |index: usize| {
        let list = &held.lists[index];
        let unpaired = held.unpaired[index].iter().map(|one| {
            let entry = &list.read.entries[one.number];
            Json::Object(vec![
                ("number", one.number.into()),
                ("line", entry.line.into()),
                ("time", Json::Number(entry.time as i64)),
                ("near", one.near.into()),
            ])
        });
        let column = list.read.column.as_ref().map(|column| {
            let name = column.name.as_deref();
            Json::Object(vec![
                ("number", column.number.into()),
                ("name", name.into()),
            ])
        });
        Json::Object(vec![
            ("file", list.file.as_str().into()),
            ("column", column.into()),
            ("times", list.read.entries.len().into()),
            ("unpaired", Json::list(unpaired)),
        ])
    };
    Json::Object(vec![
        ("within", Json::Number(held.within as i64)),
        ("pairs", held.counts.pairs.into()),
        ("unpaired_marks", held.counts.unpaired_marks.into()),
        ("unpaired_arrivals", held.counts.unpaired_arrivals.into()),
        ("marks", list(0)),
        ("arrivals", list(1)),
    ])
}

/// Every pair of a sheet's types.
pub fn pairs(sheet: &Sheet, names: &Names) -> Json {
    let pairs = sheet.pairs();
    let pair = |to: &TypeInfo, from: &TypeInfo| {
        let answers = pairs.at(to.number, from.number);
        Json::Object(vec![
            ("from", from.number.0.into()),
            ("to", to.number.0.into()),
            ("becomes", becomes(to, from, &answers).into()),
            ("strongest", Strongest::of(&answers).name().into()),
            ("subtype", answers.subtype.into()),
            ("strict", answers.strict.into()),
            ("loose", answers.loose.into()),
            ("free", answers.free.into()),
        ])
    };
    let types: Vec<TypeInfo> = sheet.types().collect();
    let every = types
        .iter()
        .flat_map(|to| types.iter().map(move |from| pair(to, from)));
    Json::Object(vec![
        (
            "types",
            Json::list(types.iter().map(|info| named(info.number, names))),
        ),
        ("pairs", Json::list(every)),
    ])
}

/// A comparison.
pub fn compare(compared: &Compared, names: &Names) -> Json {
    let relations = compared.rows.iter().map(|row| {
        Json::Object(vec![
            ("relation", row.name.into()),
            ("holds", row.holds.into()),
            ("words", row.words.as_str().into()),
        ])
    });
    Json::Object(vec![
        ("from", named(compared.from, names)),
        ("to", named(compared.to, names)),
        ("becomes", compared.becomes.into()),
        ("relations", Json::list(relations)),
        ("words", compared.conclusion.as_str().into()),
    ])
}
