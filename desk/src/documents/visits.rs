//! What holders can do, and what a new sheet changes of it, as JSON.

use crate::documents::named;
use crate::json::Json;
use crate::names::{Kind, Names};
use crate::reach::{Power, TypePowers};
use pilgonca::{Refusal, Sheet, Type};

/// What a holder can do with a method: the members of an object.
pub fn power(power: &Power, names: &Names) -> Vec<(&'static str, Json)> {
    let (word, types, refusal): (&str, &[Type], Option<Refusal>) = match power {
        Power::Now => ("now", &[], None),
        Power::Alone(types) => ("alone", types, None),
        Power::Once(types, refusal) => ("once", types, Some(*refusal)),
        Power::NoRoom(refusal) => ("no room", &[], Some(*refusal)),
        Power::Unsettled(_) => ("not settled", &[], None),
        Power::Never => ("never", &[], None),
    };
    vec![
        ("power", word.into()),
        ("as", Json::list(types.iter().map(|one| named(*one, names)))),
        ("refused", refusal.map(Refusal::number).into()),
    ]
}

/// The powers of a sheet's types.
pub fn powers(sheet: &Sheet, powers: &[TypePowers], names: &Names) -> Json {
    let of_type = |one: &TypePowers| {
        let own = sheet.type_info(one.type_).is_some_and(|info| info.own);
        let classes = one.classes.iter().map(|class| named(*class, names));
        let methods = one.methods.iter().enumerate().map(|(number, one)| {
            let method = Json::named(Kind::Method, number as i64, names);
            let mut members = vec![("method", method)];
            members.extend(power(one, names));
            Json::Object(members)
        });
        Json::Object(vec![
            ("type", named(one.type_, names)),
            ("own", own.into()),
            ("leads_to", Json::list(classes)),
            ("methods", Json::list(methods)),
        ])
    };
    Json::Object(vec![
        ("subjects", sheet.subjects().into()),
        ("types", Json::list(powers.iter().map(of_type))),
    ])
}
