//! JSON as it is written.

use crate::names::{Kind, Names};
use std::fmt::{self, Display, Formatter, Write};

/// A JSON value.
pub enum Json {
    Null,
    Bool(bool),
    Number(i64),
    Text(String),
    List(Vec<Json>),
    Object(Vec<(&'static str, Json)>),
    /// A value that is written already.
    Written(String),
}

impl Json {
    pub fn list<Item: Into<Json>>(items: impl IntoIterator<Item = Item>) -> Json {
        Json::List(items.into_iter().map(Into::into).collect())
    }

    /// Something by its number, with its name if it has one.
    pub fn named(kind: Kind, number: i64, names: &Names) -> Json {
        let index = usize::try_from(number).ok();
        let name = index.and_then(|index| names.name(kind, index));
        Json::Object(vec![("number", number.into()), ("name", name.into())])
    }
}

impl From<bool> for Json {
    fn from(value: bool) -> Json {
        Json::Bool(value)
    }
}

impl From<i64> for Json {
    fn from(value: i64) -> Json {
        Json::Number(value)
    }
}

impl From<usize> for Json {
    fn from(value: usize) -> Json {
        Json::Number(value as i64)
    }
}

impl From<u8> for Json {
    fn from(value: u8) -> Json {
        Json::Number(value.into())
    }
}

impl From<&str> for Json {
    fn from(value: &str) -> Json {
        Json::Text(value.to_string())
    }
}

impl From<String> for Json {
    fn from(value: String) -> Json {
        Json::Text(value)
    }
}

impl<Value: Into<Json>> From<Option<Value>> for Json {
    fn from(value: Option<Value>) -> Json {
        value.map_or(Json::Null, Into::into)
    }
}

impl Display for Json {
    fn fmt(&self, out: &mut Formatter) -> fmt::Result {
        match self {
            Json::Null => out.write_str("null"),
            Json::Bool(value) => value.fmt(out),
            Json::Number(value) => value.fmt(out),
            Json::Text(text) => quoted(out, text),
            Json::List(items) => row(out, "[", "]", items.iter(), |out, item| item.fmt(out)),
            Json::Object(members) => row(out, "{", "}", members.iter(), |out, (name, value)| {
                quoted(out, name)?;
                write!(out, ":{value}")
            }),
            Json::Written(text) => out.write_str(text),
        }
    }
}

fn row<Item>(
    out: &mut Formatter,
    open: &str,
    close: &str,
    items: impl Iterator<Item = Item>,
    one: impl Fn(&mut Formatter, Item) -> fmt::Result,
) -> fmt::Result {
    out.write_str(open)?;
    for (index, item) in items.enumerate() {
        if index > 0 {
            out.write_str(",")?;
        }
        one(out, item)?;
    }
    out.write_str(close)
}

fn quoted(out: &mut Formatter, text: &str) -> fmt::Result {
    out.write_char('"')?;
    for character in text.chars() {
        match character {
            '"' | '\\' => write!(out, "\\{character}")?,
            '\0'..='\x1f' => write!(out, "\\u{:04x}", u32::from(character))?,
            _ => out.write_char(character)?,
        }
    }
    out.write_char('"')
}
