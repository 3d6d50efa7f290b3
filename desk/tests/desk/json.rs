//! JSON as it is read back, and held against a schema: the keywords that desk/schema/desk.json uses, and no others.

use std::collections::BTreeMap;

#[derive(Clone, PartialEq, Debug)]
pub enum Value {
    Null,
    Bool(bool),
    Number(i64),
    Text(String),
    List(Vec<Value>),
    Object(BTreeMap<String, Value>),
}

impl Value {
    /// One document, and nothing behind it but a line's end.
    pub fn read(text: &str) -> Value {
        let mut reader = Reader { rest: text };
        let value = reader.value();
        assert_eq!(reader.rest, "\n", "behind the document");
        value
    }

    pub fn get(&self, name: &str) -> &Value {
        let Value::Object(members) = self else {
            panic!("no object: {self:?}");
        };
        members.get(name).unwrap_or_else(|| panic!("no {name}"))
    }

    pub fn list(&self) -> &[Value] {
        let Value::List(items) = self else {
            panic!("no list: {self:?}");
        };
        items
    }

    pub fn text(&self) -> &str {
        let Value::Text(text) = self else {
            panic!("no text: {self:?}");
        };
        text
    }

    pub fn number(&self) -> i64 {
        let Value::Number(number) = self else {
            panic!("no number: {self:?}");
        };
        *number
    }

    fn kind(&self) -> &'static str {
        match self {
            Value::Null => "null",
            Value::Bool(_) => "boolean",
            Value::Number(_) => "integer",
            Value::Text(_) => "string",
            Value::List(_) => "array",
            Value::Object(_) => "object",
        }
    }
}

struct Reader<'a> {
    rest: &'a str,
}

impl Reader<'_> {
    fn space(&mut self) {
        self.rest = self.rest.trim_start_matches([' ', '\n']);
    }

    fn take(&mut self, word: &str) -> bool {
        let rest = self.rest.strip_prefix(word);
        self.rest = rest.unwrap_or(self.rest);
        rest.is_some()
    }

    fn value(&mut self) -> Value {
        self.space();
        match self.rest.as_bytes()[0] {
            b'{' => Value::Object(self.row('{', '}', Reader::member).into_iter().collect()),
            b'[' => Value::List(self.row('[', ']', Reader::value)),
            b'"' => Value::Text(self.text()),
            b'-' | b'0'..=b'9' => self.number(),
            _ => self.word(),
        }
    }

    fn word(&mut self) -> Value {
        let words = [
            ("null", Value::Null),
            ("true", Value::Bool(true)),
            ("false", Value::Bool(false)),
        ];
        let found = words.into_iter().find(|(word, _)| self.take(word));
        found.unwrap_or_else(|| panic!("{}", self.rest)).1
    }

    fn number(&mut self) -> Value {
        let end = self
            .rest
            .find(|one: char| one != '-' && !one.is_ascii_digit());
        let (digits, rest) = self.rest.split_at(end.unwrap_or(self.rest.len()));
        self.rest = rest;
        Value::Number(digits.parse().expect("a whole number"))
    }

    fn text(&mut self) -> String {
        assert!(self.take("\""), "{}", self.rest);
        let mut text = String::new();
        loop {
            let mut characters = self.rest.chars();
            let first = characters.next().expect("the end of a text");
            self.rest = characters.as_str();
            match first {
                '"' => return text,
                '\\' => text.push(self.escaped()),
                _ => {
                    assert!(!first.is_control(), "{first:?} in a text");
                    text.push(first);
                }
            }
        }
    }

    fn escaped(&mut self) -> char {
        if self.take("u") {
            let (digits, rest) = self.rest.split_at(4);
            self.rest = rest;
            let code = u32::from_str_radix(digits, 16).expect("four digits");
            return char::from_u32(code).expect("a character");
        }
        let found = ['"', '\\']
            .into_iter()
            .find(|one| self.take(&one.to_string()));
        found.unwrap_or_else(|| panic!("{}", self.rest))
    }

    fn row<Item>(&mut self, open: char, close: char, one: fn(&mut Self) -> Item) -> Vec<Item> {
        assert!(self.take(&open.to_string()));
        let mut items = Vec::new();
        self.space();
        while !self.take(&close.to_string()) {
            if !items.is_empty() {
                assert!(self.take(","), "{}", self.rest);
            }
            items.push(one(self));
            self.space();
        }
        items
    }

    fn member(&mut self) -> (String, Value) {
        self.space();
        let name = self.text();
        self.space();
        assert!(self.take(":"), "{}", self.rest);
        (name, self.value())
    }
}

/// Holds values against the definitions of a schema.
pub struct Schema {
    whole: Value,
}

impl Schema {
    pub fn read(text: &str) -> Schema {
        let whole = Value::read(text);
        Schema { whole }
    }

    /// What is wrong with a value, by the definition of this name; nothing where it fits.
    pub fn faults(&self, name: &str, value: &Value) -> Vec<String> {
        let mut faults = Vec::new();
        self.hold(self.named(name), value, name, &mut faults);
        faults
    }

    /// Whether a value is one of all that the schema describes.
    pub fn fits(&self, value: &Value) -> bool {
        let mut faults = Vec::new();
        let any = self.whole.get("anyOf");
        self.keyword("anyOf", any, value, "", &mut faults);
        faults.is_empty()
    }

    fn named(&self, name: &str) -> &Value {
        self.whole.get("$defs").get(name)
    }

    fn hold(&self, rule: &Value, value: &Value, at: &str, faults: &mut Vec<String>) {
        let Value::Object(keywords) = rule else {
            return;
        };
        for (keyword, word) in keywords {
            self.keyword(keyword, word, value, at, faults);
        }
        let open = keywords.get("additionalProperties") != Some(&Value::Bool(false));
        if let (Value::Object(members), false) = (value, open) {
            let known = rule.get("properties");
            let Value::Object(known) = known else {
                return;
            };
            let unknown = members.keys().find(|name| !known.contains_key(*name));
            faults.extend(unknown.map(|name| format!("{at}: {name} is not in the schema")));
        }
    }

    fn keyword(
        &self,
        keyword: &str,
        word: &Value,
        value: &Value,
        at: &str,
        faults: &mut Vec<String>,
    ) {
        let fits = match (keyword, value) {
            ("description" | "additionalProperties", _) => true,
            ("$ref", _) => {
                let name = word.text().strip_prefix("#/$defs/").expect("of this file");
                return self.hold(self.named(name), value, at, faults);
            }
            ("allOf", _) => {
                let rules = word.list().iter();
                return rules.for_each(|rule| self.hold(rule, value, at, faults));
            }
            ("anyOf", _) => word.list().iter().any(|rule| {
                let mut faults = Vec::new();
                self.hold(rule, value, at, &mut faults);
                faults.is_empty()
            }),
            ("type", _) => match word {
                Value::List(kinds) => kinds.iter().any(|kind| kind.text() == value.kind()),
                kind => kind.text() == value.kind(),
            },
            ("const", _) => word == value,
            ("enum", _) => word.list().contains(value),
            ("minimum", Value::Number(number)) => word.number() <= *number,
            ("maximum", Value::Number(number)) => word.number() >= *number,
            ("items", Value::List(items)) => {
                for (index, item) in items.iter().enumerate() {
                    self.hold(word, item, &format!("{at}[{index}]"), faults);
                }
                true
            }
            ("required", Value::Object(members)) => {
                let mut names = word.list().iter();
                names.all(|name| members.contains_key(name.text()))
            }
            ("properties", Value::Object(members)) => {
                for (name, member) in members {
                    if let Value::Object(rules) = word {
                        if let Some(rule) = rules.get(name) {
                            self.hold(rule, member, &format!("{at}.{name}"), faults);
                        }
                    }
                }
                true
            }
            ("minimum" | "maximum" | "items" | "required" | "properties", _) => true,
            _ => panic!("the schema has {keyword}, which this does not know"),
        };
        if !fits {
            faults.push(format!("{at}: {keyword} does not fit {value:?}"));
        }
    }
}
