//! Functions as they are declared in three languages, told alike: a slice is a pointer and a length.

use std::collections::BTreeMap;

/// How a parameter passes: a number, or a pointer to elements, which are stored to or only read, of an array whose length may be part of the declaration.
#[derive(Clone, PartialEq, Eq, Debug)]
pub enum Passed {
    Number(Width),
    Pointer {
        element: Width,
        stored: bool,
        length: Option<usize>,
    },
}

#[derive(Clone, Copy, PartialEq, Eq, Debug)]
pub enum Width {
    U8,
    I64,
    U64,
    Usize,
}

/// The parameters in order, by name, and what is returned.
#[derive(Clone, PartialEq, Eq, Debug)]
pub struct Function {
    pub parameters: Vec<(String, Passed)>,
    pub returns: Width,
}

pub type Functions = BTreeMap<String, Function>;

/// The word of a width in Rust and Rattle, or in C.
fn width(word: &str) -> Width {
    match word.trim() {
        "u8" | "uint8_t" => Width::U8,
        "i64" | "int64_t" => Width::I64,
        "u64" | "uint64_t" => Width::U64,
        "usize" | "size_t" => Width::Usize,
        other => panic!("{other:?} is no width"),
    }
}

/// The text between two marks, and what is behind; none where the first is not found.
pub fn between<'a>(text: &'a str, from: &str, to: &str) -> Option<(&'a str, &'a str)> {
    let (_, behind) = text.split_once(from)?;
    let pair = behind.split_once(to);
    Some(pair.unwrap_or_else(|| panic!("no {to:?} behind {from:?}")))
}

/// The parts of a list between commas, the last of which may be empty.
fn parts(list: &str) -> impl Iterator<Item = &str> {
    let parts = list.split(',').map(str::trim);
    parts.filter(|part| !part.is_empty())
}

fn pointer(element: &str, stored: bool, length: Option<usize>) -> Passed {
    Passed::Pointer {
        element: width(element),
        stored,
        length,
    }
}

/// `name: TYPE` of Rust or Rattle. `length` gives the value of an array's length, `alias` the array that another name stands for.
fn rust_parameter(
    text: &str,
    length: &dyn Fn(&str) -> usize,
    alias: &dyn Fn(&str) -> Option<(&'static str, usize)>,
) -> Vec<(String, Passed)> {
    let (name, kind) = text.split_once(':').expect("a name and a type");
    let (name, kind) = (name.trim().to_string(), kind.trim());
    let (stored, target) = if let Some(target) = kind.strip_prefix("&mut ") {
        (true, target)
    } else if let Some(target) = kind.strip_prefix('&') {
        (false, target)
    } else if let Some(target) = kind.strip_prefix("*mut ") {
        return vec![(name, pointer(target, true, None))];
    } else if let Some(target) = kind.strip_prefix("*const ") {
        return vec![(name, pointer(target, false, None))];
    } else {
        return vec![(name, Passed::Number(width(kind)))];
    };
    if let Some((element, count)) = alias(target) {
        return vec![(name, pointer(element, stored, Some(count)))];
    }
    let Some(inside) = target.strip_prefix('[').and_then(|t| t.strip_suffix(']')) else {
        return vec![(name, pointer(target, stored, None))];
    };
    match inside.split_once(';') {
        Some((element, count)) => {
            vec![(name, pointer(element, stored, Some(length(count.trim()))))]
        }
        None => {
            let behind = (format!("{name}_len"), Passed::Number(Width::Usize));
            vec![(name, pointer(inside, stored, None)), behind]
        }
    }
}

/// The functions behind each `mark` of a text in Rust or Rattle.
pub fn rust_functions(
    text: &str,
    mark: &str,
    length: &dyn Fn(&str) -> usize,
    alias: &dyn Fn(&str) -> Option<(&'static str, usize)>,
) -> Functions {
    let mut functions = Functions::new();
    let mut rest = text;
    while let Some((name, behind)) = between(rest, mark, "(") {
        let (list, behind) = behind.split_once(") -> ").expect("a type returned");
        let returned = behind.split([';', '\n']).next().expect("a line");
        let parameters = parts(list).flat_map(|part| rust_parameter(part, length, alias));
        let function = Function {
            parameters: parameters.collect(),
            returns: width(returned),
        };
        let known = functions.insert(name.to_string(), function);
        assert!(known.is_none(), "{name} twice");
        rest = behind;
    }
    functions
}

/// A header without comments: the numbers that it defines, and its other lines.
pub struct Header {
    pub numbers: BTreeMap<String, usize>,
    pub text: String,
}

impl Header {
    pub fn of(text: &str) -> Header {
        let mut bare = String::new();
        let mut rest = text;
        while let Some((_, behind)) = between(rest, "/*", "*/") {
            bare.push_str(rest.split("/*").next().expect("what is in front"));
            rest = behind;
        }
        bare.push_str(rest);
        let defined = bare.lines().filter_map(|line| {
            let (name, value) = line.strip_prefix("#define ")?.split_once(' ')?;
            Some((name.to_string(), value.parse().ok()?))
        });
        let numbers = defined.collect();
        let lines = bare.lines().filter(|line| !line.starts_with('#'));
        let text = lines.map(|line| format!("{line}\n")).collect();
        Header { numbers, text }
    }

    /// `const uint8_t types[PILGONCA_TYPE_BYTES]` and the like. A name that is a word of C++ (class) ends with `_` there.
    fn parameter(&self, text: &str) -> (String, Passed) {
        let plain = text.strip_prefix("const ");
        let stored = plain.is_none();
        let (element, name) = plain.unwrap_or(text).split_once(' ').expect("a type");
        if let Some(name) = name.strip_prefix('*') {
            return (name.to_string(), pointer(element, stored, None));
        }
        let Some((name, length)) = name.strip_suffix(']').and_then(|n| n.split_once('[')) else {
            assert!(stored, "a const number: {text}");
            let name = name.strip_suffix('_').unwrap_or(name);
            return (name.to_string(), Passed::Number(width(element)));
        };
        let length = self.numbers[length];
        (name.to_string(), pointer(element, stored, Some(length)))
    }

    /// Every function that it declares.
    pub fn functions(&self) -> Functions {
        let mut functions = Functions::new();
        for statement in self.text.split_inclusive(");") {
            let Some((head, list)) = statement
                .strip_suffix(");")
                .and_then(|whole| whole.rsplit_once('('))
            else {
                continue;
            };
            let mut words = head.split_whitespace().rev();
            let (name, returned) = (words.next().expect("a name"), words.next());
            let function = Function {
                parameters: parts(list).map(|part| self.parameter(part)).collect(),
                returns: width(returned.expect("what is returned")),
            };
            let known = functions.insert(name.to_string(), function);
            assert!(known.is_none(), "{name} twice");
        }
        functions
    }

    /// The members of a struct, as parameters that are stored to.
    pub fn members(&self, name: &str) -> Vec<(String, Passed)> {
        let found = between(&self.text, &format!("struct {name} {{"), "};");
        let members = found.expect("the struct").0.split(';').map(str::trim);
        let members = members.filter(|member| !member.is_empty());
        members.map(|member| self.parameter(member)).collect()
    }

    /// The constants of an enum, in order.
    pub fn constants(&self, name: &str) -> Vec<(String, usize)> {
        let found = between(&self.text, &format!("enum {name} {{"), "};");
        let constant = |part: &str| {
            let (name, number) = part.split_once(" = ").expect("a number");
            (name.to_string(), number.parse().expect("a number"))
        };
        parts(found.expect("the enum").0).map(constant).collect()
    }
}
