//! One line of a sheet against the line that is due: the first thing that is wrong with it, by the order of tests of the reader (S5).

use crate::due::{Due, Walk, KEYS};
use crate::names::Names;
use crate::reader::{Flaw, Number, Reader};
use pilgonca::raw::MAX_ARGUMENTS;

/// A flaw with the number that it is refused with.
#[derive(Clone, PartialEq, Eq, Debug)]
pub struct Fault {
    pub number: u8,
    pub flaw: Flaw,
}

/// What is wrong with a line; none if it is the line due.
pub fn fault(walk: &Walk, line: &[u8], names: &Names) -> Option<Fault> {
    let numbers = match form(walk.due, line, names) {
        Ok(numbers) => numbers,
        Err(flaw) => return Some(Fault { number: 1, flaw }),
    };
    let outside = numbers.iter().find_map(|number| range(walk, number));
    let late = || numbers.iter().find_map(|number| order(walk.due, number));
    let fault = |number, flaw| Some(Fault { number, flaw });
    match outside {
        Some(flaw) => fault(2, flaw),
        None => late().and_then(|flaw| fault(3, flaw)),
    }
}

/// The numbers of a line that has the form due, in order.
fn form(due: Due, line: &[u8], names: &Names) -> Result<Vec<Number>, Flaw> {
    let mut reader = Reader::new(line);
    if !reader.take(due.key()) {
        return Err(other_line(due, line, names));
    }
    match due {
        Due::Representation(_) => one_of(&mut reader, &["ref", "w32", "w64"]),
        Due::Own(_) => one_of(&mut reader, &["yes", "no"]),
        Due::End => one_of(&mut reader, &["sheet"]),
        Due::Under(_) => two_at_most(&mut reader),
        Due::Method(..) => method(&mut reader),
        _ => {
            let number = reader.number()?;
            reader.end("the number")?;
            Ok(vec![number])
        }
    }
}

/// The line begins with something else than its key.
fn other_line(due: Due, line: &[u8], names: &Names) -> Flaw {
    let title = due.title(names);
    let reader = Reader::new(line);
    let mut keys = KEYS.into_iter();
    let (length, wrong) = match keys.find(|key| line.starts_with(key.as_bytes())) {
        Some("m=") if matches!(due, Due::Type(_) | Due::End) => (
            line.len(),
            format!(
                "the type above has an m= line for each method already, and the {title} is due"
            ),
        ),
        Some(key) => (
            line.len(),
            format!("this is a line with {key}, where the {title} is due"),
        ),
        None if line.is_empty() => (0, format!("the line is empty, where the {title} is due")),
        None if line[0] == b' ' => (1, format!("a space stands in front of the {title}")),
        None => {
            let key = reader.count(|byte| byte != b'=') + 1;
            (key, format!("this is not the {title}, which is due here"))
        }
    };
    reader.flaw(length, wrong)
}

fn one_of(reader: &mut Reader, words: &[&str]) -> Result<Vec<Number>, Flaw> {
    let rest = reader.rest();
    let length = reader.count(|byte| byte.is_ascii_alphanumeric());
    let Some(word) = words.iter().find(|word| rest[..length] == *word.as_bytes()) else {
        return Err(no_word(reader, length));
    };
    reader.take(word);
    reader.end(word)?;
    Ok(Vec::new())
}

/// The next bytes are none of the words that are due.
fn no_word(reader: &Reader, length: usize) -> Flaw {
    let word = String::from_utf8_lossy(&reader.rest()[..length]);
    let wrong = match length {
        0 => "no word stands here, behind the =".to_string(),
        _ => format!("{word} is no word of this line"),
    };
    reader.flaw(length.max(1), wrong)
}

/// One number, or two with a comma between (S24).
fn two_at_most(reader: &mut Reader) -> Result<Vec<Number>, Flaw> {
    let mut numbers = vec![reader.number()?];
    if reader.take(",") {
        numbers.push(reader.number()?);
    }
    if reader.rest().starts_with(b",") {
        let length = reader.rest().len();
        return Err(reader.flaw(length, "a third broader category stands here"));
    }
    reader.end("the last number")?;
    Ok(numbers)
}

/// What stands behind `m=` (S26).
fn method(reader: &mut Reader) -> Result<Vec<Number>, Flaw> {
    let length = reader.count(|byte| byte.is_ascii_alphanumeric());
    let word = &reader.rest()[..length];
    match word {
        b"denied" | b"unavail" => {
            reader.skip(length);
            if reader.rest().starts_with(b"(") {
                let length = reader.rest().len();
                let word = String::from_utf8_lossy(word);
                let wrong = format!("a signature stands behind {word}");
                return Err(reader.flaw(length, wrong));
            }
            reader.end("the word")?;
            Ok(Vec::new())
        }
        b"avail" | b"optional" => {
            reader.skip(length);
            signature(reader)
        }
        _ => Err(no_word(reader, length)),
    }
}

fn signature(reader: &mut Reader) -> Result<Vec<Number>, Flaw> {
    if !reader.take("(") {
        return Err(reader.flaw(1, "the signature is missing: no ( stands here"));
    }
    let mut numbers = Vec::new();
    if !reader.take(")") {
        numbers.push(reader.number()?);
        while numbers.len() < MAX_ARGUMENTS && reader.take(",") {
            numbers.push(reader.number()?);
        }
        closing(reader)?;
    }
    if !reader.take("-") {
        numbers.push(reader.number().map_err(|flaw| answer(reader, flaw))?);
    }
    reader.end("the answer")?;
    Ok(numbers)
}

fn closing(reader: &mut Reader) -> Result<(), Flaw> {
    if reader.take(")") {
        return Ok(());
    }
    let length = reader.count(|byte| byte != b')');
    let wrong = match reader.rest().first() {
        Some(b',') => "one argument too many stands here",
        _ => "no ) stands here, behind the arguments",
    };
    Err(reader.flaw(length, wrong))
}

/// Where the answer is missing altogether, `-` may be what was meant.
fn answer(reader: &Reader, flaw: Flaw) -> Flaw {
    match reader.rest() {
        [] => reader.flaw(0, "the answer is missing behind the arguments"),
        _ => flaw,
    }
}

/// What a number that has a range is of.
enum Ranged {
    Form,
    Count(&'static str),
    Number(&'static str),
    /// The number that is next in turn.
    Turn(usize),
}

impl Ranged {
    /// Said of a value outside the range, which ends with `last`.
    fn wrong(&self, value: u64, last: u64) -> String {
        let value = match value {
            u64::MAX => "a number past 64 bits".to_string(),
            _ => value.to_string(),
        };
        let many = match value.parse::<u64>() {
            Ok(value) if value <= last => "few",
            _ => "many",
        };
        match self {
            Ranged::Form => format!("there is no form {value} of a sheet"),
            Ranged::Count(what) => format!("{value} is too {many} {what}"),
            Ranged::Number(what) => format!("{value} names no {what} of this sheet"),
            Ranged::Turn(due) => format!("type {value} begins here, and type {due} is next"),
        }
    }
}

/// A number outside its range (S1, S12, S29, S30).
fn range(walk: &Walk, number: &Number) -> Option<Flaw> {
    let last_type = walk.types.saturating_sub(1);
    let (first, last, what) = match walk.due {
        Due::Guide => (1, 1, Ranged::Form),
        Due::Subjects => (1, 16, Ranged::Count("subjects")),
        Due::Methods => (1, 16, Ranged::Count("methods")),
        Due::Categories => (0, 31, Ranged::Count("categories")),
        Due::Types => (1, 48, Ranged::Count("types")),
        Due::Under(_) | Due::Category(_) => (0, walk.categories, Ranged::Number("category")),
        Due::Type(own) => (own, own, Ranged::Turn(own)),
        _ => (0, last_type, Ranged::Number("type")),
    };
    if (first as u64..=last as u64).contains(&number.value) {
        return None;
    }
    Some(Flaw {
        mark: number.mark.clone(),
        wrong: what.wrong(number.value, last as u64),
    })
}

/// A broader category that is not below its own (S12).
fn order(due: Due, number: &Number) -> Option<Flaw> {
    let Due::Under(category) = due else {
        return None;
    };
    if number.value < category as u64 {
        return None;
    }
    Some(Flaw {
        mark: number.mark.clone(),
        wrong: match number.value == category as u64 {
            true => format!("category {category} is given here as broader than itself"),
            false => format!(
                "category {} comes behind category {category}, and is given here as broader",
                number.value
            ),
        },
    })
}
