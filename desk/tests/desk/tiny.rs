//! `desk tiny`: all of them as the program prints them, one by its number, what each says, and the same in a document and in a file.

use crate::files::{accepted, failed, read, with_file};
use crate::json::Value;
use pilgonca::raw::TINY_SHEETS;
use reference::table::MethodState;
use reference::tiny::{printed, tables, texts};

#[test]
fn all_are_printed_as_the_program_prints_them() {
    assert_eq!(accepted(&["tiny"]).as_bytes(), printed());
}

#[test]
fn one_is_printed_by_its_number() {
    let sheets = texts();
    assert_eq!(sheets.len(), TINY_SHEETS);
    for (number, text) in sheets.iter().enumerate() {
        assert_eq!(accepted(&["tiny", &number.to_string()]).as_bytes(), text);
    }
    for word in ["+7", "007"] {
        assert_eq!(accepted(&["tiny", word]).as_bytes(), sheets[7]);
    }
    for word in ["130", "-1", "first", "", "1.0", "18446744073709551623"] {
        let error = failed(&["tiny", word], 2);
        let due = format!("desk: {word:?} is no tiny sheet: they have the numbers 0 to 129\n");
        assert_eq!(error, due);
    }
}

/// What is written to a file is what is printed, and can be given to the other commands.
#[test]
fn they_are_written_to_a_file() {
    with_file("tiny.sheet", b"", |path| {
        let said = accepted(&["tiny", "44", "--out", path]);
        assert_eq!(said, format!("{path}: tiny sheet 44\n"));
        assert_eq!(read(path), texts()[44]);
        assert!(accepted(&["check", path]).contains("accepted"));
        let said = accepted(&["tiny", &format!("--out={path}")]);
        assert_eq!(said, format!("{path}: all {TINY_SHEETS} tiny sheets\n"));
        assert_eq!(read(path), printed());
    });
    assert_eq!(accepted(&["tiny", "--out", "-"]).as_bytes(), printed());
}

fn word(method: &MethodState) -> &'static str {
    match method {
        MethodState::Denied => "denied",
        MethodState::Unavail => "unavail",
        MethodState::Avail(_) => "avail",
        MethodState::Optional(_) => "optional",
    }
}

/// A method as a line of the list has it.
fn said(method: &MethodState) -> String {
    let signature = method.signature().map(|signature| {
        let argument = if signature.arguments.is_empty() {
            ""
        } else {
            "0"
        };
        let answer = if signature.answer.is_some() { "0" } else { "-" };
        format!("({argument}){answer}")
    });
    word(method).to_string() + &signature.unwrap_or_default()
}

/// The words of a line of the list for each sheet.
fn lines() -> Vec<Vec<String>> {
    let line = |(number, table): (usize, &reference::table::Table)| {
        let [only] = &table.types[..] else {
            panic!("one type")
        };
        let own = if only.own { "yes" } else { "no" };
        let mut words = vec![number.to_string(), own.to_string()];
        words.extend(only.methods.iter().map(said));
        words
    };
    tables().iter().enumerate().map(line).collect()
}

#[test]
fn the_list_says_what_each_says() {
    let list = accepted(&["tiny", "--list"]);
    let words = |line: &str| -> Vec<String> { line.split_whitespace().map(String::from).collect() };
    let found: Vec<Vec<String>> = list.lines().map(words).collect();
    assert_eq!(found[1..=TINY_SHEETS], lines());
    assert!(list.lines().all(|line| line.len() <= 80), "{list}");
    // of one the same line
    for number in [0, 13, 129] {
        let one = accepted(&["tiny", &number.to_string(), "--list"]);
        let of_list = list.lines().nth(number + 1);
        assert_eq!(one.lines().nth(1), of_list);
        assert_eq!(one.lines().count(), 4, "{one}");
    }
}

/// A method as the document has it: its signature is null, or has the numbers of arguments and answer.
fn documented(method: &MethodState) -> Value {
    let object = |members: [(&str, Value); 2]| {
        let members = members.map(|(name, value)| (name.to_string(), value));
        Value::Object(members.into())
    };
    let number = |type_: &usize| Value::Number(*type_ as i64);
    let signature = method.signature().map_or(Value::Null, |signature| {
        let arguments = signature.arguments.iter().map(number).collect();
        let answer = signature.answer.as_ref().map_or(Value::Null, number);
        object([("arguments", Value::List(arguments)), ("answer", answer)])
    });
    let says = Value::Text(word(method).to_string());
    object([("says", says), ("signature", signature)])
}

#[test]
fn the_document_has_them() {
    let document = Value::read(&accepted(&["tiny", "--json"]));
    let sheets = document.get("result").get("sheets").list();
    assert_eq!(sheets.len(), TINY_SHEETS);
    for (number, (sheet, (text, table))) in
        sheets.iter().zip(texts().iter().zip(tables())).enumerate()
    {
        assert_eq!(sheet.get("number").number(), number as i64);
        assert_eq!(sheet.get("text").text().as_bytes(), text);
        let [only] = sheet.get("types").list() else {
            panic!("one type")
        };
        assert_eq!(only.get("own"), &Value::Bool(table.types[0].own));
        let methods = table.types[0].methods.iter().map(documented);
        assert_eq!(only.get("methods").list(), methods.collect::<Vec<_>>());
    }
    let one = Value::read(&accepted(&["tiny", "44", "--json"]));
    let one = one.get("result").get("sheets").list();
    assert_eq!(one, &sheets[44..45]);
}
