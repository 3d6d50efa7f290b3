//! What desk prints with --json: one document each, as desk/schema/desk.json says, and with the same answers as the core and the words.

use crate::doors::{ARRIVALS, MARKS};
use crate::files::{accepted, read, run, tiny_in_turn, with_file, NAMES, SCRIPT, SHEET};
use crate::json::{Schema, Value};
use pilgonca::{Sheet, Type};
use reference::generators::{generate, Profile};

const DAMAGED: &str = "examples/refused-leading-zero.sheet";
const OPTIONAL: &str = "examples/optional.script";

fn schema() -> Schema {
    let text = String::from_utf8(read("desk/schema/desk.json")).expect("UTF-8");
    Schema::read(&text)
}

/// The document of a command, which fits the schema and has the exit status.
fn document(schema: &Schema, words: &[&str]) -> Value {
    let (status, out, error) = run(&[words, &["--json"]].concat());
    let document = Value::read(&out);
    let faults = schema.faults(words[0], &document);
    assert!(faults.is_empty(), "{words:?}: {faults:?}");
    assert!(schema.fits(&document), "{words:?}");
    assert_eq!(document.get("status").number(), status.into(), "{words:?}");
    assert_eq!(document.get("desk").text(), env!("CARGO_PKG_VERSION"));
    match document.get("problem") {
        Value::Null => assert_eq!(error, "", "{words:?}"),
        problem => {
            let told = error.lines().next().expect("a message");
            assert!(told.ends_with(problem.get("words").text()), "{error}");
        }
    }
    document
}

/// Every command that prints a document, on what is right and on what is not.
const COMMANDS: [&[&str]; 36] = [
    &["check", SHEET],
    &["check", "examples/categories.sheet"],
    &["check", "examples/types-48.sheet"],
    &["check", DAMAGED],
    &["check", "no/such/file"],
    &["pairs", SHEET],
    &["pairs", "examples/types-48.sheet"],
    &["pairs", DAMAGED],
    &["compare", SHEET, "reader", "marker"],
    &["compare", SHEET, "marker", "reader"],
    &["compare", SHEET, "0", "99"],
    &["run", SCRIPT],
    &["run", "examples/two-adapters.script"],
    &["run", "examples/refused-01.script"],
    &["run", "examples/refused-18.script"],
    &["audit", SCRIPT],
    &["audit", "examples/optional.state"],
    &["audit", OPTIONAL, "--subject", "2", "--method", "1"],
    &["audit", OPTIONAL, "--calls"],
    &["audit", "examples/refused-01.script"],
    &["audit", "examples/refused-01.script", "--calls"],
    &["powers", SHEET],
    &["powers", "examples/types-48.sheet"],
    &["diff", SHEET, SHEET],
    &["diff", "examples/guide.sheet", SHEET],
    &["tiny"],
    &["tiny", "129"],
    &["tiny", "130"],
    &["doors", MARKS, ARRIVALS, "--within=1000"],
    &["doors", ARRIVALS, MARKS, "--within=60000"],
    &["doors", "/dev/null", "/dev/null", "--within=0"],
    &["doors", MARKS, ARRIVALS, "--within=60001"],
    &["doors", MARKS, ARRIVALS, "--within=5", "--column=1"],
    &["doors", MARKS, ARRIVALS, "--within=5", "--column=module"],
    &["doors", SHEET, ARRIVALS, "--within=5"],
    &["doors", "examples/optional.state", ARRIVALS, "--within=5"],
];

#[test]
fn every_document_fits_the_schema() {
    let schema = schema();
    for (command, text) in tiny_in_turn() {
        with_file("tiny", &text, |path| {
            let document = document(&schema, &[command, path]);
            assert_eq!(document.get("status").number(), 0, "{command}");
        });
    }
    for seed in 0..30 {
        let text = generate(seed, Profile::Damaged);
        with_file("generated", &text, |path| {
            for command in ["check", "pairs", "run", "audit", "powers"] {
                document(&schema, &[command, path]);
            }
            document(&schema, &["diff", path, SHEET]);
        });
    }
    for words in COMMANDS {
        document(&schema, words);
    }
}

/// Every value that comes of another in one place: a member taken away, one put in, or a value of another kind.
fn spoilt(value: &Value) -> Vec<Value> {
    let mut all = vec![match value {
        Value::Text(_) => Value::List(Vec::new()),
        _ => Value::Text("spoilt".to_string()),
    }];
    match value {
        Value::Object(members) => {
            for (name, member) in members {
                let mut less = members.clone();
                less.remove(name);
                all.push(Value::Object(less));
                for one in spoilt(member) {
                    let mut changed = members.clone();
                    changed.insert(name.clone(), one);
                    all.push(Value::Object(changed));
                }
            }
            let mut more = members.clone();
            more.insert("more".to_string(), Value::Null);
            all.push(Value::Object(more));
        }
        Value::List(items) => {
            if let Some(last) = items.last() {
                for one in spoilt(last) {
                    all.push(Value::List([&items[..items.len() - 1], &[one]].concat()));
                }
            }
        }
        _ => {}
    }
    all
}

#[test]
fn the_schema_refuses_other_documents() {
    let schema = schema();
    for words in [
        &["check", SHEET][..],
        &["check", DAMAGED],
        &["pairs", SHEET],
        &["compare", SHEET, "2", "5"],
        &["run", "examples/two-adapters.script"],
        &["audit", OPTIONAL, "--method", "1"],
        &["powers", SHEET],
        &["diff", "examples/guide.sheet", SHEET],
        &["tiny", "44"],
        &["doors", MARKS, ARRIVALS, "--within=1000"],
    ] {
        let document = document(&schema, words);
        let others = spoilt(&document);
        assert!(others.len() > 30, "{words:?}");
        let passed = others.iter().filter(|one| schema.fits(one)).count();
        // a text in the place of a name or note that is missing, or of the version
        assert!(passed <= 12, "{words:?}: {passed} of {}", others.len());
    }
}

#[test]
fn a_checked_sheet_is_the_cores() {
    let schema = schema();
    for file in [
        SHEET,
        "examples/categories.sheet",
        "examples/types-48.sheet",
    ] {
        let sheet = Sheet::read(&read(file)).expect("it is accepted");
        let document = document(&schema, &["check", file]);
        let result = document.get("result");
        let count = |name: &str| result.get(name).list().len();
        assert_eq!(count("subjects"), sheet.subjects());
        assert_eq!(count("methods"), sheet.methods());
        assert_eq!(count("categories"), sheet.categories());
        assert_eq!(count("types"), sheet.sheet_types());
        for (info, told) in sheet.types().zip(result.get("types").list()) {
            assert_eq!(told.get("number").number(), info.number.0);
            assert_eq!(told.get("class"), &Value::Bool(info.is_class()));
            assert_eq!(told.get("own"), &Value::Bool(info.own));
            assert_eq!(told.get("methods").list().len(), info.methods.len());
        }
    }
}

#[test]
fn pairs_and_comparisons_are_the_cores() {
    let schema = schema();
    let sheet = Sheet::read(&read(SHEET)).expect("it is accepted");
    let document_ = document(&schema, &["pairs", SHEET]);
    let pairs = document_.get("result").get("pairs").list();
    assert_eq!(pairs.len(), 36);
    for pair in pairs {
        let (from, to) = (pair.get("from").number(), pair.get("to").number());
        let answers = sheet.compare(Type(to), Type(from)).expect("both are there");
        let told = ["subtype", "strict", "loose", "free"].map(|name| pair.get(name).clone());
        let asked = [answers.subtype, answers.strict, answers.loose, answers.free];
        assert_eq!(told, asked.map(Value::Bool));
        let words = [&from.to_string()[..], &to.to_string()].map(str::to_string);
        let compared = document(&schema, &["compare", SHEET, &words[0], &words[1]]);
        let result = compared.get("result");
        assert_eq!(result.get("from").get("number").number(), from);
        assert_eq!(result.get("becomes"), pair.get("becomes"));
        let status = compared.get("status").number();
        assert_eq!(result.get("becomes"), &Value::Bool(status == 0));
        let holds = result.get("relations").list().iter();
        let holds: Vec<&Value> = holds.map(|row| row.get("holds")).collect();
        assert_eq!(holds, told.iter().collect::<Vec<&Value>>());
    }
}

#[test]
fn a_run_prints_what_the_program_does() {
    let schema = schema();
    for file in [
        SCRIPT,
        "examples/two-adapters.script",
        "examples/refused-01.script",
    ] {
        let document = document(&schema, &["run", file]);
        let result = document.get("result");
        let mut lines: Vec<&str> = Vec::new();
        for request in result.get("requests").list() {
            let printed = request.get("printed").text();
            let accepted = printed.starts_with("got=");
            assert_eq!(request.get("accepted"), &Value::Bool(accepted));
            assert_eq!(request.get("refused") == &Value::Null, accepted);
            lines.push(printed);
        }
        if result.get("cut_short") != &Value::Null {
            lines.push("no=1");
        }
        let program = String::from_utf8(pilgonca::script(&read(file))).expect("ASCII");
        assert_eq!(program.lines().collect::<Vec<&str>>(), lines);
    }
}

#[test]
fn an_audit_answers_as_its_status_does() {
    let schema = schema();
    for (words, answer) in [
        (["--subject=2", "--method=1"], true),
        (["--subject=2", "--method=2"], false),
        (["--subject=1", "--calls"], false),
        (["--method=1", "--calls"], true),
    ] {
        let document = document(&schema, &["audit", OPTIONAL, words[0], words[1]]);
        let question = document.get("result").get("question");
        assert_eq!(question.get("answer"), &Value::Bool(answer), "{words:?}");
        assert_eq!(document.get("status").number(), i64::from(!answer));
        let objects = document.get("result").get("objects");
        assert_eq!(objects == &Value::Null, words.contains(&"--calls"));
    }
    let whole = document(&schema, &["audit", OPTIONAL]);
    let calls = whole.get("result").get("calls").list();
    assert_eq!(
        calls[0].get("arguments"),
        &Value::List(vec![Value::Number(7)])
    );
    let object = &whole.get("result").get("objects").list()[0];
    let mark = &object.get("methods").list()[1];
    let powers = mark.get("holders").list().iter();
    let powers: Vec<&str> = powers.map(|holder| holder.get("power").text()).collect();
    assert_eq!(powers, ["now", "alone", "now"]);
    let state = document(&schema, &["audit", "examples/optional.state"]);
    assert_eq!(state.get("result").get("saved_state"), &Value::Bool(true));
}

#[test]
fn differences_and_refusals_are_told() {
    let schema = schema();
    let alike = document(&schema, &["diff", SHEET, SHEET]);
    assert_eq!(alike.get("result").get("alike"), &Value::Bool(true));
    let other = document(&schema, &["diff", "examples/guide.sheet", SHEET]);
    assert_eq!(other.get("status").number(), 1);
    let counts = ["gives", "takes", "others"].map(|name| other.get("result").get(name).number());
    let changes = other.get("result").get("changes").list().len() as i64;
    assert!(changes > 0);
    assert_eq!(counts.iter().sum::<i64>(), changes);
    let refused = document(&schema, &["check", DAMAGED]);
    let at = refused.get("problem").get("at");
    assert_eq!(at.get("file").text(), DAMAGED);
    let place = ["line", "column", "refused"].map(|name| at.get(name).number());
    assert_eq!(place, [23, 6, 1]);
    // of lists of times the core refuses what desk can read
    let refused = |column: &str| {
        let words = ["doors", MARKS, ARRIVALS, "--within=5", column];
        let document = document(&schema, &words);
        assert_eq!(document.get("status").number(), 3);
        let at = document.get("problem").get("at");
        (at.get("line").number(), at.get("refused").clone())
    };
    assert_eq!(refused("--column=mark"), (4, Value::Number(22)));
    assert_eq!(refused("--column=module"), (2, Value::Null));
    let unread = document(&schema, &["check", "no/such/file"]);
    assert_eq!(unread.get("status").number(), 3);
    assert_eq!(unread.get("result"), &Value::Null);
}

#[test]
fn names_of_any_characters_come_back() {
    let schema = schema();
    let name = "a \"quoted\" \\ \u{e9}\u{1f600} name";
    with_file("odd.names", format!("type 2 {name}\n").as_bytes(), |path| {
        let document = document(&schema, &["check", SHEET, "--names", path]);
        let types = document.get("result").get("types").list();
        assert_eq!(types[2].get("name").text(), name);
    });
    assert!(accepted(&["check", SHEET, "--json", "--names", NAMES]).contains("forwarder"));
}
