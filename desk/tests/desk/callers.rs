//! Each subject has 32 calls of its own: who has used them up, and how many each has left, is told wherever calls are.

use crate::drawing::{apart, drawn, drawn_run, sound};
use crate::files::{accepted, read, run, with_file, NAMES, SCRIPT, SHEET};
use crate::json::Value;
use desk::scripts::callers::callers;
use desk::scripts::follow::follow;
use reference::generators::{generate, on_tiny, Profile};

/// A script on the sheet of Case P: the desk makes a log and lends it to the tour for reading, who reads so often and once more.
fn read_by_tour(times: usize) -> Vec<u8> {
    let lent = "do=new 0 1 4\ndo=move 0 0 1 2\n".to_string();
    let requests = lent + &"do=call 1 1 0\n".repeat(times + 1) + "do=call 0 0 0\n";
    [read(SHEET), requests.into_bytes()].concat()
}

/// A sheet of 16 subjects and one type. Each makes an object, and calls it so often and once more, in turn.
fn called_by_all(times: usize) -> Vec<u8> {
    let sheet = "guide=1\nsubjects=16\nmethods=1\ncats=0\ntypes=1\ntype=0\nrep=ref\ncat=0\nown=no\nm=avail()-\nend=sheet\n";
    let line = |request: &dyn Fn(usize) -> String| (0..16).map(request).collect::<String>();
    let made = line(&|subject| format!("do=new {subject} 0 0\n"));
    let called = line(&|subject| format!("do=call {subject} {subject} 0\n"));
    (sheet.to_string() + &made + &called.repeat(times + 1)).into_bytes()
}

/// What is asked of a script, with the names of Case P.
fn told(script: &[u8], words: &[&str]) -> String {
    let mut told = String::new();
    with_file("callers.script", script, |path| {
        let named = [words[0], path, "--names", NAMES];
        let (_, out, error) = run(&[&named[..], &words[1..]].concat());
        assert_eq!(error, "", "{words:?}");
        told = out;
    });
    told
}

#[test]
fn who_used_up_its_calls_is_told() {
    let out = told(&read_by_tour(32), &["run"]);
    let why = "refused with 18: subject 1 (tour) has made all of its 32 calls; every other subject has 32 of its own\n";
    assert_eq!(out.matches("refused with 18").count(), 1, "{out}");
    assert!(out.contains(why), "{out}");
    let end = "\
        36 requests: 35 accepted, 1 refused. At the end: 2 cells, 1 object, 0 adapters, 33 calls.\n\
        Calls of each subject:\n  \
          subject 0 (desk)     made  1 of 32, 31 left\n  \
          subject 1 (tour)     made 32 of 32, none left\n  \
          subject 2 (printer)  made  0 of 32, 32 left\n";
    assert!(out.ends_with(end), "{out}");
    let out = told(&read_by_tour(30), &["run"]);
    assert!(!out.contains("refused with"), "{out}");
    assert!(
        out.contains("  subject 1 (tour)     made 31 of 32, 1 left\n"),
        "{out}"
    );
    // nobody called
    assert!(!accepted(&["run", SCRIPT]).contains("Calls of each subject"));
}

/// With one subject there is nobody else to speak of.
#[test]
fn one_subject_alone() {
    let sheet = "guide=1\nsubjects=1\nmethods=1\ncats=0\ntypes=1\ntype=0\nrep=ref\ncat=0\nown=no\nm=avail()-\nend=sheet\n";
    let script = sheet.to_string() + "do=new 0 0 0\n" + &"do=call 0 0 0\n".repeat(33);
    with_file("alone.script", script.as_bytes(), |path| {
        let out = accepted(&["run", path]);
        let why = "refused with 18: subject 0 has made all of its 32 calls\n";
        assert!(out.contains(why), "{out}");
    });
}

/// The count is of every method: it is told of one subject, and not where one method is asked about.
#[test]
fn audits_tell_it() {
    let script = read_by_tour(32);
    let title = "\nHow many calls each subject made\n";
    let [desk, tour, printer] = [
        "  subject 0 (desk)     made  1 of 32, 31 left\n",
        "  subject 1 (tour)     made 32 of 32, none left\n",
        "  subject 2 (printer)  made  0 of 32, 32 left\n",
    ];
    for words in [&["audit"][..], &["audit", "--calls"]] {
        let out = told(&script, words);
        assert!(
            out.contains(&format!("{title}{desk}{tour}{printer}")),
            "{words:?}: {out}"
        );
    }
    let out = told(&script, &["audit", "--subject", "tour"]);
    let only =
        "\nHow many calls subject 1 (tour) made\n  subject 1 (tour)  made 32 of 32, none left\n";
    assert!(out.contains(only), "{out}");
    for words in [
        &["audit", "--method", "read"][..],
        &["audit", "--subject", "printer"],
    ] {
        let out = told(&script, words);
        assert!(!out.contains(" of 32"), "{words:?}: {out}");
    }
}

fn numbers(document: &Value, name: &str) -> Vec<i64> {
    let callers = document.get("result").get("callers").list().iter();
    callers.map(|one| one.get(name).number()).collect()
}

#[test]
fn documents_tell_it() {
    let script = read_by_tour(32);
    for command in ["run", "audit"] {
        let document = Value::read(&told(&script, &[command, "--json"]));
        assert_eq!(numbers(&document, "made"), [1, 32, 0], "{command}");
        assert_eq!(numbers(&document, "left"), [31, 0, 32], "{command}");
        let callers = document.get("result").get("callers").list();
        assert_eq!(callers[1].get("subject").get("name").text(), "tour");
    }
    let words = ["audit", "--subject", "tour", "--method", "mark", "--json"];
    let document = Value::read(&told(&script, &words));
    assert_eq!(numbers(&document, "made"), [32]);
}

/// All 16 have used up theirs: 512 calls, and the next of each is refused.
#[test]
fn all_subjects_use_up_theirs() {
    let script = called_by_all(32);
    let mut out = String::new();
    with_file("all.script", &script, |path| out = accepted(&["run", path]));
    assert!(out.contains(" 528 accepted, 16 refused. "), "{out}");
    assert!(out.contains(", 512 calls.\n"), "{out}");
    assert_eq!(out.matches("made 32 of 32, none left\n").count(), 16);
    for subject in 0..16 {
        let why = format!("refused with 18: subject {subject} has made all of its 32 calls;");
        assert_eq!(out.matches(&why).count(), 1, "{why}");
    }
    let run = follow(&script).expect("a sheet");
    assert!(callers(&run.visit).iter().all(|one| one.made == 32));
    with_file("all.state", &run.visit.save(), |path| {
        let out = accepted(&["audit", path, "--calls"]);
        assert_eq!(out.matches("made 32 of 32, none left\n").count(), 16);
    });
}

/// A picture names those that can call nothing any more, and is as it was where there are none.
#[test]
fn pictures_tell_it() {
    let none_left =
        |subject: &str| format!(">{subject} has made all of its 32 calls: none is left<");
    let picture = drawn_run("tour", &read_by_tour(32));
    assert_eq!(picture.matches("none is left").count(), 1, "{picture}");
    assert!(picture.contains(&none_left("subject 1")), "{picture}");
    let picture = drawn_run("all", &called_by_all(32));
    sound(&picture);
    apart(&picture);
    for subject in 0..16 {
        let words = none_left(&format!("subject {subject}"));
        assert_eq!(picture.matches(&words).count(), 1, "{words}");
    }
    assert!(!drawn_run("fewer", &called_by_all(30)).contains("none is left"));
    assert!(!drawn(&["run", SCRIPT]).contains("none is left"));
}

/// The callers of any run are those of its accepted calls.
#[test]
fn callers_are_those_of_the_calls() {
    let medium = (0..30).map(|seed| generate(seed, Profile::Medium));
    let full = (0..4).map(|seed| generate(seed, Profile::Full));
    let mut called = 0;
    for script in on_tiny(0).into_iter().chain(medium).chain(full) {
        let Ok(run) = follow(&script) else {
            continue;
        };
        let callers = callers(&run.visit);
        assert_eq!(callers.len(), run.visit.sheet().subjects());
        let made: usize = callers.iter().map(|one| one.made).sum();
        assert_eq!(made, run.visit.calls().count());
        for caller in callers {
            let accepted = run.steps.iter().filter(|step| {
                let by = format!("do=call {} ", caller.subject.0);
                step.outcome.is_ok() && step.line.starts_with(by.as_bytes())
            });
            assert_eq!(
                (caller.made, caller.left()),
                (accepted.count(), 32 - caller.made)
            );
        }
        called += made;
    }
    assert!(called > 100, "{called}");
}
