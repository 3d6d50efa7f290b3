//! A search that comes to its limit of steps says so, wherever it is told, and passes for neither yes nor no.

use crate::drawing::drawn_run;
use crate::files::{accepted, run, with_file};
use crate::json::Value;
use crate::scripts::same;
use conformance::tiny_first;
use desk::reach::{of_sheet, within, Power, Reach};
use pilgonca::Visit;
use reference::generators::Profile;

/// What a search of a few steps finds is what the whole one does, or that it is not settled.
#[test]
fn few_steps_find_less_and_nothing_else() {
    let mut met = [0; 3];
    for script in tiny_first::scripts(&[(Profile::Medium, 60)]) {
        let Some(run) = same(&script.of) else {
            continue;
        };
        let sheet = run.visit.sheet();
        for cell in run.visit.cells() {
            let [all, few] = [Reach::of(&sheet), Reach::within(&sheet, 3)]
                .map(|reach| reach.powers(&run.visit, &cell).expect("a sound state"));
            for (all, few) in all.iter().zip(&few) {
                match few {
                    Some(Power::Unsettled(3)) => met[0] += 1,
                    few => assert_eq!(few, all, "{}, cell {}", script.from, cell.number),
                }
                met[1] += usize::from(matches!(few, Some(Power::Alone(_))));
            }
        }
        met[2] += of_types(&run.visit);
    }
    println!("not settled, found, types not settled: {met:?}");
    assert!(met.iter().all(|count| *count > 20), "{met:?}");
}

/// The same of what a sheet's types give; how many types there are of which it is not settled whether they can be had.
fn of_types(visit: &Visit) -> usize {
    let visit = Visit::load(&visit.sheet().write()).expect("its sheet");
    let [all, few] = [of_sheet(&visit), within(&visit, 3)].map(|one| one.expect("a sound state"));
    let mut open = 0;
    for (all, few) in all.iter().zip(&few) {
        assert!(few.classes.iter().all(|class| all.classes.contains(class)));
        assert!(few.open || few.classes == all.classes, "{few:?}, {all:?}");
        open += usize::from(few.open && few.classes.is_empty());
        for (all, few) in all.methods.iter().zip(&few.methods) {
            match few {
                Power::Unsettled(3) => {}
                Power::Alone(_) => assert!(all.is_yes(), "{all:?}"),
                few => assert_eq!(few, all),
            }
        }
    }
    open
}

/// A sheet of 12 methods. Type 0 is a class with all of them, type 1 calls the methods 0 and 1, in type 2 everything is optional, and type 2 + k is as type 2
/// but for method k, which it hides.
fn many_ways() -> String {
    let type_ = |number: usize, says: &dyn Fn(usize) -> &'static str| {
        let methods: String = (0..12).map(|one| format!("m={}\n", says(one))).collect();
        format!("type={number}\nrep=ref\ncat=0\nown=no\n{methods}")
    };
    let hides = |hidden: usize| {
        move |one: usize| match one == hidden {
            true => "denied",
            false => "optional()-",
        }
    };
    let caller = |one: usize| if one < 2 { "avail()-" } else { "denied" };
    let head = "guide=1\nsubjects=2\nmethods=12\ncats=0\ntypes=14\n";
    let classes = type_(0, &|_| "avail()-") + &type_(1, &caller) + &type_(2, &hides(12));
    let others = (1..12).map(|hidden| type_(2 + hidden, &hides(hidden)));
    format!("{head}{classes}{}end=sheet\n", others.collect::<String>())
}

/// Subject 1 has the object without method 1, so that it never comes to type 1, by however many of the others it hands the object to itself.
const LENT: &str = "do=new 0 0 0\ndo=move 0 0 1 3\ndo=move 1 1 1 2\n";

const WORDS: &str = "not settled: no way to call it was found in 10000 steps, and there are more";

#[test]
fn what_is_not_settled_is_told() {
    // and where there is no room in the end: it was not settled when the cell was new either
    let full = "do=move 0 0 0 0\n".repeat(253);
    for script in [many_ways() + LENT, many_ways() + LENT + &full] {
        with_file("steps.script", script.as_bytes(), |path| {
            let asked = ["audit", path, "--subject", "1", "--method", "0"];
            let (status, out, error) = run(&asked);
            assert_eq!((status, out.matches(WORDS).count()), (3, 2), "{out}");
            assert!(
                out.ends_with("Could subject 1 have called method 0? that is not settled\n"),
                "{out}"
            );
            let open = ": whether subject 1 could have called method 0 is not settled";
            assert!(error.ends_with(&format!("{open}\n")), "{error}");
            let (_, out, _) = run(&[&asked[..], &["--json"]].concat());
            assert!(out.contains(open), "{out}");
            let question = Value::read(&out).get("result").get("question").clone();
            assert_eq!(question.get("answer"), &Value::Null);
        });
        let picture = drawn_run("steps", script.as_bytes());
        let chip = format!(": {WORDS}</title>\n<rect class=\"open\"");
        assert!(picture.contains(&chip), "{picture}");
        assert!(picture.contains(">whether the holder can come to call it is not settled<"));
    }
}

#[test]
fn powers_that_are_not_settled_are_told() {
    // no object is of the category of type 14, and there are ways to it by the types
    let other = "type=14\nrep=ref\ncat=1\nown=no\n".to_string() + &"m=denied\n".repeat(12);
    let sheet = many_ways().replace("cats=0\ntypes=14", "cats=1\nunder=0\ntypes=15");
    let sheet = sheet.replace("end=sheet", &(other + "end=sheet"));
    with_file("steps.sheet", sheet.as_bytes(), |path| {
        let out = accepted(&["powers", path]);
        let had = "\ntype 14\n  whether a reference of this type can be had is not settled\n";
        assert!(out.ends_with(had), "{out}");
        let (_, type_3) = out.split_once("\ntype 3\n").expect("type 3");
        let (type_3, _) = type_3.split_once("\n\n").expect("an end");
        assert!(
            type_3.contains("\n  not settled          method 0 (not in 10000 steps)"),
            "{type_3}"
        );
    });
}
