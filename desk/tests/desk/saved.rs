//! Saved states at the desk: `desk run --save` writes one and `desk audit` takes it. Of what both can know, its audit says what the script's says; of the rest
//! it says that it does not know.

use crate::audits::{ASKED, OPTIONAL};
use crate::files::{accepted, failed, read, refused, root, run, with_file, NAMES, SCRIPT, SHEET};
use crate::scripts::same;
use conformance::served::given;
use conformance::tiny_first;
use desk::reach::Power;
use desk::scripts::follow::{follow, Run};
use desk::scripts::requests::split;
use pilgonca::saved::checksum;
use pilgonca::Visit;
use reference::generators::{generate, on_tiny, Profile};
use reference::hostile;

/// The state at the end of OPTIONAL.
pub const STATE: &str = "examples/optional.state";

/// The file that a script's state is saved in.
fn saved(script: &[u8]) -> Vec<u8> {
    let run = follow(script).expect("a sheet");
    run.visit.save()
}

#[test]
fn a_run_saves_the_state_at_its_end() {
    for script in [OPTIONAL, SCRIPT, "examples/two-adapters.script", SHEET] {
        with_file("end.state", b"", |path| {
            let out = accepted(&["run", script, "--save", path]);
            assert_eq!(out, accepted(&["run", script]));
            assert_eq!(std::fs::read(path).expect("written"), saved(&read(script)));
        });
    }
    assert_eq!(read(STATE), saved(&read(OPTIONAL)));
}

#[test]
fn a_state_that_cannot_be_saved() {
    let into = |option: &str| run(&["run", SCRIPT, option, "no/such/folder/x"]);
    let (status, out, error) = into("--save");
    assert_eq!((status, out.as_str()), (into("--svg").0, ""));
    assert!(error.contains("cannot write no/such/folder/x"), "{error}");
    with_file("old.state", b"old", |path| {
        let cut = ["run", "examples/refused-01.script", "--save", path];
        assert!(refused(&cut).contains("cut short, so the state is not saved"));
        assert_eq!(std::fs::read(path).expect("as it was"), b"old");
    });
    for words in [
        &["run", SCRIPT, "--save"][..],
        &["run", SCRIPT, "--save", "-"],
        &["audit", SCRIPT, "--save", "x"],
        &["check", SHEET, "--save", "x"],
        &["run", SCRIPT, "--save", "x", "--save", "x"],
    ] {
        let (status, out, error) = run(words);
        assert_eq!((status, out.as_str()), (2, ""), "{words:?}");
        assert!(error.contains("--save"), "{words:?}: {error}");
    }
    assert!(!root().join("x").exists() && !root().join("-").exists());
}

/// What an audit says of objects, methods and who can do what with them.
fn who(report: &str) -> Vec<&str> {
    let lines = report.lines();
    let lines = lines.skip_while(|line| !line.starts_with("The object at place"));
    let lines = lines.take_while(|line| !line.starts_with("Calls"));
    let ways = |line: &&str| line.contains("how they came") || line.contains("types behind them");
    let mut known = Vec::new();
    let mut inside = true;
    for line in lines {
        // a list of ways ends where another object begins
        inside = (inside || line.is_empty()) && !ways(&line);
        if inside {
            known.push(line);
        }
    }
    known
}

/// What it says of each call: by whom, of what, through which cell; the types behind it; whether it is answered.
fn called(report: &str) -> Vec<[String; 3]> {
    let (_, calls) = report.rsplit_once("Calls").expect("calls");
    let calls = calls.split("\n  call ").skip(1).map(|call| {
        let call = call.split_whitespace().collect::<Vec<&str>>().join(" ");
        let (made, behind) = call.split_once(" types behind it: ").expect("types");
        let (by, cell) = made.split_once(" through cell ").expect("a cell");
        let cell = cell.split(|sign: char| !sign.is_ascii_digit()).next();
        let (types, answer) = match behind.split_once(" not answered") {
            Some((types, _)) => (types, "not answered"),
            None => (behind.split(" answered").next().expect("types"), "answered"),
        };
        let cell = cell.expect("a number");
        [
            format!("{by} through {cell}"),
            types.to_string(),
            answer.to_string(),
        ]
    });
    calls.collect()
}

/// Both audits of a script's end. What there was room for once, only the script tells.
fn audits_agree(script: &[u8]) -> [usize; 2] {
    let mut told = [0; 2];
    with_file("agree.script", script, |script_path| {
        with_file("agree.state", &saved(script), |path| {
            let (_, of_script, _) = run(&["audit", script_path]);
            let of_state = accepted(&["audit", path]);
            if !of_script.contains("while there was room") {
                assert_eq!(who(&of_script), who(&of_state));
            }
            assert_eq!(called(&of_script), called(&of_state));
            told = [who(&of_state).len(), called(&of_state).len()];
            for history in [
                "made it",
                "to itself as type 0 >",
                " line ",
                "answered by",
                "how they came",
            ] {
                assert!(!of_state.contains(history), "{history}: {of_state}");
            }
        });
    });
    told
}

#[test]
fn the_audit_of_a_state_agrees_with_that_of_its_script() {
    let mut told = [0; 2];
    let medium = (0..30).map(|seed| generate(seed, Profile::Medium));
    for input in on_tiny(0).into_iter().chain(medium) {
        if same(&input).is_some() {
            let one = audits_agree(&input);
            told.iter_mut().zip(one).for_each(|(all, one)| *all += one);
        }
    }
    println!("{told:?} lines of powers, calls");
    assert!(told[0] > 1000 && told[1] > 50, "{told:?}");
    for script in [
        OPTIONAL,
        SCRIPT,
        "examples/two-adapters.script",
        "examples/unwrapping.script",
    ] {
        audits_agree(&read(script));
    }
}

/// For every cell and method: what the script tells and what the state does.
#[test]
fn powers_are_those_of_the_script() {
    let (mut known, mut once) = ([0; 3], 0);
    let scripts = [
        (Profile::Small, 200),
        (Profile::Medium, 60),
        (Profile::Full, 20),
    ];
    for script in tiny_first::scripts(&scripts) {
        let Some(run) = same(&script.of) else {
            continue;
        };
        let visit = Visit::from_saved(&run.visit.save()).expect("a state");
        let state = Run::begun(visit, true);
        let [script, state] = [&run, &state].map(|one| one.powers().expect("powers"));
        for (script, state) in script.iter().flatten().zip(state.iter().flatten()) {
            match (script, state) {
                (Some(Power::Once(_, there)), Some(Power::NoRoom(here))) => {
                    assert_eq!(there, here);
                    once += 1;
                }
                _ => assert_eq!(script, state),
            }
            match state {
                Some(Power::Now) => known[0] += 1,
                Some(Power::Alone(_)) => known[1] += 1,
                Some(Power::Never) => known[2] += 1,
                _ => {}
            }
        }
    }
    println!("now, alone, never: {known:?}; while there was room: {once}");
    assert!(known.iter().all(|count| *count > 50) && once > 0);
}

#[test]
fn the_status_answers_of_a_state_too() {
    for (words, status, answer) in ASKED {
        let words = [&["audit", STATE, "--names", NAMES], words].concat();
        let (found, out, error) = run(&words);
        assert_eq!((found, error.as_str()), (status, ""), "{words:?}: {out}");
        assert!(out.starts_with("This is a saved state."), "{out}");
        assert!(out.ends_with(&format!("{answer}\n")), "{words:?}: {out}");
    }
    assert!(accepted(&["audit", STATE]).contains("cannot be known from it"));
}

/// A full state has no room for ways that there was room for. It is asked what only the script can tell: that is neither yes nor no.
#[test]
fn a_full_state_does_not_tell() {
    let fill = b"do=move 0 0 0 4\n".repeat(254);
    let front = b"do=new 0 1 4\ndo=move 0 0 2 3\n";
    let script = [split(&read(OPTIONAL)).0, front, &fill].concat();
    with_file("full.state", &saved(&script), |path| {
        let ask = |subject: &str, method: &str| {
            run(&["audit", path, "--subject", subject, "--method", method])
        };
        let (status, out, error) = ask("2", "1");
        assert_eq!(status, 3, "{out}");
        assert!(out.contains("method 1? the state does not tell"), "{out}");
        let open = ": the state does not tell whether subject 2 could have called method 1\n";
        assert!(error.ends_with(open), "{error}");
        assert!(
            out.contains("no cell is free for further ones; whether"),
            "{out}"
        );
        assert_eq!((ask("2", "0").0, ask("2", "2").0), (0, 1));
        assert_eq!(run(&["audit", path]).0, 0);
    });
}

/// STATE with one byte another, and the checksum that is then due.
fn forged(at: usize, byte: u8) -> Vec<u8> {
    let mut front = read(STATE);
    front.truncate(front.len() - 4);
    front[at] = byte;
    [&front[..], &checksum(&front).to_le_bytes()].concat()
}

#[test]
fn a_damaged_state_is_refused_with_a_word() {
    let state = read(STATE);
    let sum = state.last_chunk().expect("a checksum");
    let mut damaged = state.clone();
    damaged[100] ^= 1;
    let mut unmarked = state.clone();
    unmarked[7] = b'B';
    for (bytes, words) in [
        (
            &unmarked[..],
            "It is no saved state either: one begins with the bytes PILGONCA.",
        ),
        (&state[..5], "It is no saved state either"),
        (
            &forged(8, 3),
            "it is of version 3, and this program reads versions 1 and 2",
        ),
        (&state[..20], "it is cut short: 20 bytes, and 30 are due"),
        (&state[..900], "it is cut short: 900 bytes, and 946 are due"),
        (
            &[&state[..], b"\n"].concat(),
            "it is too long: 947 bytes, and 946 are due",
        ),
        (
            &forged(23, 9),
            "it counts 2305 places, and there are at most 128",
        ),
        (
            &damaged,
            &format!(
                "it is damaged: the checksum is {:08x}",
                u32::from_le_bytes(*sum)
            ),
        ),
        // a cell of a subject that is not there
        (&forged(922, 3), "the core refuses the state with 2"),
    ] {
        with_file("damaged.state", bytes, |path| {
            let error = refused(&["audit", path]);
            assert!(
                error.contains(words) && error.contains(path),
                "{words}: {error}"
            );
            let (status, out, _) = run(&["audit", path, "--subject", "0"]);
            assert_eq!((status, out.as_str()), (3, ""), "{words}");
        });
    }
    assert!(!refused(&["audit", "examples/refused-no-end.sheet"]).contains("PILGONCA"));
}

/// STATE in version 1, with so many calls of the desk's besides the two that it has.
fn of_version_1(more: usize) -> Vec<u8> {
    let mut front = forged(8, 1);
    front.truncate(front.len() - 4);
    front[24..26].copy_from_slice(&(2 + more as u16).to_le_bytes());
    front.extend([0, 0, 0, 1].repeat(more));
    [&front[..], &checksum(&front).to_le_bytes()].concat()
}

/// Files from before each subject had calls of its own are read, but for those in which one has too many; then it is said whose they are.
#[test]
fn older_states_are_read() {
    let of = |more: usize| {
        let mut told = (0, String::new(), String::new());
        with_file("older.state", &of_version_1(more), |path| {
            told = run(&["audit", path, "--names", NAMES]);
        });
        told
    };
    assert_eq!(of(0).1, accepted(&["audit", STATE, "--names", NAMES]));
    let (status, out, _) = of(31);
    assert_eq!(status, 0);
    let none_left = "\n  subject 0 (desk)     made 32 of 32, none left\n";
    assert!(out.contains(none_left), "{out}");
    for more in [32, 254] {
        let (status, out, error) = of(more);
        assert_eq!((status, out.as_str()), (1, ""), "{error}");
        let made = format!("subject 0 has made {} calls, and ", 1 + more);
        assert!(error.contains("the core refuses the state with 2: "));
        assert!(error.contains(&made), "{error}");
    }
}

#[test]
fn a_state_in_the_place_of_a_sheet_or_a_script_is_named() {
    let cases: [(&[&str], i32, &str); 9] = [
        (&["check", STATE], 1, "sheet"),
        (&["fix", STATE], 1, "sheet"),
        (&["pairs", STATE], 1, "sheet"),
        (&["powers", STATE], 1, "sheet"),
        (&["compare", STATE, "2", "3"], 3, "sheet"),
        (&["diff", STATE, SHEET], 3, "sheet"),
        (&["diff", SHEET, STATE], 3, "sheet"),
        (&["run", STATE], 1, "script"),
        (&["run", STATE, "--json"], 1, "script"),
    ];
    for (words, status, due) in cases {
        let message =
            format!("desk: {STATE}: this is a saved state, which desk audit takes, and no {due}\n");
        assert_eq!(failed(words, status), message, "{words:?}");
    }
}

/// Seeds of states that a move to oneself, which is accepted, leaves unsound (Q19).
const LEFT_UNSOUND: [u64; 3] = [6404, 7899, 10_116];

/// Any sound state gets an answer, also one that no request led to.
#[test]
fn hostile_states_are_audited() {
    let mut audited = 0;
    let unsound = LEFT_UNSOUND.into_iter().map(hostile::generate);
    let others = tiny_first::states(0..120).map(|hostile| hostile.of);
    for (number, hostile) in others.chain(unsound).enumerate() {
        if let Ok(visit) = Visit::from_state(given(&hostile.state)) {
            with_file("hostile.state", &visit.save(), |path| {
                assert!(accepted(&["audit", path]).contains("Calls"), "{number}");
                audited += 1;
            });
        }
    }
    println!("{audited} audited");
    assert!(audited > 40);
}

/// H8 lets a derived type come from itself: telling it must come to an end.
#[test]
fn types_that_come_from_themselves_are_told() {
    let run = follow(&read("examples/two-adapters.script"))
        .expect("a sheet")
        .visit;
    let mut state = run.state().clone();
    for number in state.counts[3]..state.counts[4] {
        let key = &mut state.types[number * 128 + 4..][..2];
        key.fill(number as u8);
    }
    let visit = Visit::from_state(state).expect("sound");
    with_file("circle.state", &visit.save(), |path| {
        assert!(accepted(&["audit", path]).contains("[permits "));
    });
}
