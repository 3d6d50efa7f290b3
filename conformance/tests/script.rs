//! The proved program `script` (crates/script/out/script, built by `rt ci` or `tools/prove script`) against the reference, whole outputs, all
//! in twice the stack that it needs.

use conformance::calls::{self, all_calls, handed_out, one_of_each, ORDERS};
use conformance::heavy::MOST_TURNS;
use conformance::inputs::with_48_types;
use conformance::process::{built, feed, limited_to, plain, printed};
use conformance::said;
use conformance::scripts::{damaged, deepest, in_stack, need, proved, stack, Met};
use conformance::tiny_first;
use conformance::worst_scripts::{
    layered, nested_behind_calls, turned, LAYERED_CELLS, TURNED_CELLS,
};
use reference::coverage::OF_REQUESTS;
use reference::generators::{generate, Profile};
use reference::requests::Request;
use reference::script::{self, MAX_INPUT};
use reference::sheet;
use reference::state::{MAX_CALLS_EACH, MAX_CELLS};
use reference::table::MAX_ARGUMENTS;
use std::time::Duration;

const CASE_P: &str = include_str!("../../examples/case-p.sheet");

/// What is printed for requests on a sheet; the reference prints the same.
fn on(sheet: &str, requests: &str) -> String {
    let input = format!("{sheet}{requests}");
    Met::default().same(&proved, input.as_bytes(), "a case");
    String::from_utf8(proved(input.as_bytes())).expect("ASCII")
}

fn on_case_p(requests: &str) -> String {
    on(CASE_P, requests)
}

/// A line that is printed, counted from 0.
fn line(output: &str, number: usize) -> &str {
    output.lines().nth(number).unwrap_or("nothing")
}

fn last(output: &str) -> &str {
    output.lines().last().unwrap_or("nothing")
}

/// The six lines of Case P (K2 to K7).
#[test]
fn case_p() {
    let requests = "do=new 0 1 4\ndo=move 0 0 1 2\ndo=move 1 1 2 3\ndo=move 1 1 2 5\ndo=move 2 2 1 4\ndo=move 2 2 0 4\n";
    let output = "got=0 0\ngot=1 0\ngot=2 1\nno=8\nno=9\ngot=3 0\n";
    assert_eq!(on_case_p(requests), output);
    let file = include_bytes!("../../examples/case-p.script");
    assert!(file == format!("{CASE_P}{requests}").as_bytes());
}

/// Place 128 and a 129th (N4), and an adapter that finds no place behind the last object (X9).
#[test]
fn places_full() {
    let output = on_case_p(&"do=new 0 1 4\n".repeat(129));
    assert_eq!(line(&output, 127), "got=127 127");
    assert_eq!(line(&output, 128), "no=12");
    let wrapped = on_case_p(&format!(
        "{}do=move 0 0 1 2\ndo=move 1 127 2 3\ndo=move 1 127 2 3\ndo=new 0 1 4\n",
        "do=new 0 1 4\n".repeat(127)
    ));
    assert_eq!(line(&wrapped, 128), "got=128 127");
    assert_eq!(line(&wrapped, 129), "no=12");
    assert_eq!(line(&wrapped, 130), "no=12");
}

/// Cell 256 and a 257th, of a move and of a new (M5, N7).
#[test]
fn cells_full() {
    let moves = "do=move 0 0 1 2\n".repeat(256);
    let output = on_case_p(&format!("do=new 0 1 4\n{moves}do=new 0 1 4\n"));
    assert_eq!(line(&output, 255), "got=255 0");
    assert_eq!(line(&output, 256), "no=13");
    assert_eq!(line(&output, 257), "no=13");
}

/// A subject's call 32 and a 33rd, while another is still served (C7); a wrong number of arguments is seen before that (C4), and an
/// answer gives no call back (Q9).
#[test]
fn calls_full() {
    let calls = |subject: usize, count| format!("do=call {subject} {subject} 0\n").repeat(count);
    let given = "do=new 0 1 4\ndo=move 0 0 1 2\n";
    let behind = "do=call 0 0 0 1\ndo=call 0 1 0\ndo=answer 0 0 7\n";
    let output = on_case_p(&format!(
        "{given}{}{behind}{}{}",
        calls(0, 33),
        calls(0, 1),
        calls(1, 33)
    ));
    let of_second: String = (32..64).map(|call| format!("got={call} 0\n")).collect();
    assert_eq!(line(&output, 33), "got=31 0");
    let rest = output.split_inclusive('\n').skip(34).collect::<String>();
    let behind = "no=18\nno=15\nno=6\ngot=7\nno=18\n";
    assert_eq!(rest, format!("{behind}{of_second}no=18\n"));
}

/// As many calls as can be made: 512, 32 of each of sixteen subjects, in every order; the next of each gets 18, and so it does when
/// all are answered (Q9).
#[test]
fn calls_of_sixteen_subjects_full() {
    for order in ORDERS {
        let answers = (0..512).map(|call| Request::Answer {
            subject: 0,
            call,
            value: Some(call),
        });
        let before = [handed_out(), all_calls(order), one_of_each()].concat();
        let requests = before.into_iter().chain(answers).chain(one_of_each());
        let text: String = requests.map(|request| script::line(&request)).collect();
        let output = on(&calls::sheet(), &text);
        let got = (0..512).map(|call| format!("got={call} 0\n"));
        let full = "no=18\n".repeat(16);
        let given = (0..512).map(|call| format!("got={call}\n"));
        let due = got.chain([full.clone()]).chain(given).chain([full]);
        let rest = output.split_inclusive('\n').skip(16);
        assert_eq!(rest.collect::<String>(), due.collect::<String>());
    }
}

/// w32 at both ends and one beyond each, as an argument and as an answer (C14, A9).
#[test]
fn ends_of_w32() {
    for (value, fits) in [
        (2147483647i64, true),
        (2147483648, false),
        (-2147483648, true),
        (-2147483649, false),
        (i64::MAX, false),
        (i64::MIN, false),
    ] {
        let marked = on_case_p(&format!("do=new 0 1 4\ndo=call 0 0 1 {value}\n"));
        assert_eq!(last(&marked), if fits { "got=0 0" } else { "no=16" });
        let requests = format!("do=new 0 1 4\ndo=call 0 0 0\ndo=answer 0 0 {value}\n");
        let read = on_case_p(&requests);
        let answered = format!("got={value}");
        assert_eq!(last(&read), if fits { &answered } else { "no=16" });
    }
}

/// w64 takes and gives every number of 64 bits; the next one on either side is malformed (P9, P12).
#[test]
fn ends_of_w64() {
    let sheet = "guide=1\nsubjects=1\nmethods=1\ncats=0\ntypes=2\ntype=0\nrep=w64\ncat=0\n\
                 type=1\nrep=ref\ncat=0\nown=no\nm=avail(0)0\nend=sheet\n";
    for value in [i128::from(i64::MIN), -1, 0, i128::from(i64::MAX)] {
        let with = |value: i128| {
            let requests = format!("do=new 0 1 1\ndo=call 0 0 0 {value}\ndo=answer 0 0 {value}\n");
            on(sheet, &requests)
        };
        assert_eq!(with(value), format!("got=0 0\ngot=0 0\ngot={value}\n"));
        let beyond = value + value.signum();
        if i64::try_from(beyond).is_err() {
            assert_eq!(with(beyond), "got=0 0\nno=1\n");
        }
    }
}

/// A broader category equal to k (S12), one below it, and one above the last.
#[test]
fn broader_equal_to_k() {
    let sheet = |broader: usize| {
        format!(
            "guide=1\nsubjects=1\nmethods=1\ncats=2\nunder=0\nunder={broader}\ntypes=1\n\
             type=0\nrep=ref\ncat=2\nown=no\nm=avail()-\nend=sheet\n"
        )
    };
    for (broader, output) in [(1, "got=0 0\n"), (2, "no=3\n"), (3, "no=2\n")] {
        assert_eq!(on(&sheet(broader), "do=new 0 0 0\n"), output);
    }
}

/// Scripts of these profiles, from seed 0 on, behind those of tiny sheets.
fn generated(profiles: &[(Profile, u64)], met: &mut Met) {
    for script in tiny_first::scripts(profiles) {
        met.same(&proved, &script.of, &script.from);
    }
}

fn with_damage(seeds: u64, met: &mut Met) {
    for seed in 0..seeds {
        met.same(&proved, &damaged(seed), &format!("damaged here {seed}"));
    }
}

/// Every number that a request of a script can meet is met, by each request that can meet it. 19 is not: no state of a loaded
/// sheet was found that gives it.
#[test]
fn generated_scripts() {
    let mut met = Met::default();
    let profiles = [
        (Profile::Small, 1500),
        (Profile::Medium, 800),
        (Profile::Big, 100),
        (Profile::Full, 80),
        (Profile::Long, 80),
    ];
    generated(&profiles, &mut met);
    println!("{}", met.text());
    assert_eq!(met.missing(), [1, 2, 3, 4, 19]);
    for (name, numbers) in OF_REQUESTS {
        for number in *numbers {
            let count = met.seen.refused.get(&(*name, *number));
            assert!(count.is_some(), "{name} is never refused with {number}");
        }
    }
}

/// Damaged scripts: the numbers of sheets and of input are met, and lines that end a script. 4 never is: nothing writes a sheet.
#[test]
fn damaged_scripts() {
    let mut met = Met::default();
    generated(&[(Profile::Damaged, 1000)], &mut met);
    with_damage(2000, &mut met);
    println!("{}", met.text());
    assert!(met.sheets[1..].iter().all(|count| *count > 20));
    assert!(met.malformed > 500 && met.too_long > 5);
    assert_eq!(met.number(4), 0);
}

#[test]
#[ignore = "long"]
fn scripts_with_millions_of_requests() {
    let mut met = Met::default();
    let profiles = [
        (Profile::Small, 60_000),
        (Profile::Medium, 30_000),
        (Profile::Big, 2_000),
        (Profile::Full, 3_000),
        (Profile::Long, 3_000),
        (Profile::Damaged, 40_000),
    ];
    generated(&profiles, &mut met);
    with_damage(60_000, &mut met);
    println!("{}", met.text());
    assert_eq!(met.missing(), [4, 19]);
    assert!(met.requests > 2_000_000);
}

/// Case P and requests that fill an input of a length: new objects, and one of a type with so many digits.
fn filled(length: usize) -> Vec<u8> {
    let one = "do=new 0 1 4\n";
    let lines = (length - CASE_P.len()) / one.len() - 1;
    let mut input = format!("{CASE_P}{}do=new 0 1 ", one.repeat(lines)).into_bytes();
    input.resize(length - 1, b'7');
    input.push(b'\n');
    input
}

/// 32,768 bytes are allowed, one more prints `no=2` alone (P1); no input at all is a sheet without its first line (S9).
#[test]
fn longest_inputs() {
    let mut met = Met::default();
    let mut answer = |input: &[u8]| met.same(&proved, input, "long input").output;
    for length in [MAX_INPUT - 1, MAX_INPUT] {
        let mut input = filled(length);
        let output = answer(&input);
        assert!(output.starts_with(b"got=0 0\n") && output.ends_with(b"no=12\nno=7\n"));
        input[length - 1] = b'7';
        assert!(answer(&input).ends_with(b"no=12\nno=1\n"), "no LF");
        let mut input = format!("{CASE_P}do=new 0 1 4\ndo=new 0 1 ").into_bytes();
        input.resize(length - 1, b'7');
        input.push(b'\n');
        assert_eq!(answer(&input), b"got=0 0\nno=1\n", "one long number");
    }
    for length in [MAX_INPUT + 1, MAX_INPUT + 2, 2 * MAX_INPUT, 1 << 20] {
        assert_eq!(answer(&filled(length)), b"no=2\n");
        assert_eq!(answer(&vec![b'x'; length]), b"no=2\n");
    }
    assert_eq!(answer(b""), b"no=1\n");
    assert_eq!(answer(b"\n"), b"no=1\n");
    assert_eq!(answer(&[b'\n'; MAX_INPUT]), b"no=1\n");
    assert_eq!(answer(CASE_P.as_bytes()), b"");
}

/// Input that comes in pieces is read to its end.
#[test]
fn input_in_pieces() {
    let input = generate(1, Profile::Full);
    let long = filled(MAX_INPUT + 1);
    for (input, piece) in [(&input, 700), (&input, 4096), (&long, 5000)] {
        let output = feed(limited_to(stack(), &built("script")), |stdin| {
            for part in input.chunks(piece) {
                stdin.write_all(part)?;
                stdin.flush()?;
                std::thread::sleep(Duration::from_millis(3));
            }
            Ok(())
        });
        assert_eq!(printed(output), script::run(input), "pieces of {piece}");
    }
}

/// The program as it is, on a file, as ./run does it.
#[test]
fn a_file() {
    let path = concat!(env!("CARGO_MANIFEST_DIR"), "/../examples/case-p.script");
    let file = std::fs::File::open(path).expect("the file");
    let output = plain(&built("script")).stdin(file).output();
    assert_eq!(
        printed(output.expect("a program that starts")),
        script::run(include_bytes!("../../examples/case-p.script"))
    );
}

/// An input full of calls through many adapters; they are accepted until the cells are full.
#[test]
fn calls_through_40_adapters() {
    let input = layered(MAX_INPUT);
    let output = Met::default().same(&proved, &input, "40 adapters").output;
    let output = String::from_utf8(output).expect("ASCII");
    // four cells for each call, more of which are accepted than one subject makes
    let calls = output.lines().skip(LAYERED_CELLS);
    let accepted = calls.filter(|line| line.ends_with(" 40")).count();
    assert_eq!(accepted, (MAX_CELLS - LAYERED_CELLS) / MAX_ARGUMENTS);
    assert!(accepted > MAX_CALLS_EACH);
    assert_eq!(last(&output), "no=13");
}

/// The dearest calls known, accepted until cells are full at the last reference of one.
#[test]
fn references_that_turn_at_every_adapter() {
    let accepted = (MAX_CELLS - TURNED_CELLS) / MAX_ARGUMENTS;
    assert!(accepted > MAX_CALLS_EACH);
    let input = turned(accepted + 1);
    let output = Met::default().same(&proved, &input, "turning").output;
    let output = String::from_utf8(output).expect("ASCII");
    // new objects and moves leave no multiple of four
    assert_eq!((MAX_CELLS - TURNED_CELLS) % MAX_ARGUMENTS, 3);
    let calls: Vec<&str> = output.lines().skip(TURNED_CELLS).collect();
    let (last, first) = calls.split_last().expect("calls");
    assert_eq!((first.len(), *last), (accepted, "no=13"));
    let through = format!(" {MOST_TURNS}");
    assert!(first.iter().all(|line| line.ends_with(&through)));
}

/// What nests 118 types behind 511 calls is asked there: one call more would be accepted, all else gets 11.
#[test]
fn nested_behind_511_calls() {
    let output = Met::default().same(&proved, &nested_behind_calls(), "511 calls");
    let output = String::from_utf8(output.output).expect("ASCII");
    // two new objects, fifteen moves, the calls, and the four that nest
    let got = output.lines().filter(|line| line.starts_with("got="));
    assert_eq!(got.count(), 2 + 15 + 511);
    assert!(output.ends_with("got=510 0\nno=11\nno=11\nno=11\nno=11\n"));
}

/// A sheet of 48 types without requests prints nothing (P15).
#[test]
fn a_sheet_alone() {
    let text = sheet::text(&with_48_types());
    assert!(Met::default()
        .same(&proved, &text, "48 types")
        .output
        .is_empty());
}

/// The deepest scripts, each in twice what it needs.
#[test]
fn twice_the_stack_that_is_needed() {
    let mut above = Vec::new();
    for (name, input) in deepest() {
        let need = need(&input);
        println!("{name}: {need} KB");
        if need > said::SCRIPT + said::ALLOWED {
            above.push(format!("{name}: {need} KB"));
        }
        let output = printed(in_stack(2 * need, &input));
        assert!(output == script::run(&input), "{name}");
    }
    println!("all others in {} KB", stack());
    assert!(above.is_empty(), "more than is said: {above:#?}");
}
