//! The commands, run as programs, against the library.

use reference::external::{difference, run};
use reference::generators::{doors_input, generate, on_tiny, PROFILES};
use reference::{doors, dump, pairs, script, tiny};
use std::path::Path;

fn command(arguments: &[&str], input: &[u8]) -> Vec<u8> {
    let program = Path::new(env!("CARGO_BIN_EXE_reference"));
    run(program, arguments, input).unwrap()
}

/// A command and what the library says for an input.
type Pair = (&'static str, fn(&[u8]) -> Vec<u8>);

#[test]
fn commands_print_what_the_library_says() {
    let pairs: [Pair; 4] = [
        ("script", script::run),
        ("sheet", pairs::run_sheet),
        ("pairs", pairs::run),
        ("dump", dump::run),
    ];
    let of_profile = |profile| (0..4).map(move |seed| generate(seed, profile));
    let generated = PROFILES.into_iter().flat_map(of_profile);
    for input in on_tiny(0).into_iter().chain(generated) {
        let (sheet, _) = script::split(&input);
        for (name, ours) in pairs {
            let input = if name == "script" || name == "dump" {
                &input
            } else {
                sheet
            };
            let found = difference(input, &|input| command(&[name], input), &ours);
            assert_eq!(found, None);
        }
    }
}

#[test]
fn doors_prints_what_the_library_says() {
    for seed in 0..116 {
        let input = doors_input(seed);
        let found = difference(&input, &|input| command(&["doors"], input), &doors::run);
        assert_eq!(found, None, "{seed}");
        assert_eq!(command(&["gen", &seed.to_string(), "doors"], b""), input);
    }
}

/// P21.
#[test]
fn tiny_reads_nothing() {
    for input in [&b""[..], &[b'x'; 100_000]] {
        assert_eq!(command(&["tiny"], input), tiny::printed());
    }
}

#[test]
fn sheets_and_pairs() {
    let sheet =
        b"guide=1\nsubjects=1\nmethods=1\ncats=0\ntypes=1\ntype=0\nrep=w32\ncat=0\nend=sheet\n";
    assert_eq!(command(&["sheet"], sheet), b"ok\n");
    assert_eq!(command(&["pairs"], sheet), b"0 0 1 1 1 1\n");
    assert_eq!(
        command(&["sheet"], b"guide=1\nsubjects=0\n"),
        b"no=2 at=8\n"
    );
    assert_eq!(
        command(&["pairs"], b"guide=1\nsubjects=0\n"),
        b"no=2 at=8\n"
    );
    assert_eq!(command(&["pairs"], &[b'x'; 32_769]), b"no=2\n");
    assert_eq!(command(&["sheet"], b""), b"no=1 at=0\n");
}

#[test]
fn generated_inputs_and_states_print() {
    for profile in PROFILES {
        let input = command(&["gen", "3", profile.name()], b"");
        assert_eq!(input, generate(3, profile), "{}", profile.name());
    }
    assert!(!command(&["hostile", "3"], b"").is_empty());
    assert!(command(&["gen", "3", "huge"], b"").is_empty());
}
