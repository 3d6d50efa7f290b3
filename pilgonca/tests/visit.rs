//! The headers and the examples in C compile without a warning with the system's C compiler; visit.c, route.c, own_count.c, tiny.c and doors.c print what
//! stands beside them, as examples/visit.out, and saved.c reads and writes the saved states that this package does.

use pilgonca::saved::checksum;
use pilgonca::{raw, Refusal, Subject, Type, Visit, EXAMPLE};
use std::fs;
use std::path::{Path, PathBuf};
use std::process::{Command, Output};

fn root() -> PathBuf {
    Path::new(env!("CARGO_MANIFEST_DIR")).join("..")
}

fn example(name: &str) -> PathBuf {
    root().join("examples").join(name)
}

/// Whether the compiler accepts what it is told to compile, and what it says.
fn told(words: &[&str], tell: impl FnOnce(&mut Command) -> &mut Command) -> (bool, String) {
    let mut cc = Command::new("cc");
    cc.args(words)
        .args(["-Wall", "-Wextra", "-Werror", "-pedantic", "-I"])
        .arg(root().join("include"));
    let output = tell(&mut cc).output().expect("a C compiler, cc");
    let said = String::from_utf8_lossy(&output.stderr).into_owned();
    (output.status.success(), said)
}

/// The compiler accepts it as C99, and says nothing.
fn compile(tell: impl FnOnce(&mut Command) -> &mut Command) {
    assert_eq!(told(&["-std=c99"], tell), (true, String::new()));
}

/// Compiles a program of one file over the libraries; the path of the program.
fn compiled(source: &Path) -> PathBuf {
    let name = source.file_stem().expect("a name");
    let program = Path::new(env!("CARGO_TARGET_TMPDIR")).join(name);
    compile(|cc| {
        cc.arg(source)
            .args(env!("PILGONCA_LIBRARIES").split(':'))
            .arg("-o")
            .arg(&program)
    });
    program
}

const HEADERS: [&str; 2] = ["pilgonca.h", "pilgonca_tools.h"];
const LANGUAGES: [[&str; 2]; 2] = [["-xc", "-std=c99"], ["-xc++", "-std=c++98"]];

#[test]
fn each_header_stands_alone() {
    for name in HEADERS {
        for language in LANGUAGES {
            let header = root().join("include").join(name);
            let found = told(&language, |cc| cc.arg("-fsyntax-only").arg(header));
            assert_eq!(found, (true, String::new()), "{name} {language:?}");
        }
    }
}

/// Where size_t has 32 bits a header does not compile, and the message says why; what it includes does.
#[test]
fn a_size_t_of_32_bits_is_refused() {
    let bare = file("bare.h");
    fs::write(&bare, "#include <stddef.h>\n#include <stdint.h>\n").expect("a file");
    for language in LANGUAGES {
        // the compiler's own headers, since the system's for 32 bits may be missing
        let on_32_bits = |file: &Path| {
            let words = ["-m32", "-ffreestanding", "-fsyntax-only"];
            told(&language, |cc| cc.args(words).arg(file))
        };
        assert_eq!(on_32_bits(&bare), (true, String::new()), "{language:?}");
        for name in HEADERS {
            let (accepted, said) = on_32_bits(&root().join("include").join(name));
            assert!(!accepted, "{name} {language:?}");
            assert!(said.contains("needs_a_size_t_of_64_bits"), "{said}");
        }
    }
}

/// What `pilgonca_refusal_text` says for each number is what the crate says.
#[test]
fn c_has_the_words_of_the_refusals() {
    let source = file("words.c");
    let text = "#include \"pilgonca.h\"\n#include <stdio.h>\n\
        int main(void) { for (size_t n = 0; n < 100; n++) puts(pilgonca_refusal_text(n)); return 0; }\n";
    fs::write(&source, text).expect("a file");
    let output = Command::new(compiled(&source)).output().expect("runs");
    let said = String::from_utf8(output.stdout).expect("ASCII");
    let words = |number: usize| match (number, Refusal::from_number(number)) {
        (0, _) => String::from("accepted"),
        (_, Some(refusal)) => refusal.to_string(),
        (_, None) => String::from("there is no refusal with this number"),
    };
    let expected: Vec<String> = (0..100).map(words).collect();
    assert_eq!(said.lines().collect::<Vec<_>>(), expected);
}

/// An example in C prints on its sheet what stands beside it, and refuses a sheet that the core refuses.
fn prints(name: &str, sheet: &str) {
    let program = compiled(&example(&format!("{name}.c")));
    let run = |sheet: &str| {
        let output = Command::new(&program).arg(example(sheet)).output();
        output.expect("the program runs")
    };
    let output = run(sheet);
    let expected = fs::read_to_string(example(&format!("{name}.out"))).expect("what it prints");
    assert_eq!(String::from_utf8_lossy(&output.stdout), expected);
    assert!(output.status.success() && output.stderr.is_empty());

    let output = run("refused-leading-zero.sheet");
    let said = String::from_utf8_lossy(&output.stderr).into_owned();
    assert!(said.contains("refused with 1 at byte"), "{said}");
    assert!(!output.status.success() && output.stdout.is_empty());
}

#[test]
fn the_c_example_prints_its_week() {
    prints("visit", "case-p.sheet");
    let said = fs::read_to_string(example("visit.out")).expect("what it prints");
    // what is refused is refused by the adapter, and not since the type lets nobody call
    assert!(said.contains("refused with 10") && !said.contains("refused with 14"));
}

/// Four arguments in one call from C, accepted and refused; what it prints has the answers of examples/route.script.
#[test]
fn the_c_example_of_four_arguments_prints_its_route() {
    prints("route", "route.sheet");
    let said = fs::read_to_string(example("route.out")).expect("what it prints");
    for words in [
        "call 0, adapters 0",
        "call 1, adapters 1",
        "refused with 8",
        "refused with 14",
        "refused with 15",
        "refused with 16",
    ] {
        assert!(said.contains(words), "{words}");
    }
}

/// One subject makes all of its calls from C, and the others are served.
#[test]
fn the_c_example_of_own_counts_serves_the_others() {
    prints("own_count", "case-p.sheet");
    let said = fs::read_to_string(example("own_count.out")).expect("what it prints");
    for words in [
        "32 times, then refused with 18",
        "desk 0, scanner 32, player 0; at most 32 each",
        "the player reads: call 32\n",
        "desk 1, scanner 32, player 32;",
    ] {
        assert!(said.contains(words), "{words}");
    }
}

/// An example in C that takes no sheet prints what stands beside it, which is given back.
fn prints_alone(name: &str) -> String {
    let output = Command::new(compiled(&example(&format!("{name}.c")))).output();
    let output = output.expect("the program runs");
    let expected = fs::read_to_string(example(&format!("{name}.out"))).expect("what it prints");
    assert_eq!(String::from_utf8_lossy(&output.stdout), expected);
    assert!(output.status.success() && output.stderr.is_empty());
    expected
}

/// Every tiny sheet from C: it says of what it was given that each is accepted.
#[test]
fn the_c_example_of_tiny_sheets_reads_them_all() {
    let count = format!("{} sheets, and each is accepted\n", raw::TINY_SHEETS);
    assert!(prints_alone("tiny").ends_with(&count));
}

/// Marks against arrivals from C: counted by a narrow and a wide tolerance, refused for a list that falls and for a tolerance too large.
#[test]
fn the_c_example_of_marks_and_arrivals_counts_them() {
    let said = prints_alone("doors");
    for words in [
        "within 1500 ms: pairs 3, unpaired marks 2, unpaired arrivals 1",
        "within 60000 ms: pairs 4, unpaired marks 1, unpaired arrivals 0",
        "3 marks, 4 arrivals, within 1500 ms: refused with 22",
        "within 60001 ms: refused with 22",
        "still 4, 1 and 0",
    ] {
        assert!(said.contains(words), "{words}");
    }
}

/// A file of this test alone.
fn file(name: &str) -> PathBuf {
    Path::new(env!("CARGO_TARGET_TMPDIR")).join(name)
}

fn saved(program: &Path, words: &[&Path]) -> Output {
    let output = Command::new(program).args(words).output();
    output.expect("the program runs")
}

/// What C makes of bytes as a saved state: what it says, and whether it takes them.
fn taken(program: &Path, bytes: &[u8]) -> (String, bool) {
    let path = file("taken.state");
    fs::write(&path, bytes).expect("a file");
    let output = saved(program, &[&path]);
    let said = [output.stdout, output.stderr].concat();
    (
        String::from_utf8_lossy(&said).into_owned(),
        output.status.success(),
    )
}

#[test]
fn a_saved_state_is_the_same_in_c() {
    let program = compiled(&example("saved.c"));
    written_alike(&program);
    refused_alike(&program);
    old_ones_alike(&program);
}

fn written_alike(program: &Path) {
    let written = file("written.state");
    let sheet = root().join("examples/case-p.sheet");
    let output = saved(program, &[&sheet, &written]);
    assert!(output.status.success(), "{output:?}");
    let example = fs::read(root().join("examples/optional.state")).expect("a state");
    assert_eq!(fs::read(&written).expect("written"), example);
    let read = Visit::from_saved(&example).expect("a state");
    assert_eq!(read.save(), example);
    let mut visit = Visit::load(EXAMPLE).expect("a sheet");
    let held = visit.new_object(Subject(0), Type(1), Type(2));
    let cell = held.expect("made").cell;
    let adapted = visit.move_reference(Subject(0), cell, Subject(1), Type(3));
    adapted.expect("an adapter");
    let (said, accepted) = taken(program, &visit.save());
    assert!(accepted, "{said}");
    assert_eq!(said, "cells 2, places 2, calls 0\n");
}

/// One damage of each kind.
fn refused_alike(program: &Path) {
    let bytes = fs::read(root().join("examples/optional.state")).expect("a state");
    let with = |at: usize, byte: u8| {
        let mut front = bytes[..bytes.len() - 4].to_vec();
        front[at] = byte;
        [&front[..], &checksum(&front).to_le_bytes()].concat()
    };
    let mut damaged = bytes.clone();
    damaged[100] ^= 1;
    for (bytes, words) in [
        (&b"guide=1"[..], "no saved state"),
        (&bytes[..bytes.len() - 1], "cut short"),
        (&[&bytes[..], b"x"].concat(), "too long"),
        (&with(8, 0), "of another version"),
        (&with(8, 3), "of another version"),
        (&with(9, 1), "of another version"),
        (&with(21, 9), "a count is above its limit"),
        (&damaged, "damaged"),
        (&with(bytes.len() - 5, 2), "refused by the core"),
    ] {
        assert_eq!(taken(program, bytes), (format!("{words}\n"), false));
        assert!(Visit::from_saved(bytes).is_err());
    }
}

/// A file of version 1 is read where it has at most 256 calls, and no more than 32 of one caller; what is told of others is told apart.
fn old_ones_alike(program: &Path) {
    let bytes = fs::read(root().join("examples/optional.state")).expect("a state");
    let signed = |front: &[u8]| [front, &checksum(front).to_le_bytes()].concat();
    // so many calls, by 16 subjects in turn or by one alone, where there were two
    let of = |version: u8, calls: u16, alone: Option<u8>| {
        let mut front = bytes[..bytes.len() - 12].to_vec();
        front[8] = version;
        // as many subjects as there can be
        front[10] = 16;
        front[24..26].copy_from_slice(&calls.to_le_bytes());
        let caller = |number: u16| alone.unwrap_or((number % 16) as u8);
        let records = (0..calls).flat_map(|number| [caller(number), 0, 0, 1]);
        front.extend(records);
        signed(&front)
    };
    let taken_with = |calls: u16| (format!("cells 3, places 1, calls {calls}\n"), true);
    for (bytes, calls) in [
        (of(1, 2, None), 2),
        (of(1, 256, None), 256),
        (of(1, 32, Some(2)), 32),
        (of(2, 257, None), 257),
        (of(2, 512, None), 512),
    ] {
        assert_eq!(taken(program, &bytes), taken_with(calls));
        let read = Visit::from_saved(&bytes).expect("a state");
        assert_eq!(read.calls().count(), usize::from(calls));
        let (said, accepted) = taken(program, &read.save());
        assert_eq!((said, accepted), taken_with(calls));
    }
    let many = "refused by the core: a subject has made too many calls";
    for (bytes, words) in [
        (of(1, 257, None), "a count is above its limit"),
        (of(2, 513, None), "a count is above its limit"),
        (of(1, 33, Some(2)), many),
        (of(1, 256, Some(15)), many),
        (of(2, 33, Some(2)), many),
        // callers that are no subjects
        (of(1, 33, Some(16)), "refused by the core"),
        (of(1, 256, Some(200)), "refused by the core"),
        (of(2, 33, Some(200)), "refused by the core"),
    ] {
        assert_eq!(taken(program, &bytes), (format!("{words}\n"), false));
        assert!(Visit::from_saved(&bytes).is_err());
    }
}
