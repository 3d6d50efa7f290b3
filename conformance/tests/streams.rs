//! The proved programs where their standard input or output fails: nothing that looks like an answer, and a word on the error stream.

use conformance::process::{built, printed, run};
use std::fs::{read, read_to_string, File, OpenOptions};
use std::io::{Read, Seek, SeekFrom};
use std::path::{Path, PathBuf};
use std::process::{Command, Output, Stdio};

/// Those that read, and all.
const READERS: [&str; 3] = ["doors", "pairs", "script"];
const PROGRAMS: [&str; 4] = ["doors", "pairs", "script", "tiny"];

/// An input that the program answers: for `doors` the lists of a visit, for the others Case P. `tiny` reads none.
fn input(program: &str) -> PathBuf {
    let name = match program {
        "doors" => "visit.doors",
        "pairs" => "case-p.sheet",
        _ => "case-p.script",
    };
    Path::new(env!("CARGO_MANIFEST_DIR"))
        .join("../examples")
        .join(name)
}

/// Nothing was printed, and the error stream has this line alone. The exit status tells nothing (P20).
fn failed(output: &Output, program: &str, what: &str) {
    let said = String::from_utf8_lossy(&output.stderr);
    assert_eq!(said, format!("{program}: cannot {what}\n"));
    let out = String::from_utf8_lossy(&output.stdout);
    assert_eq!((out.as_ref(), output.status.code()), ("", Some(0)));
}

/// A program on a file as its standard input.
fn on(program: &str, file: File) -> Output {
    Command::new(built(program)).stdin(file).output().unwrap()
}

/// A program on a right input, begun by the shell with a stream redirected.
fn redirected(program: &str, how: &str) -> Output {
    let mut command = Command::new("/bin/sh");
    command
        .arg("-c")
        .arg(format!("exec \"$0\" {how}"))
        .arg(built(program));
    run(command, &read(input(program)).unwrap())
}

#[test]
fn a_directory_is_no_input() {
    for program in READERS {
        let output = on(program, File::open("/").unwrap());
        failed(&output, program, "read standard input");
    }
}

#[test]
fn a_closed_input_is_none() {
    for program in READERS {
        let output = redirected(program, "<&-");
        failed(&output, program, "read standard input");
    }
}

/// This process's memory, a few bytes before the end of what is mapped where its stack is: a read gives these, and the next one fails.
fn ends_badly() -> File {
    let maps = read_to_string("/proc/self/maps").unwrap();
    let stack = maps.lines().find(|line| line.ends_with("[stack]"));
    let range = stack.and_then(|line| line.split(' ').next());
    let (_, end) = range.and_then(|range| range.split_once('-')).unwrap();
    let end = u64::from_str_radix(end, 16).unwrap();
    let mut file = File::open("/proc/self/mem").unwrap();
    file.seek(SeekFrom::Start(end - 100)).unwrap();
    file
}

#[test]
fn a_read_that_fails_halfway_is_not_the_end() {
    let (mut file, mut bytes) = (ends_badly(), [0; 200]);
    assert_eq!(file.read(&mut bytes).unwrap(), 100);
    assert!(file.read(&mut bytes).is_err());
    for program in READERS {
        failed(&on(program, ends_badly()), program, "read standard input");
    }
}

#[test]
fn an_output_that_fails_is_told() {
    for program in PROGRAMS {
        let full = OpenOptions::new().write(true).open("/dev/full").unwrap();
        let mut command = Command::new(built(program));
        command
            .stdin(File::open(input(program)).unwrap())
            .stdout(full);
        let child = command.stderr(Stdio::piped()).spawn().unwrap();
        let output = child.wait_with_output().unwrap();
        failed(&output, program, "write standard output");
        let output = redirected(program, ">&-");
        failed(&output, program, "write standard output");
    }
}

/// The streams as they should be: an answer, and nothing on the error stream.
#[test]
fn an_answer_is_all_there_is() {
    for program in PROGRAMS {
        let answer = printed(redirected(program, ""));
        assert!(answer.ends_with(b"\n"), "{program}");
    }
}
