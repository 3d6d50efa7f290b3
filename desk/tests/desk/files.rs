//! Files of the repository, files of a test, and the program run on them.

use reference::generators::on_tiny;
use reference::tiny::texts;
use std::fs;
use std::path::{Path, PathBuf};
use std::process::{Command, Output, Stdio};
use std::sync::atomic::{AtomicUsize, Ordering};

pub const SHEET: &str = "examples/case-p.sheet";
pub const SCRIPT: &str = "examples/case-p.script";
pub const NAMES: &str = "examples/case-p.names";

/// The variable that says how desk is called.
pub const CALLED: &str = "DESK_COMMAND";

pub fn desk(words: &[&str]) -> Command {
    program(Path::new(env!("CARGO_BIN_EXE_desk")), words)
}

pub fn program(path: &Path, words: &[&str]) -> Command {
    let mut command = Command::new(path);
    command.args(words).current_dir(root()).stdin(Stdio::null());
    command.env_remove(CALLED);
    command
}

/// Exit status, standard output, standard error.
pub fn run(words: &[&str]) -> (i32, String, String) {
    told(desk(words).output().expect("desk runs"))
}

pub fn told(output: Output) -> (i32, String, String) {
    let text = |bytes| String::from_utf8(bytes).expect("UTF-8");
    let status = output.status.code().expect("no signal");
    (status, text(output.stdout), text(output.stderr))
}

/// Words that are understood, with input that is right.
pub fn accepted(words: &[&str]) -> String {
    let (status, out, error) = run(words);
    assert_eq!((status, error.as_str()), (0, ""), "{words:?}");
    out
}

/// A question that is answered with no.
pub fn no(words: &[&str]) -> String {
    let (status, out, error) = run(words);
    assert_eq!((status, error.as_str()), (1, ""), "{words:?}");
    out
}

/// Words that are understood, with input that is not.
pub fn refused(words: &[&str]) -> String {
    failed(words, 1)
}

/// What ends with this status and a message: its own, or one about a place in a file.
pub fn failed(words: &[&str], expected: i32) -> String {
    let (status, _, error) = run(words);
    assert_eq!(status, expected, "{words:?}: {error}");
    let first = error.lines().next().unwrap_or("");
    assert!(is_message(first), "{words:?}: {error}");
    error
}

pub fn is_message(line: &str) -> bool {
    line.starts_with("desk: ") || place(line).is_some()
}

/// `FILE:LINE:COLUMN: ` in front of a message.
pub fn place(line: &str) -> Option<(&str, usize, usize)> {
    let (place, _) = line.split_once(": ")?;
    let mut parts = place.rsplitn(3, ':');
    let (column, line) = (parts.next()?.parse().ok()?, parts.next()?.parse().ok()?);
    Some((parts.next()?, line, column))
}

/// A file of this call alone: tests run side by side, and two may call theirs the same.
fn file(name: &str, bytes: &[u8]) -> PathBuf {
    static FILES: AtomicUsize = AtomicUsize::new(0);
    let number = FILES.fetch_add(1, Ordering::Relaxed);
    let name = format!("{}-{number}-{name}", std::process::id());
    let path = PathBuf::from(env!("CARGO_TARGET_TMPDIR")).join(name);
    fs::write(&path, bytes).expect("a file");
    path
}

pub fn with_file(name: &str, bytes: &[u8], test: impl FnOnce(&str)) {
    let path = file(name, bytes);
    test(path.to_str().expect("UTF-8"));
    fs::remove_file(path).expect("the file is there");
}

/// Every tiny sheet for one command, the commands in turn; with requests behind where the command takes a script. So each is given to desk once.
pub fn tiny_in_turn() -> impl Iterator<Item = (&'static str, Vec<u8>)> {
    let commands = ["check", "pairs", "powers", "run", "audit"];
    let both = texts().into_iter().zip(on_tiny(0));
    commands
        .into_iter()
        .cycle()
        .zip(both)
        .map(|(command, (sheet, script))| match command {
            "run" | "audit" => (command, script),
            _ => (command, sheet),
        })
}

pub fn root() -> PathBuf {
    Path::new(env!("CARGO_MANIFEST_DIR")).join("..")
}

pub fn read(name: &str) -> Vec<u8> {
    fs::read(root().join(name)).unwrap_or_else(|error| panic!("{name}: {error}"))
}
