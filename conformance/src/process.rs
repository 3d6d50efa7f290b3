//! Programs run with input on their standard input, on request in a limited stack.

use crate::stream::{next_pieces, pieces};
use std::io::Write;
use std::path::{Path, PathBuf};
use std::process::{Command, Output, Stdio};

/// The stack of a device, in KB.
pub const STACK: usize = 256;

/// A proved program, in its crate's out/; without it nothing that runs it can pass.
pub fn built(name: &str) -> PathBuf {
    let crates = Path::new(env!("CARGO_MANIFEST_DIR")).join("../crates");
    let path = crates.join(name).join("out").join(name);
    assert!(
        path.is_file(),
        "{} is missing: build it with `tools/prove {name}`",
        path.display()
    );
    path
}

/// The program as it is.
pub fn plain(program: &Path) -> Command {
    Command::new(program)
}

/// The program with the main thread's stack limited to that of a device.
pub fn limited(program: &Path) -> Command {
    limited_to(STACK, program)
}

/// The program with the main thread's stack limited to so many KB. Without the environment, which lies on that stack too.
pub fn limited_to(stack: usize, program: &Path) -> Command {
    let mut command = Command::new("/bin/sh");
    command
        .arg("-c")
        .arg(format!(
            "ulimit -s {stack} && test \"$(ulimit -s)\" = {stack} && exec \"$0\" \"$@\""
        ))
        .arg(program)
        .env_clear();
    command
}

/// The same with memory laid out alike in every run, so that a need can be measured: the kernel else begins the stack up to 8 KB
/// further down, at random.
pub fn limited_still(stack: usize, program: &Path) -> Command {
    let mut command = limited_to(stack, Path::new("/usr/bin/setarch"));
    command
        .args([std::env::consts::ARCH, "--addr-no-randomize"])
        .arg(program);
    command
}

/// Runs a program to its end; `write` feeds its standard input.
pub fn feed(
    mut command: Command,
    write: impl FnOnce(&mut dyn Write) -> std::io::Result<()> + Send,
) -> Output {
    let mut child = command
        .stdin(Stdio::piped())
        .stdout(Stdio::piped())
        .stderr(Stdio::piped())
        .spawn()
        .unwrap_or_else(|error| panic!("{command:?}: {error}"));
    let mut stdin = child.stdin.take().expect("standard input is piped");
    std::thread::scope(|scope| {
        scope.spawn(move || {
            // A program that stops reading early is judged by what it prints.
            let _ = write(&mut stdin);
        });
        child.wait_with_output().expect("a child that was started")
    })
}

/// Runs a program to its end on an input.
pub fn run(command: Command, input: &[u8]) -> Output {
    feed(command, |stdin| stdin.write_all(input))
}

/// What a program prints; a bad end, or a word on the error stream, is something else, so that it too differs from what is right.
pub fn printed_or_said(output: Output) -> Vec<u8> {
    if output.status.success() && output.stderr.is_empty() {
        return output.stdout;
    }
    let message = String::from_utf8_lossy(&output.stderr);
    format!("{}: {message}\n", output.status).into_bytes()
}

/// What a program prints for each of many inputs, its stack limited to that of a device. `starter` is small_stack, which is limited so itself and starts the
/// program again and again: with a shell for each it takes three times as long.
pub fn printed_each(starter: &Path, program: &Path, inputs: &[Vec<u8>]) -> Vec<Vec<u8>> {
    let mut command = limited(starter);
    command.arg("each").arg(program);
    let outputs = printed(run(command, &pieces(inputs)));
    let outputs: Vec<Vec<u8>> = next_pieces(&outputs).map(<[u8]>::to_vec).collect();
    assert_eq!(outputs.len(), inputs.len());
    outputs
}

/// What a program printed, having ended well.
pub fn printed(output: Output) -> Vec<u8> {
    assert!(
        output.status.success() && output.stderr.is_empty(),
        "{}: {}",
        output.status,
        String::from_utf8_lossy(&output.stderr)
    );
    output.stdout
}

/// The least stack in which a program comes to its end, in steps of 4 KB. In `most` KB it does.
pub fn least_stack(most: usize, ends: impl Fn(usize) -> bool) -> usize {
    let (mut least, mut enough) = (0, most);
    assert!(ends(enough), "{most} KB are too few");
    while enough - least > 4 {
        let middle = (least + enough) / 8 * 4;
        if ends(middle) {
            enough = middle;
        } else {
            least = middle;
        }
    }
    enough
}
