//! Another program put beside this model: run it, compare, and shrink the
//! input of a difference.

use crate::shrink::shrink;
use std::io::{Read, Write};
use std::path::Path;
use std::process::{Command, Stdio};

/// What a program prints for an input on its standard input.
pub fn run(program: &Path, arguments: &[&str], input: &[u8]) -> std::io::Result<Vec<u8>> {
    let mut child = Command::new(program)
        .args(arguments)
        .stdin(Stdio::piped())
        .stdout(Stdio::piped())
        .spawn()?;
    let stdin = child.stdin.take();
    let input = input.to_vec();
    let writer = std::thread::spawn(move || {
        if let Some(mut stdin) = stdin {
            // A program that stops reading early is judged by what it prints.
            let _ = stdin.write_all(&input);
        }
    });
    let mut output = Vec::new();
    if let Some(mut stdout) = child.stdout.take() {
        stdout.read_to_end(&mut output)?;
    }
    child.wait()?;
    let _ = writer.join();
    Ok(output)
}

/// The smallest input found for which two programs differ, and what they say.
#[derive(Clone, PartialEq, Eq)]
pub struct Difference {
    pub input: Vec<u8>,
    pub theirs: Vec<u8>,
    pub ours: Vec<u8>,
}

/// Compares two programs on an input; a difference is shrunk.
pub fn difference(
    input: &[u8],
    theirs: &dyn Fn(&[u8]) -> Vec<u8>,
    ours: &dyn Fn(&[u8]) -> Vec<u8>,
) -> Option<Difference> {
    if theirs(input) == ours(input) {
        return None;
    }
    let input = shrink(input, &mut |input| theirs(input) != ours(input));
    Some(Difference {
        theirs: theirs(&input),
        ours: ours(&input),
        input,
    })
}

impl std::fmt::Debug for Difference {
    fn fmt(&self, out: &mut std::fmt::Formatter<'_>) -> std::fmt::Result {
        let text = |bytes: &[u8]| String::from_utf8_lossy(bytes).to_string();
        write!(
            out,
            "\n--- input\n{}--- theirs\n{}--- ours\n{}",
            text(&self.input),
            text(&self.theirs),
            text(&self.ours)
        )
    }
}
