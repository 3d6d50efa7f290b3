//! README.md and docs/GUIDE.md quote commands, each behind `$`, with what they print: it is what they print.

use crate::files::{desk, read, told, CALLED, SCRIPT};

/// The quoted commands of a text, each with the lines under it, in blocks that are set in by four spaces.
fn quoted(text: &str) -> Vec<(String, String)> {
    let mut found: Vec<(String, String)> = Vec::new();
    let mut inside = false;
    for line in text.lines() {
        let set_in = line.strip_prefix("    ");
        match set_in.and_then(|line| line.strip_prefix("$ ")) {
            Some(command) => {
                found.push((command.to_string(), String::new()));
                inside = true;
            }
            None => inside &= line.is_empty() || set_in.is_some(),
        }
        if let (true, Some((_, output)), None) =
            (inside, found.last_mut(), line.strip_prefix("    $ "))
        {
            output.push_str(set_in.unwrap_or(""));
            output.push('\n');
        }
    }
    found
}

fn text(bytes: &[u8]) -> String {
    String::from_utf8(bytes.to_vec()).expect("UTF-8")
}

/// What the program `doors` prints for an input that it accepts (P27, P29).
fn doors(input: &str) -> String {
    let lines: Vec<&str> = input.lines().collect();
    let [within, marks, arrivals] = lines[..] else {
        panic!("three lines");
    };
    let times = |line: &str| -> Vec<u64> {
        let words = line.split(' ');
        words.map(|word| word.parse().expect("a time")).collect()
    };
    let within = within.strip_prefix("within=").map(times).expect("a word");
    let counts = pilgonca::doors(&times(marks), &times(arrivals), within[0]);
    let pilgonca::Doors {
        pairs,
        unpaired_marks,
        unpaired_arrivals,
    } = counts.expect("it is accepted");
    format!("got={pairs} {unpaired_marks} {unpaired_arrivals}\n")
}

/// What a quoted command prints. `./run` alone is the program `script` on Case P.
fn printed(command: &str) -> String {
    let words: Vec<&str> = command.split(' ').collect();
    match &words[..] {
        ["./run"] => text(&pilgonca::script(&read(SCRIPT))),
        ["./run", "doors", file] => doors(&text(&read(file))),
        ["./run", "desk", words @ ..] => {
            let mut command = desk(words);
            command.env(CALLED, "./run desk");
            let (_, out, error) = told(command.output().expect("desk runs"));
            out + &error
        }
        _ => panic!("{command} is no command that is tested here"),
    }
}

#[test]
fn what_is_quoted_is_printed() {
    for (file, least) in [("README.md", 2), ("docs/GUIDE.md", 2)] {
        let commands = quoted(&text(&read(file)));
        assert!(commands.len() >= least, "{file}: {}", commands.len());
        for (command, output) in commands {
            assert_eq!(
                output.trim_end(),
                printed(&command).trim_end(),
                "{file}: {command}"
            );
        }
    }
}
