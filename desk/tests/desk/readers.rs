//! README's first screen has a line to type for each reader, and what it takes; the glossary is linked.

use crate::files::{accepted, read, root};
use std::os::unix::fs::PermissionsExt;

fn page(name: &str) -> String {
    String::from_utf8(read(name)).expect("UTF-8")
}

/// As many lines as a small terminal has.
fn first_screen() -> String {
    let readme = page("README.md");
    let screen: Vec<&str> = readme.lines().take(24).collect();
    for line in &screen {
        assert!(line.chars().count() <= 80, "{line}");
    }
    screen.join("\n")
}

/// What stands behind a reader's name, up to two spaces.
fn line_for(screen: &str, reader: &str) -> String {
    let mut lines = screen.lines();
    let line = lines.find_map(|line| line.trim_start().strip_prefix(reader));
    let line = line
        .unwrap_or_else(|| panic!("nothing for {reader}"))
        .trim();
    line.split("  ").next().expect("a line").to_string()
}

fn can_be_run(path: &str) {
    let file = root().join(path);
    let mode = file
        .metadata()
        .unwrap_or_else(|error| panic!("{path}: {error}"));
    assert!(mode.permissions().mode() & 0o111 != 0, "{path}");
}

#[test]
fn each_reader_finds_a_line_to_type() {
    let screen = first_screen();
    for (reader, command) in [("a desk clerk", "check"), ("a referee", "audit")] {
        let line = line_for(&screen, reader);
        let words: Vec<&str> = line.split(' ').collect();
        assert_eq!(words[..3], ["./run", "desk", command], "{reader}");
        accepted(&words[2..]);
    }
    let c = line_for(&screen, "a C engineer");
    can_be_run(c.split(' ').next().expect("a tool"));
    let rust = line_for(&screen, "a Rust developer");
    let (tool, cargo) = rust.split_once(" && ").expect("two commands");
    can_be_run(tool);
    assert_eq!(cargo, "cargo test --release --offline -p pilgonca");
    assert!(page("pilgonca/Cargo.toml").contains("name = \"pilgonca\""));
    can_be_run(&line_for(&screen, "one who doubts"));
}

#[test]
fn the_first_screen_says_what_it_takes() {
    let screen = first_screen().replace('\n', " ");
    let cargo = page("Cargo.toml");
    let (_, version) = cargo.split_once("rust-version = \"").expect("it is said");
    let (version, _) = version.split_once('"').expect("its end");
    for words in [
        &format!("cargo of Rust {version} or later"),
        "`cc`, which cargo links with, and `ar`",
        "`rt --version` prints what toolchain.txt has",
        "pkg-config to find what is installed",
    ] {
        assert!(screen.contains(words), "{words}");
    }
    assert!(!page("toolchain.txt").trim().is_empty());
}

#[test]
fn the_glossary_is_linked() {
    assert!(page("docs/SPEC.md").contains("\n## Words\n"));
    assert!(first_screen().contains("[the glossary](docs/SPEC.md#words)"));
    assert!(page("docs/GUIDE.md").contains("[glossary](SPEC.md#words)"));
}
