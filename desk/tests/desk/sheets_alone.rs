//! The program without the feature `visits`: sheets alone, over the libraries of sheets alone. ./run builds no such program, but all of desk over stand-ins of
//! the libraries that are not there yet (decision 85).

use crate::doors::{ARRIVALS, MARKS};
use crate::files::{program, root, run, told, NAMES, SCRIPT, SHEET};
use std::path::PathBuf;
use std::process::Command;

fn built() -> PathBuf {
    let target = root().join("target-rust/sheets");
    let mut cargo = Command::new(env!("CARGO"));
    cargo.args(["build", "--quiet", "--release", "--offline", "-p", "desk"]);
    cargo.args(["--no-default-features", "--target-dir"]);
    let status = cargo.arg(&target).current_dir(root()).status();
    assert!(status.expect("cargo runs").success());
    target.join("release/desk")
}

#[test]
fn sheets_are_answered_alike_and_scripts_not_at_all() {
    let path = built();
    let alone = |words: &[&str]| told(program(&path, words).output().expect("desk runs"));
    for words in [
        &["check", "examples/refused-leading-zero.sheet"][..],
        &["check", SHEET, "--names", NAMES],
        &["pairs", SHEET],
        &["compare", SHEET, "3", "2"],
        &["explain", "8"],
        &["tiny", "44"],
        &["tiny", "--list"],
        &["tiny", "--json"],
        &["doors", MARKS, ARRIVALS, "--within=1000"],
        &["doors", MARKS, ARRIVALS, "--within=1000", "--json"],
        &["help"],
    ] {
        assert_eq!(alone(words), run(words), "{words:?}");
    }
    for words in [
        &["run", SCRIPT][..],
        &["audit", SCRIPT],
        &["powers", SHEET],
        &["diff", SHEET, SHEET],
    ] {
        let command = words[0];
        let (status, out, error) = alone(words);
        assert_eq!((status, out.as_str()), (2, ""), "{error}");
        assert_eq!(error.lines().count(), 1, "{error}");
        assert!(
            error.contains(&format!("without desk {command}")),
            "{error}"
        );
    }
}
