//! The program over the reader's library and stand-ins for the others, as ./run builds it where not every library is there yet.

use crate::files::{program, root, run, told, NAMES, SCRIPT, SHEET};
use std::path::PathBuf;
use std::process::Command;

fn built() -> PathBuf {
    let target = root().join("target-rust/desk-check");
    let mut stand_ins = Command::new(root().join("tools/stand-ins"));
    let lib = root().canonicalize().expect("a path");
    let lib = lib.join("target-rust/desk-check/lib");
    stand_ins.arg(&lib).arg("export_sheet");
    assert!(stand_ins.status().expect("a shell").success());
    let mut cargo = Command::new(env!("CARGO"));
    cargo.args(["build", "--quiet", "--release", "--offline", "-p", "desk"]);
    cargo.arg("--target-dir").arg(&target).current_dir(root());
    let status = cargo.env("PILGONCA_LIB_DIR", lib).status();
    assert!(status.expect("cargo runs").success());
    target.join("release/desk")
}

#[test]
fn the_reader_is_enough_for_check_and_words() {
    let path = built();
    let part = |words: &[&str]| told(program(&path, words).output().expect("desk runs"));
    for words in [
        &["check", "examples/refused-leading-zero.sheet"][..],
        &["check", SHEET, "--names", NAMES],
        &["explain", "8"],
        &["help"],
        &["nothing"],
    ] {
        assert_eq!(part(words), run(words), "{words:?}");
    }
    for words in [
        &["pairs", SHEET][..],
        &["compare", SHEET, "3", "2"],
        &["run", SCRIPT],
    ] {
        let (status, out, error) = part(words);
        assert_eq!((status, out.as_str()), (3, ""), "{words:?}: {error}");
        assert!(
            error.contains("is not in this program"),
            "{words:?}: {error}"
        );
    }
}
