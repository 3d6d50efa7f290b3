//! The scripts of examples/ print what their comment files say, and docs/GUIDE.md is right about its own.

use conformance::scripts::proved;
use conformance::worked::{printed, requests, steps, Step, SHEET};
use reference::script::{self, split};
use std::collections::BTreeSet;
use std::path::{Path, PathBuf};

fn root() -> PathBuf {
    Path::new(env!("CARGO_MANIFEST_DIR")).join("..")
}

fn read(path: &Path) -> String {
    std::fs::read_to_string(path).unwrap_or_else(|error| panic!("{}: {error}", path.display()))
}

/// The files of examples/ with an ending, without it.
fn examples(ending: &str) -> BTreeSet<PathBuf> {
    let folder = std::fs::read_dir(root().join("examples")).expect("examples/");
    let paths = folder.map(|entry| entry.expect("an entry").path());
    let ending = Some(ending.as_ref());
    paths
        .filter(|path| path.extension() == ending)
        .map(|path| path.with_extension(""))
        .collect()
}

/// The program and the reference print what the steps say.
fn same(input: &str, steps: &[Step], from: &str) {
    assert!(!steps.is_empty(), "{from}: no steps");
    let output = String::from_utf8(proved(input.as_bytes())).expect("ASCII");
    assert_eq!(output, printed(steps), "{from}");
    let output = script::run(input.as_bytes());
    assert_eq!(output, printed(steps).into_bytes(), "{from}, reference");
}

/// A comment file has every request of its script, or all up to the one that ends it.
#[test]
fn examples_print_what_is_said() {
    let names = examples("script");
    assert_eq!(names, examples("txt"));
    for name in &names {
        let from = name.display().to_string();
        let input = read(&name.with_extension("script"));
        let comment = read(&name.with_extension("txt"));
        let indented = comment.lines().filter(|line| line.starts_with("    "));
        let steps = steps(indented);
        same(&input, &steps, &from);
        let (_, behind) = split(input.as_bytes());
        let behind = std::str::from_utf8(behind).expect("ASCII");
        let shown = requests(&steps);
        let ended = steps
            .iter()
            .any(|step| step.request == SHEET || step.printed == "no=1");
        assert!(
            behind == shown || ended && behind.starts_with(&shown),
            "{from}"
        );
    }
    println!("{} scripts", names.len());
}

/// The sheet of the example with four arguments is that of its script, and is shown in the guide.
#[test]
fn four_arguments_are_shown() {
    let sheet = read(&root().join("examples/route.sheet"));
    let script = read(&root().join("examples/route.script"));
    assert_eq!(split(script.as_bytes()).0, sheet.as_bytes());
    let guide = read(&root().join("docs/GUIDE.md"));
    assert!(blocks(&guide).contains(&("sheet", sheet)));
}

/// Each number that a script can meet has an example that prints it last.
#[test]
fn every_number_has_an_example() {
    for number in (1..=3).chain(5..=18) {
        let name = format!("examples/refused-{number:02}.script");
        let output = script::run(read(&root().join(&name)).as_bytes());
        let last = format!("no={number}\n");
        assert!(output.ends_with(last.as_bytes()), "{name}");
    }
}

/// The blocks between fences of a text: what stands behind the first fence, and the lines.
fn blocks(text: &str) -> Vec<(&str, String)> {
    let mut blocks = Vec::new();
    let mut lines = text.lines();
    while let Some(line) = lines.next() {
        if let Some(word) = line.strip_prefix("```") {
            let inside = lines.by_ref().take_while(|line| *line != "```");
            blocks.push((word, inside.map(|line| format!("{line}\n")).collect()));
        }
    }
    blocks
}

/// Requests of the guide are put to the last sheet in front of them.
#[test]
fn the_guide_is_right() {
    let text = read(&root().join("docs/GUIDE.md"));
    let (mut sheet, mut examples) = (String::new(), 0);
    for (word, block) in blocks(&text) {
        match word {
            "sheet" => sheet = block,
            "requests" => {
                let steps = steps(block.lines());
                assert_eq!(block.matches(" -> ").count(), block.lines().count());
                let input = format!("{sheet}{}", requests(&steps));
                same(&input, &steps, &format!("GUIDE.md:\n{block}"));
                examples += 1;
            }
            other => panic!("a block of {other:?}"),
        }
    }
    println!("{examples} worked examples");
    assert!(examples >= 5);
}
