//! What tools/install puts under a prefix is all that a program needs: C by the flags of pilgonca.pc, Rust by PILGONCA_LIB_DIR.

use std::collections::BTreeSet;
use std::path::{Path, PathBuf};
use std::process::{Command, Output};
use std::sync::OnceLock;

fn root() -> PathBuf {
    Path::new(env!("CARGO_MANIFEST_DIR")).join("..")
}

fn temporary(name: &str) -> PathBuf {
    Path::new(env!("CARGO_TARGET_TMPDIR")).join(name)
}

fn read(path: &Path) -> String {
    std::fs::read_to_string(path).unwrap_or_else(|error| panic!("{}: {error}", path.display()))
}

fn text(bytes: &[u8]) -> String {
    String::from_utf8_lossy(bytes).into_owned()
}

/// Runs a command that succeeds; what it printed.
fn printed(command: &mut Command) -> String {
    let output = command.output().expect("the command runs");
    let said = text(&output.stderr);
    assert!(output.status.success(), "{command:?}: {said}");
    text(&output.stdout)
}

/// The prefix, installed once for all tests here.
fn prefix() -> &'static Path {
    static PREFIX: OnceLock<PathBuf> = OnceLock::new();
    PREFIX.get_or_init(|| {
        let prefix = temporary("prefix");
        if prefix.exists() {
            std::fs::remove_dir_all(&prefix).expect("removed");
        }
        let install = root().join("tools/install");
        printed(Command::new(install).arg("--as-built").arg(&prefix));
        prefix
    })
}

/// The words behind `Cflags:` and `Libs:` of pilgonca.pc, as pkg-config gives them.
fn flags() -> Vec<String> {
    let file = prefix().join("lib/pkgconfig/pilgonca.pc");
    let folder = file.parent().expect("a folder").display().to_string();
    let (mut variables, mut words) = (vec![("pcfiledir".to_string(), folder)], String::new());
    for line in read(&file).lines() {
        let set = |line: &str| {
            let replace = |line: String, (name, value): &(String, String)| {
                line.replace(&format!("${{{name}}}"), value)
            };
            variables.iter().rev().fold(line.to_string(), replace)
        };
        if let Some(behind) = line
            .strip_prefix("Cflags: ")
            .or(line.strip_prefix("Libs: "))
        {
            words = format!("{words} {}", set(behind));
        } else if let Some((name, value)) = line.split_once('=') {
            let variable = (name.to_string(), set(value));
            variables.push(variable);
        }
    }
    words.split_whitespace().map(String::from).collect()
}

/// A program of one C file, compiled by the flags of pilgonca.pc alone.
fn compiled(source: &Path, words: &[&str]) -> PathBuf {
    let name = source.file_stem().expect("a name").to_string_lossy();
    let program = temporary(&format!("installed-{name}"));
    let mut cc = Command::new("cc");
    cc.args([
        "-std=c99",
        "-Os",
        "-Wall",
        "-Wextra",
        "-Werror",
        "-pedantic",
    ]);
    cc.arg(source).args(words).args(flags());
    printed(cc.arg("-o").arg(&program));
    program
}

/// A C program that calls these functions with nothing sensible: it is for its size.
fn caller(name: &str, calls: &str) -> PathBuf {
    let source = temporary(&format!("{name}.c"));
    let program = format!(
        "#include <pilgonca.h>\nstatic struct pilgonca_state s;\nstatic int64_t v[9];\nstatic size_t n;\n\
         static uint8_t b[PILGONCA_PRINTED_BYTES];\nint main(void)\n{{\n{calls}return 0;\n}}\n"
    );
    std::fs::write(&source, program).expect("a file");
    source
}

#[test]
fn a_prefix_has_these_files() {
    let listed = printed(Command::new("find").arg(prefix()).args(["-type", "f"]));
    let inside = |line: &str| {
        line.strip_prefix(&format!("{}/", prefix().display()))
            .map(String::from)
    };
    let found: BTreeSet<String> = listed.lines().filter_map(inside).collect();
    let due = [
        "bin/desk",
        "include/pilgonca.h",
        "include/pilgonca_tools.h",
        "lib/libpilgonca.a",
        "lib/pkgconfig/pilgonca.pc",
        "share/man/man3/pilgonca.3",
    ];
    assert_eq!(found, due.map(String::from).into());
    let sheet = root().join("examples/case-p.sheet");
    let desk = Command::new(prefix().join("bin/desk"))
        .arg("check")
        .arg(sheet)
        .output();
    assert!(desk.expect("desk runs").status.success());
    let wrong = |words: &[&str]| {
        Command::new(root().join("tools/install"))
            .args(words)
            .status()
            .expect("runs")
            .code()
    };
    assert_eq!(
        (wrong(&[]), wrong(&["--prefix=/tmp"]), wrong(&["a", "b"])),
        (Some(2), Some(2), Some(2))
    );
}

/// Every C program of examples/ compiles; one with its output beside it, as visit.out, prints that for the sheet of its name, or else for that of Case P, which
/// tiny.c and doors.c do not look at.
#[test]
fn the_examples_compile_by_its_flags() {
    let files = std::fs::read_dir(root().join("examples")).expect("examples");
    let paths = files.map(|entry| entry.expect("an entry").path());
    let sources: Vec<PathBuf> = paths
        .filter(|path| path.extension().is_some_and(|end| end == "c"))
        .collect();
    let mut ran = 0;
    for source in sources {
        let (program, out) = (compiled(&source, &[]), source.with_extension("out"));
        if out.exists() {
            let own = source.with_extension("sheet");
            let case_p = root().join("examples/case-p.sheet");
            let sheet = if own.exists() { own } else { case_p };
            let run = printed(Command::new(program).arg(sheet));
            assert_eq!(run, read(&out), "{}", source.display());
            ran += 1;
        }
    }
    assert_eq!(ran, 5);
}

/// pkg-config, where there is one, gives the flags that the tests here use.
#[test]
fn pkg_config_reads_the_file() {
    let mut command = Command::new("pkg-config");
    command.env("PKG_CONFIG_PATH", prefix().join("lib/pkgconfig"));
    let Ok(Output { status, stdout, .. }) =
        command.args(["--cflags", "--libs", "pilgonca"]).output()
    else {
        return;
    };
    let words: Vec<String> = text(&stdout).split_whitespace().map(String::from).collect();
    assert!(status.success());
    assert_eq!(words, flags());
}

/// Cargo with PILGONCA_LIB_DIR set to this, in a target folder of its own.
fn cargo(directory: &Path) -> Output {
    let mut cargo = Command::new(env!("CARGO"));
    cargo.current_dir(root()).env("PILGONCA_LIB_DIR", directory);
    cargo.args([
        "test",
        "--offline",
        "-p",
        "pilgonca",
        "--test",
        "library",
        "--target-dir",
    ]);
    cargo.arg(temporary("cargo")).output().expect("cargo runs")
}

#[test]
fn the_package_finds_the_library_by_the_environment() {
    let elsewhere = cargo(&temporary("nowhere"));
    let said = text(&elsewhere.stderr);
    assert!(!elsewhere.status.success(), "{said}");
    assert!(
        said.contains("nowhere/libpilgonca.a: run tools/libraries"),
        "{said}"
    );
    let relative = cargo(Path::new("prefix/lib"));
    assert!(text(&relative.stderr).contains("is no absolute path"));
    let found = cargo(&prefix().join("lib"));
    assert!(found.status.success(), "{}", text(&found.stderr));
}

/// README and the guide say how much code a program gets, in KB: the linked text, without what every program has.
#[test]
fn the_code_is_as_small_as_said() {
    let measured = |name: &str, calls: &str| {
        let program = compiled(&caller(name, calls), &["-Wl,--gc-sections"]);
        let table = printed(Command::new("size").arg(program));
        let row = table.lines().nth(1).expect("a row");
        row.split_whitespace()
            .next()
            .and_then(|word| word.parse::<usize>().ok())
            .expect("a number")
    };
    let state = "PILGONCA_STATE_OF(&s)";
    let requests = format!(
        "pilgonca_load(b, n, {state}, &n); pilgonca_new({state}, 0, 1, 2, v); pilgonca_move({state}, 0, 1, 2, 3, v);\n\
         pilgonca_call({state}, 0, 1, 2, v, n, v); pilgonca_answer({state}, 0, 1, n, 2, v); pilgonca_offers({state}, 0, v, n, &n);\n"
    );
    let table = "s.types, s.links, s.counts";
    let others = format!(
        "pilgonca_run({state}, v, n, v, n, &n); pilgonca_script(b, n, b, n, &n); pilgonca_compare({table}, 0, 1);\n\
         pilgonca_read(b, n, {table}, &n); pilgonca_write(b, n, {table}, &n); pilgonca_pairs({table}, b); pilgonca_tiny(b, n, &n);\n\
         {{ static uint64_t t[9]; pilgonca_doors(t, n, t, n, 0, s.counts); }}\n"
    );
    let none = measured("nothing", "(void)s; (void)v; (void)n; (void)b;\n");
    let some = measured("requests", &requests) - none;
    let all = measured("everything", &format!("{requests}{others}")) - none;
    println!("requests {some}, everything {all}");
    let said = |kilobytes: usize| 1000 * kilobytes;
    assert!(some <= said(47) && all <= said(142));
    for page in ["README.md", "docs/GUIDE.md"] {
        let page = read(&root().join(page));
        assert!(page.contains("47 KB") && page.contains("142 KB"));
    }
}

/// The man page names every function of both headers, and no other.
#[test]
fn the_man_page_has_every_function() {
    let words = |text: &str| -> BTreeSet<String> {
        let parts = text.split(|letter: char| !letter.is_ascii_alphanumeric() && letter != '_');
        parts
            .filter(|part| part.starts_with("pilgonca_"))
            .map(String::from)
            .collect()
    };
    let header = |name: &str| read(&prefix().join("include").join(name));
    let declared: BTreeSet<String> = [header("pilgonca.h"), header("pilgonca_tools.h")]
        .iter()
        .flat_map(|text| text.lines())
        .filter_map(|line| {
            line.split_once("pilgonca_")?
                .1
                .split_once('(')
                .map(|(name, _)| (line, name))
        })
        .filter(|(line, _)| line.starts_with("size_t ") || line.starts_with("static inline "))
        .map(|(_, name)| format!("pilgonca_{name}"))
        .collect();
    let page = read(&prefix().join("share/man/man3/pilgonca.3"));
    let named: BTreeSet<String> = words(&page)
        .into_iter()
        .filter(|word| word != "pilgonca_state" && word != "pilgonca_tools")
        .collect();
    assert_eq!(named, declared);
    // and it is laid out without a warning, where there is something to lay it out
    let groff = Command::new("groff")
        .args(["-man", "-ww", "-z"])
        .arg(prefix().join("share/man/man3/pilgonca.3"))
        .output();
    if let Ok(output) = groff {
        assert_eq!(text(&output.stderr), "");
    }
}
