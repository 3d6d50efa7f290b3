//! Links the core. Where PILGONCA_LIB_DIR names a directory that is its libpilgonca.a, which tools/install puts there. Else it is target/staticlib/libNAME.a
//! of this repository for every static library of crates.txt (NAME is export_X of a crate export_X_c too), but for those of features that are off:
//! `export_tiny` is of `tiny`, `export_doors` of `doors`, and all others but `export_sheet` and `export_table` are of `visits`. tools/libraries writes them
//! (./test does that first).
//! What a library doesn't export is local to it, so functions that two of them hold don't clash. Packages that depend on this one need no build script.
//! The tests that compile C find the files in PILGONCA_LIBRARIES.

use std::env;
use std::fs;
use std::path::{Path, PathBuf};

fn main() {
    println!("cargo:rerun-if-env-changed=PILGONCA_LIB_DIR");
    let files = match env::var_os("PILGONCA_LIB_DIR") {
        Some(directory) => vec![installed(Path::new(&directory))],
        None => in_the_repository(),
    };
    let names = files.iter().map(|file| link(file));
    let names: Vec<String> = names.collect();
    println!("cargo:rustc-env=PILGONCA_LIBRARIES={}", names.join(":"));
}

fn installed(directory: &Path) -> PathBuf {
    let shown = directory.display();
    // a build script runs in the folder of its package, not in the caller's
    assert!(
        directory.is_absolute(),
        "PILGONCA_LIB_DIR={shown} is no absolute path"
    );
    directory.join("libpilgonca.a")
}

fn in_the_repository() -> Vec<PathBuf> {
    let root = Path::new(env!("CARGO_MANIFEST_DIR")).join("..");
    let crates = root.join("crates.txt");
    println!("cargo:rerun-if-changed={}", crates.display());
    let text = fs::read_to_string(&crates).expect("crates.txt");
    let crates = text
        .lines()
        .filter_map(|line| line.split_once(" staticlib:"));
    crates
        .map(|(name, _)| name.strip_suffix("_c").unwrap_or(name))
        .filter(|name| name.starts_with("export_") && is_on(name))
        .map(|name| root.join(format!("target/staticlib/lib{name}.a")))
        .collect()
}

/// Whether the feature that the functions of a library are of is on.
fn is_on(name: &str) -> bool {
    let feature = match name {
        "export_sheet" | "export_table" => return true,
        "export_tiny" => "TINY",
        "export_doors" => "DOORS",
        _ => "VISITS",
    };
    env::var_os(format!("CARGO_FEATURE_{feature}")).is_some()
}

/// Links the archive; gives its path.
fn link(file: &Path) -> String {
    let shown = file.display();
    let stem = file.file_stem().and_then(|stem| stem.to_str());
    let name = stem.and_then(|stem| stem.strip_prefix("lib")).expect("lib");
    let directory = file.parent().expect("a directory").display();
    assert!(
        file.exists(),
        "no {shown}: run tools/libraries in the repository, or tools/install PREFIX and set PILGONCA_LIB_DIR=PREFIX/lib"
    );
    println!("cargo:rerun-if-changed={shown}");
    println!("cargo:rustc-link-search=native={directory}");
    println!("cargo:rustc-link-lib=static={name}");
    shown.to_string()
}
