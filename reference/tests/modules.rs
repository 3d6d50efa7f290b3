//! The model is layered: a module imports only what stands above it in lib.rs.

use std::fs;
use std::path::Path;

/// The modules in the order of lib.rs, each with the text of its files.
fn modules() -> Vec<(String, String)> {
    let src = Path::new(env!("CARGO_MANIFEST_DIR")).join("src");
    let lib = fs::read_to_string(src.join("lib.rs")).unwrap();
    let names = lib.lines().filter_map(|line| {
        let name = line.strip_prefix("pub mod ")?.strip_suffix(';')?;
        Some(name.to_string())
    });
    let with_text = names.map(|name| {
        let mut text = fs::read_to_string(src.join(format!("{name}.rs"))).unwrap();
        if let Ok(files) = fs::read_dir(src.join(&name)) {
            for file in files {
                text += &fs::read_to_string(file.unwrap().path()).unwrap();
            }
        }
        (name, text)
    });
    with_text.collect()
}

/// The modules that a text names.
fn named(text: &str) -> impl Iterator<Item = &str> {
    let word = |rest: &'_ str| rest.find(|c: char| !c.is_ascii_lowercase() && c != '_');
    text.split("crate::")
        .skip(1)
        .map(move |rest| &rest[..word(rest).unwrap_or(rest.len())])
}

#[test]
fn a_module_imports_what_stands_above_it() {
    let modules = modules();
    let mut imports = 0;
    for (at, (name, text)) in modules.iter().enumerate() {
        for other in named(text).filter(|other| other != name) {
            let above = modules[..at].iter().any(|(above, _)| above == other);
            assert!(above, "{name} imports {other}");
            imports += 1;
        }
    }
    assert!(modules.len() > 20 && imports > 80, "{imports}");
}
