//! Copies the modules of the reference model that serve requests, once for
//! each file in edits/, and changes the one line that the file says. Of an edit
//! of the check of what is handed in, that module alone is copied.

use std::path::{Path, PathBuf};
use std::{env, fs};

/// What is copied. All else is the model's own, so that a faulty copy and the
/// model speak of the same tables, states and requests.
const COPIED: [&str; 6] = [
    "relations",
    "restriction",
    "model",
    "crossing",
    "carrying",
    "serving",
];

/// What is copied of the check instead.
const CHECK: &str = "check";

/// An edit: in a file of the model one text, found once and within a line, is
/// put for another.
struct Edit {
    name: String,
    file: String,
    old: String,
    new: String,
}

impl Edit {
    fn read(path: &Path) -> Edit {
        let text = fs::read_to_string(path).expect("an edit");
        let field = |key: &str| -> String {
            let mut found = text.lines().filter_map(|line| line.strip_prefix(key));
            let value = found.next().map(|value| value.trim().to_string());
            assert!(found.next().is_none(), "{path:?}: {key} twice");
            value.unwrap_or_else(|| panic!("{path:?}: no {key}"))
        };
        let name = path.file_stem().and_then(|name| name.to_str());
        assert!(text.starts_with("# "), "{path:?}: says first what is wrong");
        Edit {
            name: name.expect("a name").to_string(),
            file: field("file:"),
            old: field("old:"),
            new: field("new:"),
        }
    }

    /// A module of the model as it is in this copy.
    fn module(&self, model: &Path, module: &str) -> String {
        let path = model.join(format!("src/{module}.rs"));
        let mut text = fs::read_to_string(&path).expect("a module of the model");
        if self.file == format!("src/{module}.rs") {
            let found = text.matches(&self.old).count();
            assert_eq!(found, 1, "{}: `{}` in {path:?}", self.name, self.old);
            text = text.replace(&self.old, &self.new);
        }
        text = text.replace("crate::", "reference::");
        for copied in self.copied() {
            let own = format!("crate::{}::{copied}::", self.name);
            text = text.replace(&format!("reference::{copied}::"), &own);
        }
        text
    }

    /// Whether it is one of the check of what is handed in.
    fn of_check(&self) -> bool {
        self.file == format!("src/{CHECK}.rs")
    }

    /// What it has copies of.
    fn copied(&self) -> &'static [&'static str] {
        if self.of_check() {
            &[CHECK]
        } else {
            &COPIED
        }
    }

    /// Writes the copy; gives the lines that name it.
    fn write(&self, model: &Path, out: &Path) -> String {
        let of_this = |module: &&str| self.file == format!("src/{module}.rs");
        assert!(self.copied().iter().any(of_this), "{}", self.name);
        let folder = out.join(&self.name);
        fs::create_dir_all(&folder).expect("a folder");
        let mut lines = format!("#[allow(unused)]\npub mod {} {{\n", self.name);
        for module in self.copied() {
            let path = folder.join(format!("{module}.rs"));
            fs::write(&path, self.module(model, module)).expect("a copy");
            lines += &format!("    #[path = {path:?}]\n    pub mod {module};\n");
        }
        lines + "}\n"
    }
}

fn main() {
    let here = PathBuf::from(env::var("CARGO_MANIFEST_DIR").expect("set by cargo"));
    let out = PathBuf::from(env::var("OUT_DIR").expect("set by cargo"));
    let (edits, model) = (here.join("edits"), here.join(".."));
    println!("cargo:rerun-if-changed={}", edits.display());
    println!("cargo:rerun-if-changed={}", model.join("src").display());
    let files = fs::read_dir(&edits).expect("edits/");
    let mut files: Vec<PathBuf> = files.map(|file| file.expect("a file").path()).collect();
    files.sort();
    let mut text = String::new();
    let mut all = String::from("/// Every fault of requests.\npub const ALL: &[Fault] = &[\n");
    let mut checks =
        String::from("/// Every fault of the check.\npub const CHECKS: &[CheckFault] = &[\n");
    for edit in files.iter().map(|file| Edit::read(file)) {
        text += &edit.write(&model, &out);
        let name = &edit.name;
        if edit.of_check() {
            let check = format!("|raw| {name}::{CHECK}::state(raw).ok()");
            checks += &format!("    CheckFault {{ name: {name:?}, check: {check} }},\n");
        } else {
            all += &format!("    Fault {{ name: {name:?}, run: {name}::serving::run }},\n");
        }
    }
    let lists = format!("{all}];\n\n{checks}];\n");
    fs::write(out.join("faults.rs"), text + &lists).expect("faults.rs");
}
