//! Makes a copy of the model, or of the wrappers of ours, for each edit, with that one slip in it.

use std::{
    env, fs,
    path::{Path, PathBuf},
    process::exit,
};

/// The folder of edits, the source that they change, and the type there.
const SIDES: [(&str, &str, &str); 2] = [("edits", "../model/src", "Model"), ("ours", "../ours/src", "Ours")];

fn main() {
    let out = PathBuf::from(env::var("OUT_DIR").expect("cargo sets it"));
    let (mut modules, mut list) = (String::new(), String::new());
    for (edits, source, side) in SIDES {
        println!("cargo::rerun-if-changed={source}");
        println!("cargo::rerun-if-changed={edits}");
        copies(&out, edits, source, side, &mut modules, &mut list);
    }
    fs::write(out.join("slips.rs"), format!("{modules}\nfn all() -> Vec<Slip> {{\nvec![\n{list}]\n}}\n"))
        .expect("a list");
}

/// A module for each edit, and its line in the list.
fn copies(out: &Path, edits: &str, source: &str, side: &str, modules: &mut String, list: &mut String) {
    for path in files(edits) {
        let name = path.file_stem().expect("a name").to_string_lossy().into_owned();
        let edit = Edit::read(&path);
        let folder = out.join(&name);
        fs::create_dir_all(&folder).expect("a folder");
        for file in files(source) {
            let mut text = fs::read_to_string(&file).expect("a file of that side");
            if file.ends_with(&edit.file) {
                text = edit.applied(&name, &text);
            }
            fs::write(folder.join(file.file_name().expect("a name")), text).expect("a copy");
        }
        // A slip may leave names unused.
        *modules += &format!("#[allow(unused, clippy::all)]\n#[path = {:?}]\nmod {name};\n", folder.join("lib.rs"));
        let (rules, ours) = (&edit.rules, side == "Ours");
        *list +=
            &format!("Slip {{ name: {name:?}, rules: {rules:?}, ours: {ours}, side: Box::new({name}::{side}) }},\n");
    }
}

fn files(folder: &str) -> Vec<PathBuf> {
    let mut files: Vec<_> = fs::read_dir(folder).expect(folder).map(|entry| entry.expect("an entry").path()).collect();
    files.sort();
    files
}

/// A file of the model, a text that it has once, what takes its place, and the rules that have to notice.
struct Edit {
    file: String,
    old: String,
    new: String,
    rules: String,
}

impl Edit {
    fn read(path: &Path) -> Self {
        let text = fs::read_to_string(path).expect("an edit");
        let part = |from: &str, to: &str| {
            let start =
                text.find(from).unwrap_or_else(|| refuse(&format!("{}: no {from}", path.display()))) + from.len();
            let end = if to.is_empty() { text.len() } else { text.find(to).unwrap_or(text.len()) };
            text[start..end].trim_matches('\n').trim().to_string()
        };
        Self {
            file: part("file:", "\nrules:"),
            rules: part("rules:", "\nold:"),
            old: part("old:", "\nnew:"),
            new: part("new:", ""),
        }
    }

    fn applied(&self, name: &str, text: &str) -> String {
        if text.matches(&self.old).count() != 1 {
            refuse(&format!("{name}: {} does not have this text once: {}", self.file, self.old));
        }
        text.replace(&self.old, &self.new)
    }
}

fn refuse(why: &str) -> ! {
    eprintln!("{why}");
    exit(1)
}
