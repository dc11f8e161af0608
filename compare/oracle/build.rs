//! Names the files of axdevice by their full paths. Nothing of them is copied.

use std::{env, fs, path::Path, process::exit};

/// The six ported files and the two that they need; then the two that know the whole bus.
const FILES: [&str; 10] =
    ["address", "bar", "capability", "config", "config_layout", "placement", "function", "error", "root", "topology"];

fn main() {
    println!("cargo::rerun-if-env-changed=VOUSSGLEN_AXDEVICE");
    let Ok(folder) = env::var("VOUSSGLEN_AXDEVICE") else {
        eprintln!("VOUSSGLEN_AXDEVICE does not name the folder of axdevice 0.8.5; use compare/run");
        exit(1);
    };
    let mut modules = String::new();
    for name in FILES {
        let path = Path::new(&folder).join("src/pci").join(name).with_extension("rs");
        let Ok(path) = path.canonicalize() else {
            eprintln!("no file {}", path.display());
            exit(1);
        };
        println!("cargo::rerun-if-changed={}", path.display());
        // What only the rest of axdevice uses is dead here.
        modules += &format!("#[allow(dead_code)]\n#[path = {path:?}]\npub(crate) mod {name};\n");
    }
    let out = Path::new(&env::var("OUT_DIR").expect("cargo sets it")).join("files.rs");
    fs::write(out, modules).expect("a list of modules");
}
