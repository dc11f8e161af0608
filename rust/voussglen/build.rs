//! Finds libvoussglen.a: in VOUSSGLEN_LIB_DIR, or where `rt lib` in `crates/voussglen` writes it.

use std::{
    env,
    path::{Path, PathBuf},
    process::exit,
};

fn main() {
    println!("cargo:rerun-if-env-changed=VOUSSGLEN_LIB_DIR");
    let here = env::var("CARGO_MANIFEST_DIR").expect("cargo sets it");
    let directory =
        env::var("VOUSSGLEN_LIB_DIR").map_or_else(|_| Path::new(&here).join("../../crates/voussglen/out"), PathBuf::from);
    let library = directory.join("libvoussglen.a");
    println!("cargo:rerun-if-changed={}", library.display());
    if !library.is_file() {
        eprintln!("no {}: run rt lib in crates/voussglen, or set VOUSSGLEN_LIB_DIR", library.display());
        exit(1);
    }
    println!("cargo:rustc-link-search=native={}", directory.display());
    println!("cargo:rustc-link-lib=static=voussglen");
}
