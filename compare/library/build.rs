//! Links the static library, and says which functions it has.

use std::{env, fs, path::Path, process::exit};

/// Every function that this crate declares.
const FUNCTIONS: [&str; 20] = [
    "harness_check",
    "harness_size",
    "harness_size_mask",
    "harness_shown",
    "harness_bar_asks",
    "harness_body",
    "harness_effect",
    "harness_layout",
    "harness_touch",
    "harness_mode",
    "harness_view",
    "harness_snapshot",
    "harness_place",
    "harness_power_on",
    "harness_config_bytes",
    "harness_start",
    "harness_read",
    "harness_write",
    "harness_finish",
    "harness_reset",
];

fn main() {
    println!("cargo::rerun-if-env-changed=VOUSSGLEN_LIBRARY");
    let Ok(file) = env::var("VOUSSGLEN_LIBRARY") else {
        refuse("VOUSSGLEN_LIBRARY does not name libharness.a; use compare/run");
    };
    println!("cargo::rerun-if-changed={file}");
    let Ok(archive) = fs::read(&file) else { refuse(&format!("no file {file}")) };
    let out = env::var("OUT_DIR").expect("cargo sets it");
    let out = Path::new(&out);
    // A copy, so that any file name will do.
    fs::write(out.join("libharness.a"), &archive).expect("a copy");
    println!("cargo::rustc-link-search=native={}", out.display());
    println!("cargo::rustc-link-lib=static=harness");
    let symbols = symbols(&archive).unwrap_or_else(|| refuse(&format!("{file}: an archive without an index")));
    fs::write(out.join("have.rs"), have(&symbols)).expect("a list");
}

/// The names in the archive's index, its first member: a count, as many places, then the names, each ended by 0.
fn symbols(archive: &[u8]) -> Option<Vec<String>> {
    let member = archive.strip_prefix(b"!<arch>\n")?;
    let (header, index) = member.split_at_checked(60)?;
    let length: usize = std::str::from_utf8(&header[48..58]).ok()?.trim().parse().ok()?;
    let (count, rest) = index.get(..length)?.split_first_chunk::<4>()?;
    let names = rest.get(4 * u32::from_be_bytes(*count) as usize..)?;
    Some(names.split(|byte| *byte == 0).map(|name| String::from_utf8_lossy(name).into_owned()).collect())
}

/// A constant for each function, and for one that is not there yet a stand-in, so that the program links.
fn have(symbols: &[String]) -> String {
    let mut text = String::new();
    for name in FUNCTIONS {
        let there = symbols.iter().any(|symbol| symbol == name);
        text += &format!("pub const {}: bool = {there};\n", name.to_uppercase());
        if !there {
            text += &format!("#[unsafe(no_mangle)]\nextern \"C\" fn {name}() {{ unreachable!() }}\n");
        }
    }
    text
}

fn refuse(why: &str) -> ! {
    eprintln!("{why}");
    exit(1)
}
