//! Finds the sources of keyberon 0.1.1 and writes a file that names each of them as a module by its
//! full path, so that they are compiled from where they lie and never copied.
//!
//! Assumes: the sources are in the folder that KEYBERON_SRC names or, without it, in the folder `shared`
//! beside the repository.

use std::path::{Path, PathBuf};
use std::{env, fs, process};

const MODULES: [&str; 6] = [
    "action", "debounce", "hid", "key_code", "keyboard", "layout",
];

fn main() {
    println!("cargo:rerun-if-changed=build.rs");
    println!("cargo:rerun-if-env-changed=KEYBERON_SRC");
    let folder = source_folder();
    let mut modules = String::new();
    for name in MODULES.iter() {
        let path = source_file(&folder, name);
        println!("cargo:rerun-if-changed={}", path.display());
        // the debug form quotes the path as a Rust string
        modules += &format!("#[path = {:?}]\npub mod {};\n", path, name);
    }
    let out = PathBuf::from(env::var_os("OUT_DIR").expect("cargo sets OUT_DIR"));
    fs::write(out.join("modules.rs"), modules).expect("cargo's output folder can be written");
}

fn source_folder() -> PathBuf {
    match env::var_os("KEYBERON_SRC") {
        Some(folder) => PathBuf::from(folder),
        None => {
            let own = env::var_os("CARGO_MANIFEST_DIR").expect("cargo sets CARGO_MANIFEST_DIR");
            Path::new(&own).join("../../../shared")
        }
    }
}

/// The file of a module under one of the three names it may have; without one the build ends here.
fn source_file(folder: &Path, name: &str) -> PathBuf {
    let names = [
        format!("src--src--{}.rs.txt", name),
        format!("{}.rs", name),
        format!("src/{}.rs", name),
    ];
    for candidate in names.iter() {
        if let Ok(path) = folder.join(candidate).canonicalize() {
            return path;
        }
    }
    eprintln!(
        "keyberon's source {}.rs is missing: {} holds none of {}.\n\
         Set KEYBERON_SRC to the folder with the sources of keyberon 0.1.1.",
        name,
        folder.display(),
        names.join(", "),
    );
    process::exit(1);
}
