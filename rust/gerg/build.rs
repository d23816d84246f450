//! Finds the proved archive: in the folder that RATTLE_ARCHIVES names, else in the repository's target/staticlib.
use std::path::PathBuf;

fn main() {
    println!("cargo:rerun-if-env-changed=RATTLE_ARCHIVES");
    let root = PathBuf::from(std::env::var("CARGO_MANIFEST_DIR").expect("cargo sets CARGO_MANIFEST_DIR")).join("../..");
    let folder = match std::env::var_os("RATTLE_ARCHIVES") {
        Some(folder) => PathBuf::from(folder),
        None => root.join("target/staticlib"),
    };
    let archive = folder.join("libgerg_api.a");
    println!("cargo:rerun-if-changed={}", archive.display());
    if !archive.exists() {
        let root = root.canonicalize().unwrap_or(root);
        eprintln!("there is no {}", archive.display());
        eprintln!("make it with:   cd {} && tests/archive gerg_api", root.display());
        eprintln!("or name the folder that has it:   RATTLE_ARCHIVES=FOLDER cargo ..");
        std::process::exit(1);
    }
    println!("cargo:rustc-link-search=native={}", folder.display());
    println!("cargo:rustc-link-lib=static=gerg_api");
}
