//! Links the archive that `scripts/build sorghemi` writes. SORGHEMI_LIB names its folder where it is not the project's own.
use std::path::{Path, PathBuf};

fn main() {
    println!("cargo:rerun-if-env-changed=SORGHEMI_LIB");
    let here = Path::new(env!("CARGO_MANIFEST_DIR"));
    let top = here.ancestors().nth(2).expect("this crate is host/rust of the project");
    let named = std::env::var_os("SORGHEMI_LIB").map(PathBuf::from);
    let folder = here.join(named.as_deref().unwrap_or(&top.join("target/staticlib")));
    println!("cargo:rustc-link-search=native={}", folder.display());
    println!("cargo:rustc-link-lib=static=sorghemi");
    println!("cargo:rerun-if-changed={}", folder.join("libsorghemi.a").display());
    // Checking and documenting do without the archive, but a build script is not told what it is run for.
    if !folder.join("libsorghemi.a").is_file() {
        let by = if named.is_some() { ", which SORGHEMI_LIB names" } else { "" };
        eprintln!("There is no libsorghemi.a in {}{by}.", folder.display());
        eprintln!("Run `scripts/build sorghemi` in {}, which writes it to target/staticlib,", top.display());
        eprintln!("or name the folder that has it by the environment variable SORGHEMI_LIB.");
        std::process::exit(1);
    }
}
