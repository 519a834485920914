//! Links libanowhetele.a: from the folder that ANOWHETELE_LIB names, or from where `tools/build library` leaves it.
use std::env;
use std::path::{Path, PathBuf};
use std::process::exit;

fn main() {
    println!("cargo:rerun-if-env-changed=ANOWHETELE_LIB");
    let folder = match env::var_os("ANOWHETELE_LIB") {
        Some(folder) => PathBuf::from(folder),
        None => Path::new(env!("CARGO_MANIFEST_DIR")).join("../../target/staticlib"),
    };
    let archive = folder.join("libanowhetele.a");
    println!("cargo:rerun-if-changed={}", archive.display());
    if !archive.is_file() {
        eprintln!("There is no {}.", archive.display());
        eprintln!(
            "Run `tools/build library` in the repository's root, or name the archive's folder in ANOWHETELE_LIB."
        );
        exit(1);
    }
    println!("cargo:rustc-link-search=native={}", folder.display());
    println!("cargo:rustc-link-lib=static=anowhetele");
}
