//! Finds the board library where the feature `linked` asks for it: in the folder
//! that WILLOWERA_LIB_DIR names, or in target/staticlib of the repository.

use std::env;
use std::path::PathBuf;

const FOLDER: &str = "WILLOWERA_LIB_DIR";

fn main() {
    println!("cargo::rerun-if-changed=build.rs");
    println!("cargo::rerun-if-env-changed={FOLDER}");
    if env::var_os("CARGO_FEATURE_LINKED").is_none() {
        return;
    }
    let folder = library_folder();
    let library = folder.join("libwillowera.a");
    if !library.is_file() {
        println!(
            "cargo::error={} is not there: build the board library, or name its folder in {FOLDER}",
            library.display()
        );
        return;
    }
    println!("cargo::rerun-if-changed={}", library.display());
    println!("cargo::rustc-link-search=native={}", folder.display());
    println!("cargo::rustc-link-lib=static=willowera");
}

/// The folder of the library; a relative one starts from this package.
fn library_folder() -> PathBuf {
    let package = PathBuf::from(env::var_os("CARGO_MANIFEST_DIR").expect("set by cargo"));
    match env::var_os(FOLDER) {
        Some(folder) => package.join(folder),
        None => package.join("../../target/staticlib"),
    }
}
