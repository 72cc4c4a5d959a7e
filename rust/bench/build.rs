//! Compiles the step in C, which is timed where the feature `linked` asks for it.

use std::env;
use std::path::{Path, PathBuf};
use std::process::Command;

const PARTS: [&str; 5] = ["conflicts", "read", "show", "step", "valid"];

fn main() {
    println!("cargo::rerun-if-changed=step");
    println!("cargo::rerun-if-changed=../../include/willowera.h");
    if env::var_os("CARGO_FEATURE_LINKED").is_none() {
        return;
    }
    let folder = PathBuf::from(env::var_os("OUT_DIR").expect("set by cargo"));
    let archive = folder.join("libc_step.a");
    let objects = PARTS.map(|part| compiled(part, &folder));
    run(Command::new("ar").arg("crs").arg(archive).args(objects));
    println!("cargo::rustc-link-search=native={}", folder.display());
    println!("cargo::rustc-link-lib=static=c_step");
}

/// The object file of a part.
fn compiled(part: &str, folder: &Path) -> PathBuf {
    let object = folder.join(part).with_extension("o");
    let words = ["-std=c11", "-O2", "-Wall", "-Wextra", "-Werror"];
    run(Command::new("cc")
        .args(words)
        .args(["-I../../include", "-c", "-o"])
        .arg(&object)
        .arg(format!("step/{part}.c")));
    object
}

fn run(command: &mut Command) {
    let ended = command.status();
    assert!(
        ended.as_ref().is_ok_and(|status| status.success()),
        "{command:?}: {ended:?}"
    );
}
