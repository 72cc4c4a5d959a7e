//! Runs the program and finds the example sites.
#![allow(dead_code)] // each test file uses some of it

use std::fs;
use std::path::{Path, PathBuf};
use std::process::{Command, Stdio};

/// What a run of the program gave.
pub struct Ended {
    pub status: i32,
    pub stdout: Vec<u8>,
    pub stderr: String,
}

impl Ended {
    pub fn text(&self) -> String {
        String::from_utf8(self.stdout.clone()).expect("a text")
    }

    pub fn json(&self) -> serde_json::Value {
        serde_json::from_str(&self.text()).unwrap_or_else(|why| panic!("{why}: {}", self.text()))
    }
}

pub fn willowera(arguments: &[&str]) -> Ended {
    let mut command = Command::new(env!("CARGO_BIN_EXE_willowera"));
    let output = command
        .args(arguments)
        .stdin(Stdio::null())
        .output()
        .unwrap();
    Ended {
        status: output.status.code().unwrap_or(-1),
        stdout: output.stdout,
        stderr: String::from_utf8_lossy(&output.stderr).into_owned(),
    }
}

pub fn root() -> PathBuf {
    Path::new(env!("CARGO_MANIFEST_DIR")).join("../..")
}

/// The folders of the example sites, the workbench's own among them.
pub fn sites() -> Vec<PathBuf> {
    let folders = ["examples", "workbench/examples"].map(|folder| root().join(folder));
    let inside = folders
        .iter()
        .flat_map(|folder| fs::read_dir(folder).unwrap());
    let with_site = inside
        .map(|one| one.unwrap().path())
        .filter(|path| path.join("site.txt").is_file());
    let mut sites: Vec<PathBuf> = with_site.collect();
    sites.sort();
    assert!(sites.len() >= 9);
    sites
}

/// The files of a folder whose names begin and end so.
pub fn files(folder: &Path, begin: &str, end: &str) -> Vec<PathBuf> {
    let inside = fs::read_dir(folder).unwrap().map(|one| one.unwrap().path());
    let named = |path: &PathBuf| {
        let name = path.file_name().unwrap().to_string_lossy();
        name.starts_with(begin) && name.ends_with(end)
    };
    let mut files: Vec<PathBuf> = inside.filter(named).collect();
    files.sort();
    files
}

pub fn shown(path: &Path) -> &str {
    path.to_str().expect("a path in UTF-8")
}

/// A file in a folder of this test alone.
pub fn scratch(name: &str) -> PathBuf {
    let folder = Path::new(env!("CARGO_TARGET_TMPDIR")).join(format!("{}", std::process::id()));
    fs::create_dir_all(&folder).unwrap();
    folder.join(name)
}

/// The text of the workbench's own example with some parts replaced, in a file.
pub fn edited(name: &str, edits: &[(&str, &str)]) -> PathBuf {
    let mut text =
        fs::read_to_string(root().join("workbench/examples/four_arms/site.txt")).unwrap();
    for (old, new) in edits {
        assert!(text.contains(old), "{old}");
        text = text.replacen(old, new, 1);
    }
    let path = scratch(name);
    fs::write(&path, text).unwrap();
    path
}
