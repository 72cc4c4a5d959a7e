//! The example sites: their texts build to the bytes that the Python builder made, and
//! the bytes turn back into texts.

use std::fs;
use std::path::{Path, PathBuf};

fn examples() -> PathBuf {
    Path::new(env!("CARGO_MANIFEST_DIR")).join("../../examples")
}

/// The files of all examples whose names begin and end so, in their order.
fn files(begin: &str, end: &str) -> Vec<PathBuf> {
    let folders = fs::read_dir(examples())
        .unwrap()
        .map(|folder| folder.unwrap().path());
    let files = folders.filter(|path| path.is_dir()).flat_map(|folder| {
        let files = fs::read_dir(folder)
            .unwrap()
            .map(|file| file.unwrap().path());
        files.collect::<Vec<PathBuf>>()
    });
    let named = |path: &PathBuf| {
        let name = path.file_name().unwrap().to_string_lossy();
        name.starts_with(begin) && name.ends_with(end)
    };
    let mut files: Vec<PathBuf> = files.filter(named).collect();
    files.sort();
    files
}

fn site_of(path: &Path) -> site::Site {
    let text = fs::read_to_string(path).unwrap();
    site::read(&text).unwrap_or_else(|mistakes| panic!("{}: {mistakes:?}", path.display()))
}

/// The file beside a text that the Python builder made of it.
fn beside(text: &Path, from: &str, to: &str) -> Vec<u8> {
    let name = text
        .file_stem()
        .unwrap()
        .to_string_lossy()
        .replace(from, to);
    fs::read(text.with_file_name(format!("{name}.bin"))).unwrap()
}

#[test]
fn texts_build_to_the_stored_bytes() {
    let texts = files("site", ".txt");
    assert!(texts.len() >= 9);
    for path in texts {
        let built = site_of(&path).build();
        assert_eq!(
            built.bytes,
            beside(&path, "site", "personality"),
            "{}",
            path.display()
        );
        assert_eq!(built.spans.len(), built.bytes.len());
        assert!(built.spans.iter().all(|span| span.line > 0));
    }
}

#[test]
fn stored_bytes_turn_back_into_texts() {
    for path in files("personality", ".bin") {
        let bytes = fs::read(&path).unwrap();
        let text = site::show(&bytes).unwrap();
        assert_eq!(site::read(&text).unwrap().build().bytes, bytes, "{text}");
    }
}

#[test]
fn input_scripts_give_the_stored_inputs() {
    let scripts = files("inputs", ".txt");
    assert!(scripts.len() >= 14);
    for path in scripts {
        let site = site_of(&path.with_file_name("site.txt"));
        let bytes = site.build().bytes;
        let script = site::read_inputs(&fs::read_to_string(&path).unwrap(), &site).unwrap();
        let mut stored = (bytes.len() as u16).to_le_bytes().to_vec();
        stored.extend(bytes);
        stored.extend(script.inputs.iter().flat_map(|inputs| inputs.to_le_bytes()));
        assert!(
            stored == beside(&path, "inputs", "stdin"),
            "{}",
            path.display()
        );
    }
}

#[test]
fn road_texts_give_the_stored_streams() {
    let roads = files("road", ".txt");
    assert!(roads.len() >= 3);
    for path in roads {
        let site = site_of(&path.with_file_name("site.txt"));
        let bytes = site.build().bytes;
        let road = site::read_road(&fs::read_to_string(&path).unwrap(), &site).unwrap();
        let mut stored = (bytes.len() as u16).to_le_bytes().to_vec();
        stored.extend(bytes);
        stored.extend(road.steps().to_le_bytes());
        stored.extend(road.bytes());
        assert_eq!(stored, beside(&path, "road", "road"), "{}", path.display());
    }
}
