//! `build` and `show`: text to bytes and back.

use crate::load::{accepted, load, load_bytes, shown};
use crate::out::{print_json, value, write, Out, Stop};
use clap::ArgMatches;
use serde_json::json;
use std::io::IsTerminal;

pub fn build(out: &Out, matches: &ArgMatches) -> Result<(), Stop> {
    let path: &String = matches.get_one("SITE").expect("required");
    let loaded = if matches.get_flag("anyway") {
        load(out, path)?
    } else {
        accepted(out, path)?
    };
    let file: Option<&String> = matches.get_one("out");
    if let Some(name) = matches.get_one::<String>("c") {
        return write(file, c_array(name, loaded.bytes())?.as_bytes());
    }
    if out.json {
        print_json(&value(&site::json::built(&loaded.built)));
        return Ok(());
    }
    if file.is_none() && std::io::stdout().is_terminal() {
        let why = "bytes are not for a terminal: name a file with --out, or ask for a C array with --c NAME";
        return Err(Stop::Unusable(why.to_string()));
    }
    write(file, loaded.bytes())
}

/// The bytes as a C array, 16 in a row.
fn c_array(name: &str, bytes: &[u8]) -> Result<String, Stop> {
    let letter = |c: char| c.is_ascii_alphanumeric() || c == '_';
    let begins = |c: char| !c.is_ascii_digit();
    if !name.chars().all(letter) || !name.chars().next().is_some_and(begins) {
        return Err(Stop::Unusable(format!("{name} is not a name in C")));
    }
    let row = |row: &[u8]| {
        let bytes: Vec<String> = row.iter().map(|byte| format!("0x{byte:02x}")).collect();
        format!("    {},\n", bytes.join(", "))
    };
    let rows: String = bytes.chunks(16).map(row).collect();
    let count = bytes.len();
    Ok(format!(
        "static const unsigned char {name}[{count}] = {{\n{rows}}};\n"
    ))
}

pub fn show(out: &Out, matches: &ArgMatches) -> Result<(), Stop> {
    let path: &String = matches.get_one("SITE").expect("required");
    let (path, bytes) = load_bytes(path)?;
    let text = shown(out, &path, &bytes)?;
    if out.json {
        print_json(&json!({"path": path, "text": text}));
        return Ok(());
    }
    write(matches.get_one("out"), text.as_bytes())
}
