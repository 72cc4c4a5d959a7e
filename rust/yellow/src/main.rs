//! `yellow` prints the table of yellow times: a line for each speed, in which the
//! grades rise. `yellow compare` compares the library's yellow times with whole
//! numbers. It fails without the library.

#![forbid(unsafe_code)]

use std::process::ExitCode;
use yellow::model::{table, GRADES};
use yellow::{compare, library};

fn main() -> ExitCode {
    let words: Vec<String> = std::env::args().skip(1).collect();
    match words.iter().map(String::as_str).collect::<Vec<_>>()[..] {
        [] => print_table(),
        ["compare"] => return print_comparison(),
        _ => {
            eprintln!("usage: yellow [compare]");
            return ExitCode::from(2);
        }
    }
    ExitCode::SUCCESS
}

fn print_table() {
    for row in table().chunks(GRADES.count()) {
        let row: Vec<String> = row.iter().map(u64::to_string).collect();
        println!("{}", row.join(" "));
    }
}

fn print_comparison() -> ExitCode {
    let Some(library) = library() else {
        eprintln!(
            "no board library is linked, so there is nothing to compare; build with \
             cargo build --release --features linked -p yellow"
        );
        return ExitCode::from(2);
    };
    match compare(library) {
        Ok(tally) => {
            println!("yellow times by speed and grade\n{tally}\nno difference");
            ExitCode::SUCCESS
        }
        Err(difference) => {
            println!("{difference}");
            ExitCode::FAILURE
        }
    }
}
