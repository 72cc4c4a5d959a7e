//! `sheet SEED CALLS` compares the library's settings of a site sheet with exact
//! arithmetic on so many calls. It fails without the library, and without a call.

#![forbid(unsafe_code)]

use sheet::{compare, library};
use std::process::ExitCode;

fn main() -> ExitCode {
    let words: Vec<String> = std::env::args().skip(1).collect();
    let numbers: Vec<u64> = words.iter().filter_map(|word| word.parse().ok()).collect();
    let (2, [seed, calls]) = (words.len(), numbers.as_slice()) else {
        eprintln!("usage: sheet SEED CALLS");
        return ExitCode::from(2);
    };
    let Some(library) = library() else {
        eprintln!(
            "no board library is linked, so there is nothing to compare; build with \
             cargo build --release --features linked -p sheet"
        );
        return ExitCode::from(2);
    };
    match compare(library, *seed, *calls) {
        Ok(_) if *calls == 0 => {
            println!("seed {seed}: no sheet: nothing was compared");
            ExitCode::FAILURE
        }
        Ok(tally) => {
            println!("seed {seed}: settings of {calls} sheets\n{tally}\nno difference");
            ExitCode::SUCCESS
        }
        Err(difference) => {
            println!("seed {seed}: {difference}");
            ExitCode::FAILURE
        }
    }
}
