//! `longest PERSONALITY [FOLDER [SEED TRIALS]]` prints for each phase and each movement of a
//! site the wait that is promised, the longest wait that was driven, and what rules out the
//! rest. With a folder it writes the inputs of each: `inputs_A.txt` is a script as in
//! workbench/README.md, and `stdin_A.bin` is the same as input of the trace program.

#![forbid(unsafe_code)]

use longest::{drive, script, Found};
use model::Site;
use std::path::Path;
use std::process::ExitCode;

const USAGE: &str = "usage: longest PERSONALITY [FOLDER [SEED TRIALS]]";

/// The seed and the number of random beginnings, if none are given.
const SEED: u64 = 1;
const TRIALS: usize = 100;

/// Steps that the inputs go on after the demand is met, so that the green can be seen.
const AFTER: usize = 20;

fn main() -> ExitCode {
    let words: Vec<String> = std::env::args().skip(1).collect();
    let asked = match words.as_slice() {
        [file] => Some((file, None, SEED, TRIALS)),
        [file, folder] => Some((file, Some(folder), SEED, TRIALS)),
        [file, folder, seed, trials] => match (seed.parse(), trials.parse()) {
            (Ok(seed), Ok(trials)) => Some((file, Some(folder), seed, trials)),
            _ => None,
        },
        _ => None,
    };
    let Some((file, folder, seed, trials)) = asked else {
        eprintln!("{USAGE}");
        return ExitCode::from(2);
    };
    match run(file, folder.map(Path::new), seed, trials) {
        Ok(()) => ExitCode::SUCCESS,
        Err(what) => {
            eprintln!("{what}");
            ExitCode::FAILURE
        }
    }
}

fn run(file: &str, folder: Option<&Path>, seed: u64, trials: usize) -> Result<(), String> {
    let personality = std::fs::read(file).map_err(|error| format!("{file}: {error}"))?;
    let site = Site::read(&personality).map_err(|refusal| {
        let (number, place) = (refusal.number as u8, refusal.place);
        format!("{file}: refused {number} {place}")
    })?;
    println!("{file}: wait bound {} steps", site.wait_bound());
    println!("| | Fewer than | Driven | Demand | Registered | Ruled out |");
    println!("|---|---|---|---|---|---|");
    for found in drive(&site, seed, trials) {
        println!("{}", row(&found));
        if let Some(folder) = folder {
            write(folder, &personality, &found)?;
        }
    }
    Ok(())
}

/// A row of the table: the wait, the longest driven, the demand, where it was registered, and
/// what rules out the rest.
fn row(found: &Found) -> String {
    let reasons = found.reasons.iter();
    let reasons = reasons.map(|reason| format!("{}: {}", reason.steps, reason.words));
    let mut reasons: Vec<String> = reasons.collect();
    if found.unexplained() != 0 {
        reasons.push(format!("{}: not known", found.unexplained()));
    }
    let driven = &found.driven;
    format!(
        "| {} | {} | {} | {} | step {}, {} | {} |",
        found.name,
        found.wait,
        driven.wait,
        driven.demand,
        driven.registered,
        driven.how,
        reasons.join("; ")
    )
}

fn write(folder: &Path, personality: &[u8], found: &Found) -> Result<(), String> {
    let driven = &found.driven;
    let met = driven.registered + driven.wait;
    let about = [
        format!("{}: {}.", driven.demand, driven.how),
        format!(
            "Registered in step {}, met in step {met}: {} further steps. Promised are fewer than {}.",
            driven.registered, driven.wait, found.wait
        ),
    ];
    let mut inputs = driven.inputs.clone();
    inputs.resize(met + AFTER, 0);
    let put = |name: String, bytes: &[u8]| {
        let file = folder.join(name);
        std::fs::write(&file, bytes).map_err(|error| format!("{}: {error}", file.display()))
    };
    std::fs::create_dir_all(folder).map_err(|error| format!("{}: {error}", folder.display()))?;
    let text = script::text(&about, &inputs);
    put(format!("inputs_{}.txt", found.name), text.as_bytes())?;
    let bytes = script::bytes(personality, &inputs);
    put(format!("stdin_{}.bin", found.name), &bytes)
}
