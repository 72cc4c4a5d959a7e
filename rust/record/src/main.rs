//! `record SEED CALLS FILE` writes a recording of at least so many calls of the board
//! library, and says what it has in it. It writes none, and fails, if a call or a refusal
//! of the header is missing.

use std::process::ExitCode;

const USAGE: &str = "usage: record SEED CALLS FILE";

fn main() -> ExitCode {
    let words: Vec<String> = std::env::args().skip(1).collect();
    let Some((seed, calls, file)) = parse(&words) else {
        eprintln!("{USAGE}");
        return ExitCode::from(2);
    };
    match record(seed, calls, file) {
        Ok(said) => {
            println!("{said}");
            ExitCode::SUCCESS
        }
        Err(what) => {
            eprintln!("record: {what}");
            ExitCode::FAILURE
        }
    }
}

fn parse(words: &[String]) -> Option<(u64, u64, &str)> {
    match words {
        [seed, calls, file] => Some((seed.parse().ok()?, calls.parse().ok()?, file)),
        _ => None,
    }
}

#[cfg(feature = "linked")]
fn record(seed: u64, calls: u64, file: &str) -> Result<String, String> {
    let mut recorder = record::Recorder::new(seed);
    recorder.record(calls);
    let calls = recorder.calls();
    let (recording, seen) = recorder.finish();
    let missing = seen.missing();
    if !missing.is_empty() {
        return Err(format!(
            "the recording is not complete: {}",
            missing.join("; ")
        ));
    }
    std::fs::write(file, &recording).map_err(|error| format!("{file}: {error}"))?;
    let bytes = recording.len();
    Ok(format!("{seen}seed {seed}: {calls} calls in {bytes} bytes"))
}

#[cfg(not(feature = "linked"))]
fn record(_: u64, _: u64, _: &str) -> Result<String, String> {
    Err("no library is linked: build with --features linked".to_string())
}
