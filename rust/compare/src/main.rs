//! `compare SEED CASES` compares the board library with the model on so many
//! cases, `compare SEED case INDEX` runs one of them again, and `compare SEED
//! watch STEPS` watches the library alone for demand 3 and request fourteen. `compare
//! roads FILE` and `compare cabinets FILE` run the vectors of the Python road and
//! cabinet on the library and on the model, `compare retimes FILE` the lists of calls of
//! the Python controller, `compare whys FILE` those for the line that says why a phase
//! holds, `compare seals FILE` those that seal states and resume them, `compare waits
//! FILE` the waits of each phase and each movement.
//!
//! It fails if it compared nothing: without the library, without a case, a step or a call.

#![forbid(unsafe_code)]

use compare::{
    board, run_cabinet_vectors, run_cases, run_lists, run_road_vectors, run_seal_vectors,
    run_wait_vectors, run_watches, run_why_vectors, Asked, Lists,
};
use model::packed::{Board, Model};
use std::ops::Range;
use std::process::ExitCode;

const USAGE: &str = "usage: compare SEED CASES
       compare SEED case INDEX
       compare SEED watch STEPS
       compare roads FILE
       compare cabinets FILE
       compare retimes FILE
       compare whys FILE
       compare seals FILE
       compare waits FILE";

const NO_LIBRARY: &str = "no board library is linked, so there is nothing to compare; build with \
                          cargo build --release --features linked -p compare";

/// What is to be done.
enum Task<'a> {
    Cases(u64, Range<u64>),
    Watch(u64, u64),
    Vectors(RunVectors, &'a str),
}

fn main() -> ExitCode {
    let words: Vec<String> = std::env::args().skip(1).collect();
    let words: Vec<&str> = words.iter().map(String::as_str).collect();
    let Some(task) = parse(&words) else {
        eprintln!("{USAGE}");
        return ExitCode::from(2);
    };
    let Some((board, name)) = board() else {
        eprintln!("{NO_LIBRARY}");
        return ExitCode::from(2);
    };
    let passed = match task {
        Task::Cases(seed, indices) => {
            println!("seed {seed}: {name} against the model");
            cases(board, seed, indices)
        }
        Task::Watch(seed, steps) => {
            println!("seed {seed}: {name} under the monitor");
            watches(board, seed, steps)
        }
        Task::Vectors(run, file) => {
            println!("{file}: {name} and the model");
            vectors(board, file, run)
        }
    };
    if passed {
        ExitCode::SUCCESS
    } else {
        ExitCode::FAILURE
    }
}

fn parse<'a>(words: &[&'a str]) -> Option<Task<'a>> {
    let number = |word: &str| word.parse::<u64>().ok();
    let of_file: RunVectors = match *words {
        ["roads", _] => roads,
        ["cabinets", _] => cabinets,
        ["retimes", _] => retimes,
        ["whys", _] => whys,
        ["seals", _] => seals,
        ["waits", _] => waits,
        [seed, count] => return Some(Task::Cases(number(seed)?, 0..number(count)?)),
        [seed, "case", index] => {
            let index = number(index)?;
            return Some(Task::Cases(number(seed)?, index..index.checked_add(1)?));
        }
        [seed, "watch", steps] => return Some(Task::Watch(number(seed)?, number(steps)?)),
        _ => return None,
    };
    Some(Task::Vectors(of_file, words[1]))
}

fn cases(board: &dyn Board, seed: u64, indices: Range<u64>) -> bool {
    if indices.is_empty() {
        println!("no case: nothing was compared");
        return false;
    }
    match run_cases(board, seed, indices) {
        Ok(tally) => {
            println!("{tally}");
            println!("no difference");
            true
        }
        Err(failure) => {
            println!("{failure}");
            false
        }
    }
}

fn watches(board: &dyn Board, seed: u64, steps: u64) -> bool {
    match run_watches(board, seed, steps) {
        Ok(watched) => {
            for strategy in &watched {
                println!("{strategy}");
            }
            let met = watched.iter().any(|strategy| strategy.demands_met > 0);
            match met {
                true => println!("no breach of demand 3, of request fourteen or of a wait"),
                false => println!("no demand was met in so few steps: nothing is shown"),
            }
            met
        }
        Err((personality, breach)) => {
            let hex: String = personality.iter().map(|b| format!("{b:02x}")).collect();
            println!("breach: {breach}");
            println!("  personality {hex}");
            println!("again: compare {seed} watch {steps}");
            false
        }
    }
}

/// Runs the vectors of a file on a board, and says how many.
type RunVectors = fn(&dyn Board, &[u8]) -> Result<String, String>;

fn roads(board: &dyn Board, file: &[u8]) -> Result<String, String> {
    run_road_vectors(board, file).map(|count| format!("{count:>9}  simulated roads"))
}

fn cabinets(board: &dyn Board, file: &[u8]) -> Result<String, String> {
    let Lists { lists, calls } = run_cabinet_vectors(board, file)?;
    Ok(format!("{lists:>9}  cabinets, {calls} calls"))
}

fn retimes(board: &dyn Board, file: &[u8]) -> Result<String, String> {
    let Lists { lists, calls } = run_lists(board, file)?;
    Ok(format!("{lists:>9}  lists of calls, {calls} calls"))
}

fn whys(board: &dyn Board, file: &[u8]) -> Result<String, String> {
    let Asked { lists, lines } = run_why_vectors(board, file)?;
    Ok(format!("{lists:>9}  lists of states, {lines} lines"))
}

fn seals(board: &dyn Board, file: &[u8]) -> Result<String, String> {
    let Lists { lists, calls } = run_seal_vectors(board, file)?;
    Ok(format!("{lists:>9}  lists of sealed states, {calls} calls"))
}

fn waits(board: &dyn Board, file: &[u8]) -> Result<String, String> {
    run_wait_vectors(board, file).map(|count| format!("{count:>9}  personalities"))
}

/// Runs the vectors of a file on the model and on the board.
fn vectors(board: &dyn Board, file: &str, run: RunVectors) -> bool {
    let ran = std::fs::read(file)
        .map_err(|error| format!("{file}: {error}"))
        .and_then(|vectors| {
            run(&Model, &vectors).map_err(|what| format!("the model: {what}"))?;
            run(board, &vectors)
        });
    match ran {
        Ok(count) => {
            println!("{count}\nno difference");
            true
        }
        Err(what) => {
            println!("{what}");
            false
        }
    }
}
