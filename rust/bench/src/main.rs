//! Times of the model, and of the board library beside it where it is linked.
//!
//! `bench [seed] [rounds]`. A step call reads and checks the personality, then steps: by
//! the personality's own times, by others that took over (retimed), or while times wait;
//! alone, or in a cabinet. Steps are timed in plain C too. An inner step starts from a
//! site already read. A line says why a phase holds, of a state in running. Such states
//! are retimed, sealed, and resumed from their records. A road is an hour of steps in one
//! call. Each time is the median of the rounds, with the best round behind it; a ratio is
//! the median of the rounds' own ratios, with that of the best rounds behind it. `at most`
//! is the ratio to the model that is asked for.

#![deny(unsafe_code)]

#[cfg(feature = "linked")]
#[allow(unsafe_code)]
mod c_step;
mod calls;
mod clock;
mod road;
mod rows;
mod site;
mod works;

use site::Bench;
use std::process::ExitCode;

const ROUNDS: usize = 101;
const SEED: u64 = 1;

fn main() -> ExitCode {
    let mut arguments = std::env::args().skip(1).map(|word| word.parse::<u64>());
    let (Ok(seed), Ok(rounds)) = (
        arguments.next().unwrap_or(Ok(SEED)),
        arguments.next().unwrap_or(Ok(ROUNDS as u64)),
    ) else {
        eprintln!("usage: bench [seed] [rounds]");
        return ExitCode::FAILURE;
    };
    let rounds = rounds.max(1) as usize;
    println!("seed {seed}, median of {rounds} rounds, times in ns a call");
    if cfg!(not(feature = "linked")) {
        println!("the board library is not linked: the model alone");
    }
    for bench in Bench::all(seed) {
        rows::print(&bench, rounds);
    }
    road::print(rounds);
    ExitCode::SUCCESS
}
