//! Steps a site from a small input script and prints the colours at each change, as
//! examples/c/steps.c does:
//!
//!     steps PERSONALITY STEPS [FROM-TO:BIT ..]
//!
//! Each FROM-TO:BIT sets an input bit in the steps FROM to TO: bits 0 to 47 are the
//! detectors, bits 48 to 55 the push buttons.

use std::env;
use std::fs;
use std::process::ExitCode;
use willowera::{colour, wait_bound, Controller};

/// An input bit that is set in some steps.
struct Input {
    from: u32,
    to: u32,
    bit: u32,
}

impl Input {
    /// The input of a word FROM-TO:BIT.
    fn parse(word: &str) -> Result<Input, String> {
        let parts = || {
            let (steps, bit) = word.split_once(':')?;
            let (from, to) = steps.split_once('-')?;
            Some(Input {
                from: from.parse().ok()?,
                to: to.parse().ok()?,
                bit: bit.parse().ok().filter(|&bit| bit < 56)?,
            })
        };
        parts().ok_or_else(|| format!("'{word}' is not FROM-TO:BIT"))
    }

    /// The input bits in a step.
    fn in_step(&self, step: u32) -> u64 {
        u64::from((self.from..=self.to).contains(&step)) << self.bit
    }
}

/// A letter for each colour.
fn letters(colours: &[u8]) -> String {
    let letter = |&colour: &u8| match colour {
        colour::RED => 'R',
        colour::YELLOW => 'Y',
        colour::GREEN => 'G',
        colour::FLASHING_RED => 'F',
        _ => '?',
    };
    colours.iter().map(letter).collect()
}

fn run(words: &[String]) -> Result<(), String> {
    let [path, steps, script @ ..] = words else {
        return Err("usage: steps PERSONALITY STEPS [FROM-TO:BIT ..]".into());
    };
    let steps: u32 = steps
        .parse()
        .map_err(|_| format!("'{steps}' is not a number of steps"))?;
    let script: Vec<Input> = script
        .iter()
        .map(|word| Input::parse(word))
        .collect::<Result<_, _>>()?;

    let personality = fs::read(path).map_err(|error| format!("{path}: {error}"))?;
    let refused = |refusal: willowera::Refusal| refusal.to_string();
    let mut controller = Controller::new(&personality).map_err(refused)?;
    let bound = wait_bound(&personality).map_err(refused)?;
    println!("wait bound {bound} steps");
    let mut colours = vec![colour::RED; controller.groups()];
    let mut shown = String::new();
    for step in 1..=steps {
        let inputs = script.iter().map(|input| input.in_step(step));
        let inputs = inputs.fold(0, |all, input| all | input);
        controller.step(inputs, &mut colours).map_err(refused)?;
        if shown != letters(&colours) {
            shown = letters(&colours);
            println!("{step} {shown}");
        }
    }
    Ok(())
}

fn main() -> ExitCode {
    let words: Vec<String> = env::args().skip(1).collect();
    match run(&words) {
        Ok(()) => ExitCode::SUCCESS,
        Err(what) => {
            eprintln!("{what}");
            ExitCode::FAILURE
        }
    }
}
