//! What a recording has in it: how often each call and each number was seen. A
//! recording from which something is missing is not written.

use crate::exports::{Export, EXPORTS};
use crate::header;
use std::collections::BTreeMap;
use std::fmt;

#[derive(Default)]
pub struct Seen {
    /// How often each call was accepted or refused with a number.
    answers: BTreeMap<(&'static str, u8), u64>,
    /// How often the upper half of an argument decided.
    traps: BTreeMap<(&'static str, usize), u64>,
}

impl Seen {
    pub fn count(&mut self, export: &Export, answer: u64) {
        // The version is no refusal.
        let number = match export.name {
            "willowera_version" => 0,
            _ => answer as u8,
        };
        *self.answers.entry((export.name, number)).or_default() += 1;
    }

    pub fn count_trap(&mut self, export: &Export, argument: usize, decides: bool) {
        *self.traps.entry((export.name, argument)).or_default() += u64::from(decides);
    }

    /// How often a number was seen, with every call.
    fn number_count(&self, number: u8) -> u64 {
        let with_number = self.answers.iter().filter(|(key, _)| key.1 == number);
        with_number.map(|(_, count)| count).sum()
    }

    /// What is missing, in words: a call that the header declares and that was not
    /// accepted once, a refusal that it defines, and a 64-bit argument of which the upper
    /// half never decided.
    pub fn missing(&self) -> Vec<String> {
        let mut missing = Vec::new();
        for name in header::calls() {
            if !self.answers.contains_key(&(name, 0)) {
                missing.push(format!("no accepted call of {name}"));
            }
        }
        for number in header::refusals() {
            if self.number_count(number) == 0 {
                missing.push(format!("no refusal with {number}"));
            }
        }
        for export in EXPORTS {
            for (argument, letter) in export.letters.chars().enumerate() {
                let trap = self.traps.get(&(export.name, argument));
                if matches!(letter, 'l' | 'q') && trap.is_none_or(|&count| count == 0) {
                    let name = export.name;
                    missing.push(format!(
                        "no call of {name} for which the upper 32 bits of argument {argument} decide"
                    ));
                }
            }
        }
        missing
    }
}

impl fmt::Display for Seen {
    fn fmt(&self, f: &mut fmt::Formatter<'_>) -> fmt::Result {
        for export in EXPORTS {
            let of_call = |key: &&(&str, u8)| key.0 == export.name;
            let numbers = self.answers.keys().filter(of_call);
            let numbers: Vec<String> = numbers.map(|key| key.1.to_string()).collect();
            let counts = self.answers.iter().filter(|(key, _)| key.0 == export.name);
            let count: u64 = counts.map(|(_, count)| count).sum();
            writeln!(f, "{count:>9}  {}: {}", export.name, numbers.join(" "))?;
        }
        Ok(())
    }
}
