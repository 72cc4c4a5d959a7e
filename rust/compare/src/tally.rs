//! What was compared, counted.

use crate::cases::Kind;
use model::packed::number;
use std::collections::BTreeMap;
use std::fmt;

/// Cases by kind, and answers by number.
#[derive(Clone, Debug, Default, PartialEq, Eq)]
pub struct Tally {
    cases: BTreeMap<Kind, u64>,
    answers: BTreeMap<u8, u64>,
}

impl Tally {
    pub fn count_case(&mut self, kind: Kind) {
        *self.cases.entry(kind).or_default() += 1;
    }

    pub fn count_answer(&mut self, answer: u64) {
        *self.answers.entry(number(answer)).or_default() += 1;
    }

    /// The cases of a kind.
    pub fn cases(&self, kind: Kind) -> u64 {
        self.cases.get(&kind).copied().unwrap_or(0)
    }

    /// The answers with a number, 0 for the accepted calls.
    pub fn answers(&self, number: u8) -> u64 {
        self.answers.get(&number).copied().unwrap_or(0)
    }
}

impl fmt::Display for Tally {
    fn fmt(&self, f: &mut fmt::Formatter<'_>) -> fmt::Result {
        for (kind, count) in &self.cases {
            writeln!(f, "{count:>9}  {kind}")?;
        }
        let numbers: Vec<String> = self
            .answers
            .iter()
            .map(|(number, count)| format!("{number}: {count}"))
            .collect();
        write!(f, "answers by number, 0 accepted: {}", numbers.join(", "))
    }
}
