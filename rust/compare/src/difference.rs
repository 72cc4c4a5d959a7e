//! What is reported where a board and the model differ.

use crate::cases::Kind;
use monitor::Breach;
use std::fmt;

/// A difference between a board and the model, or a breach that a monitor has seen.
#[derive(Clone, Debug, PartialEq, Eq)]
pub enum Difference {
    /// An answer or a buffer is not what the model gives.
    Call {
        /// The call, and what of it differs.
        what: &'static str,
        expected: Vec<u8>,
        found: Vec<u8>,
        /// What went into the call.
        handed: Box<Handed>,
    },
    /// A watched run breaks demand 3 or request fourteen.
    Breach {
        personality: Vec<u8>,
        breach: Breach,
    },
}

/// What was handed to a call; what it does not take is empty.
#[derive(Clone, Debug, Default, PartialEq, Eq)]
pub struct Handed {
    pub personality: Vec<u8>,
    pub state: Vec<u8>,
    pub inputs: u64,
    pub colours: Vec<u8>,
    pub line: Vec<u8>,
    pub kind: u16,
    pub streams: Vec<u8>,
    pub steps: u32,
    pub results: Vec<u8>,
    pub new_personality: Vec<u8>,
    pub row: Vec<u8>,
    pub record: usize,
    pub first: usize,
    pub outputs: Vec<u8>,
    pub sealed: Vec<u8>,
    pub waits: Vec<u8>,
}

/// A case that fails.
#[derive(Clone, Debug, PartialEq, Eq)]
pub struct Failure {
    pub seed: u64,
    pub index: u64,
    pub kind: Kind,
    pub difference: Difference,
}

impl fmt::Display for Difference {
    fn fmt(&self, f: &mut fmt::Formatter<'_>) -> fmt::Result {
        match self {
            Difference::Call {
                what,
                expected,
                found,
                handed,
            } => {
                writeln!(f, "{what}")?;
                writeln!(f, "  expected    {}", hex(expected))?;
                writeln!(f, "  found       {}", hex(found))?;
                write!(f, "{handed}")
            }
            Difference::Breach {
                personality,
                breach,
            } => {
                writeln!(f, "breach: {breach}")?;
                write!(f, "  personality {}", hex(personality))
            }
        }
    }
}

impl fmt::Display for Handed {
    fn fmt(&self, f: &mut fmt::Formatter<'_>) -> fmt::Result {
        writeln!(f, "  personality {}", hex(&self.personality))?;
        writeln!(f, "  state       {}", hex(&self.state))?;
        writeln!(f, "  inputs      {:016x}", self.inputs)?;
        writeln!(f, "  colours     {}", hex(&self.colours))?;
        writeln!(f, "  line        {}", hex(&self.line))?;
        writeln!(f, "  kind        {}", self.kind)?;
        writeln!(f, "  streams     {}", hex(&self.streams))?;
        writeln!(f, "  steps       {}", self.steps)?;
        writeln!(f, "  results     {}", hex(&self.results))?;
        writeln!(f, "  new         {}", hex(&self.new_personality))?;
        writeln!(f, "  row         {}", hex(&self.row))?;
        writeln!(f, "  record      {}", self.record)?;
        writeln!(f, "  first       {}", self.first)?;
        writeln!(f, "  outputs     {}", hex(&self.outputs))?;
        writeln!(f, "  sealed      {}", hex(&self.sealed))?;
        write!(f, "  waits       {}", hex(&self.waits))
    }
}

impl fmt::Display for Failure {
    fn fmt(&self, f: &mut fmt::Formatter<'_>) -> fmt::Result {
        let Failure {
            seed,
            index,
            kind,
            difference,
        } = self;
        writeln!(
            f,
            "seed {seed}, case {index} ({kind}) differs: {difference}"
        )?;
        write!(f, "again: compare {seed} case {index}")
    }
}

fn hex(bytes: &[u8]) -> String {
    if bytes.is_empty() {
        return "(none)".to_string();
    }
    bytes.iter().map(|byte| format!("{byte:02x}")).collect()
}
