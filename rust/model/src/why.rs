//! Why a phase holds its green, request thirteen: one line for the technician's
//! panel, read from the state after a step and from that step's non-locking calls.

use crate::bits::set_bits;
use crate::refusal::{Number, Refusal};
use crate::site::Site;
use crate::state::{Interval, Stage, State};
use crate::step::Occupied;
use crate::timed::{admit, TimedState};
use core::fmt::{self, Write};

/// The length of the longest line: every reason is told, each count with as many
/// digits as it can have, and a walk for each of eight movements.
pub const LONGEST_LINE: usize = 107;

/// Why a phase in running holds its green.
#[derive(Clone, Copy, Debug, PartialEq, Eq)]
pub struct Reasons {
    pub phase: u8,
    /// No other phase is demanded: by what stands, or by a non-locking call.
    pub no_other_demand: bool,
    /// The gap count, told where it is above 0.
    pub gap: u16,
    /// The steps left to the maximum, told where there are any.
    pub steps_left: u16,
    /// The movements in walk or their first clearance; bit 0 is the first movement.
    pub walks: u8,
}

/// A full call: the personality, the state and the inputs are checked as in a step.
/// There are no reasons outside running.
pub fn why(
    personality: &[u8],
    timed: &TimedState,
    inputs: u64,
) -> Result<Option<Reasons>, Refusal> {
    why_on(&Site::read(personality)?, timed, inputs)
}

/// The same on a site already read.
pub fn why_on(site: &Site, timed: &TimedState, inputs: u64) -> Result<Option<Reasons>, Refusal> {
    let ruled = site.with_times(&timed.ruling);
    admit(site, &ruled, timed, inputs)?;
    let running = timed.state.interval == Interval::Running;
    Ok(running.then(|| Reasons::of(&ruled, &timed.state, inputs)))
}

impl Reasons {
    /// The reasons of a valid state in running, at the site by the times that rule.
    fn of(ruled: &Site, state: &State, inputs: u64) -> Reasons {
        let demanded = state.demanded | Occupied::by(ruled, inputs).calling;
        let holds = |stage: Stage| matches!(stage, Stage::Walk | Stage::ClearanceOne);
        let walks = state.movements.iter().enumerate();
        Reasons {
            phase: state.phase,
            no_other_demand: demanded & !(1 << state.phase) == 0,
            gap: state.gap_count,
            steps_left: ruled.phase(state.phase).maximum_green - state.maximum_count,
            walks: walks.fold(0, |set, (index, movement)| {
                set | u8::from(holds(movement.stage)) << index
            }),
        }
    }

    /// The length of the line in bytes.
    pub fn length(&self) -> usize {
        let mut count = Count(0);
        write!(count, "{self}").expect("counting never fails");
        count.0
    }

    /// Writes the line to the beginning of a buffer and gives its length. A buffer
    /// that is too short keeps its bytes.
    pub fn write(&self, buffer: &mut [u8]) -> Result<usize, Refusal> {
        let length = self.length();
        let Some(line) = buffer.get_mut(..length) else {
            return Err(Refusal::without_place(Number::ShortBuffer));
        };
        write!(Fill(line), "{self}").expect("a line of its length");
        Ok(length)
    }
}

/// The line.
impl fmt::Display for Reasons {
    fn fmt(&self, f: &mut fmt::Formatter<'_>) -> fmt::Result {
        write!(f, "{} holds", char::from(b'A' + self.phase))?;
        if self.no_other_demand {
            f.write_str(", no other demand")?;
        }
        for (word, count) in [("gap", self.gap), ("max", self.steps_left)] {
            if count > 0 {
                write!(f, ", {word} {count}")?;
            }
        }
        for movement in set_bits(self.walks.into()) {
            write!(f, ", walk {}", movement + 1)?;
        }
        Ok(())
    }
}

/// Counts the bytes that are written to it.
struct Count(usize);

impl Write for Count {
    fn write_str(&mut self, text: &str) -> fmt::Result {
        self.0 += text.len();
        Ok(())
    }
}

/// Takes what is written to it into a buffer: the part that is still free.
struct Fill<'a>(&'a mut [u8]);

impl Write for Fill<'_> {
    fn write_str(&mut self, text: &str) -> fmt::Result {
        let free = core::mem::take(&mut self.0);
        let (written, rest) = free.split_at_mut_checked(text.len()).ok_or(fmt::Error)?;
        written.copy_from_slice(text.as_bytes());
        self.0 = rest;
        Ok(())
    }
}
