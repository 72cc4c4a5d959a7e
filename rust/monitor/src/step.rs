//! An accepted step, decoded.

use crate::site::Site;
use crate::state::{Interval, State};
use crate::{Breach, Seen};

/// An accepted step, by its number from 1.
#[derive(Clone, Copy, Debug)]
pub struct Step<'a> {
    pub number: u64,
    pub before: State<'a>,
    pub inputs: u64,
    pub after: State<'a>,
    pub colours: &'a [u8],
    pub wait: u64,
}

impl<'a> Step<'a> {
    pub fn of(site: &Site, seen: &Seen<'a>, number: u64) -> Result<Step<'a>, Breach> {
        let state = |bytes| State::of(bytes, site).ok_or(Breach::NoState { step: number });
        Ok(Step {
            number,
            before: state(seen.before)?,
            inputs: seen.inputs,
            after: state(seen.after)?,
            colours: seen.colours,
            wait: seen.wait,
        })
    }

    /// The phase that starts in the step, if one does: start red or all-red is before it, and
    /// late start or minimum green of the phase after it.
    pub fn started(&self) -> Option<usize> {
        let (before, after) = (self.before.interval, self.after.interval);
        let before_a_start = matches!(before, Interval::StartRed | Interval::AllRed);
        let starts = matches!(after, Interval::LateStart | Interval::MinimumGreen);
        (before_a_start && starts).then_some(self.after.phase)
    }

    /// Whether the times change: some waited before the step, and none do after it.
    pub fn changes(&self) -> bool {
        self.before.waiting.is_some() && self.after.waiting.is_none()
    }

    /// Whether the minimum green of a phase begins.
    pub fn minimum_green_begins(&self, phase: usize) -> bool {
        let green = |state: &State| state.is_in(phase, Interval::MinimumGreen);
        green(&self.after) && !green(&self.before)
    }

    /// Whether the walk of a movement begins.
    pub fn walk_begins(&self, movement: usize) -> bool {
        self.after.walks(movement) && !self.before.walks(movement)
    }
}
