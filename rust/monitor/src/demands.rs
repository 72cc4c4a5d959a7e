//! The demands that a step registers, as it shows them from outside.

use crate::site::{Detector, Site};
use crate::step::Step;
use std::fmt;

/// What waits to be met.
#[derive(Clone, Copy, Debug, PartialEq, Eq)]
pub enum Demand {
    /// The locked demand of a phase, for its minimum green to begin.
    Lock(usize),
    /// The button demand of a movement, for its walk to begin.
    Press(usize),
}

impl fmt::Display for Demand {
    fn fmt(&self, f: &mut fmt::Formatter<'_>) -> fmt::Result {
        match self {
            Demand::Lock(phase) => write!(f, "the lock of phase {phase}"),
            Demand::Press(movement) => write!(f, "the press for movement {movement}"),
        }
    }
}

/// The phases of occupied locking detectors, unless in minimum green or running.
pub fn registered_phases<'a>(site: &'a Site, step: &'a Step) -> impl Iterator<Item = usize> + 'a {
    demanding(site, step, Detector::locks)
}

/// The phases of occupied detectors that call without lock, unless in minimum green or
/// running.
pub fn called_phases<'a>(site: &'a Site, step: &'a Step) -> impl Iterator<Item = usize> + 'a {
    demanding(site, step, Detector::calls_without_lock)
}

/// The phases of the occupied ones of some detectors, unless in minimum green or running.
fn demanding<'a>(
    site: &'a Site,
    step: &'a Step,
    some: fn(Detector) -> bool,
) -> impl Iterator<Item = usize> + 'a {
    let occupied = |index: usize| step.inputs >> index & 1 != 0;
    let detectors = site.detectors.iter().enumerate();
    detectors
        .filter(move |&(index, &detector)| occupied(index) && some(detector))
        .map(|(_, detector)| detector.phase)
        .filter(|&phase| !step.before.is_green(phase))
}

/// The movements of pressed buttons, unless in walk.
pub fn registered_movements<'a>(
    site: &'a Site,
    step: &'a Step,
) -> impl Iterator<Item = usize> + 'a {
    (0..site.movements.len())
        .filter(|&movement| Site::is_pressed(step.inputs, movement) && !step.before.walks(movement))
}
