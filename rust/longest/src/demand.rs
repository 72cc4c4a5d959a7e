//! What waits: the minimum green of a phase, or the walk of a movement.

use crate::run::{button, Run};
use model::{Interval, Site, Stage, State};
use std::fmt;

/// A demand that is made to wait.
#[derive(Clone, Copy, Debug, PartialEq, Eq)]
pub enum Demand {
    /// For the minimum green of a phase, by an input.
    Green { phase: u8, by: By },
    /// For the walk of a movement.
    Walk { movement: usize },
}

/// What demands a phase.
#[derive(Clone, Copy, Debug, PartialEq, Eq)]
pub enum By {
    /// A detector that locks, occupied once.
    Lock(usize),
    /// A detector that calls without lock, occupied in every step.
    Call(usize),
    /// The button of a movement, pressed once.
    Button(usize),
}

impl Demand {
    /// The ways to demand the minimum green of a phase.
    pub fn all_of_phase(site: &Site, phase: u8) -> Vec<Demand> {
        let of_phase = |&index: &usize| site.detector(index).phase == phase;
        let detectors: Vec<usize> = (0..site.detector_count()).filter(of_phase).collect();
        let find = |some: fn(model::Detector) -> bool| {
            let mut some = detectors.iter().filter(move |&&d| some(site.detector(d)));
            some.next().copied()
        };
        let movement = (0..site.movement_count()).find(|&m| site.movement(m).phase == phase);
        let ways = [
            find(model::Detector::locks).map(By::Lock),
            find(model::Detector::calls).map(By::Call),
            movement.map(By::Button),
        ];
        let ways = ways.into_iter().flatten();
        ways.map(|by| Demand::Green { phase, by }).collect()
    }

    /// The phase that must start for it.
    pub fn phase(&self, site: &Site) -> u8 {
        match *self {
            Demand::Green { phase, .. } => phase,
            Demand::Walk { movement } => site.movement(movement).phase,
        }
    }

    /// The input that registers it.
    pub fn input(&self) -> u64 {
        match *self {
            Demand::Green {
                by: By::Lock(detector) | By::Call(detector),
                ..
            } => 1 << detector,
            Demand::Green {
                by: By::Button(movement),
                ..
            }
            | Demand::Walk { movement } => button(movement),
        }
    }

    /// Whether the input registers it in a state.
    fn registers(&self, state: &State) -> bool {
        let walks = |movement: usize| state.movements[movement].stage == Stage::Walk;
        match *self {
            Demand::Green { phase, .. } if state.is_green(phase) => false,
            Demand::Green {
                by: By::Button(movement),
                ..
            }
            | Demand::Walk { movement } => !walks(movement),
            Demand::Green { .. } => true,
        }
    }

    /// Whether it is met, by the states before and after a step.
    fn met(&self, before: &State, after: &State) -> bool {
        let is_met = |state: &State| match *self {
            Demand::Green { phase, .. } => {
                state.phase == phase && state.interval == Interval::MinimumGreen
            }
            Demand::Walk { movement } => state.movements[movement].stage == Stage::Walk,
        };
        is_met(after) && !is_met(before)
    }
}

impl fmt::Display for Demand {
    fn fmt(&self, f: &mut fmt::Formatter<'_>) -> fmt::Result {
        match self {
            Demand::Green { phase, by } => {
                let letter = (b'A' + phase) as char;
                match by {
                    By::Lock(detector) => write!(f, "{letter}, lock by detector {detector}"),
                    By::Call(detector) => write!(f, "{letter}, held call of detector {detector}"),
                    By::Button(movement) => write!(f, "{letter}, button {movement}"),
                }
            }
            Demand::Walk { movement } => write!(f, "P{}, button {movement}", movement + 1),
        }
    }
}

/// A demand that waited.
#[derive(Clone, Debug)]
pub struct Driven {
    pub demand: Demand,
    /// The step that registers it, counted from 1.
    pub registered: usize,
    /// Further steps to the one that meets it.
    pub wait: usize,
    /// The inputs from the first step on.
    pub inputs: Vec<u64>,
    /// How it was found.
    pub how: String,
}

/// Registers a demand in the next step of a run, and goes on with inputs that are chosen by
/// the state, with those of the demand if it has to be held, until it is met. None if the
/// next step does not register it.
pub fn wait_for(
    demand: Demand,
    mut run: Run,
    how: &str,
    inputs: impl Fn(&State) -> u64,
) -> Option<Driven> {
    if !demand.registers(&run.state) {
        return None;
    }
    let registered = run.inputs.len() + 1;
    let held = match demand {
        Demand::Green {
            by: By::Call(_), ..
        } => demand.input(),
        _ => 0,
    };
    loop {
        let first = run.inputs.len() + 1 == registered;
        let own = if first { demand.input() } else { held };
        let before = run.state;
        run.step(own | inputs(&before));
        if demand.met(&before, &run.state) {
            return Some(Driven {
                demand,
                registered,
                wait: run.inputs.len() - registered,
                inputs: run.inputs,
                how: how.to_string(),
            });
        }
    }
}
