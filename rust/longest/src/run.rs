//! A run of a site from the fresh state, with the inputs that made it.

use model::{fresh, step_on, Detector, Interval, Site, Stage, State, FIRST_BUTTON, MAX_GROUPS};

/// A run that takes longer to reach its situation is given up.
const MOST_STEPS: usize = 30_000;

/// A run, by the own times of a site.
#[derive(Clone)]
pub struct Run<'a> {
    site: &'a Site<'a>,
    pub state: State,
    pub inputs: Vec<u64>,
}

impl<'a> Run<'a> {
    pub fn new(site: &'a Site<'a>) -> Run<'a> {
        Run {
            site,
            state: fresh(),
            inputs: Vec::new(),
        }
    }

    pub fn step(&mut self, inputs: u64) {
        let mut colours = [0; MAX_GROUPS];
        let next = step_on(self.site, &self.state, inputs, &mut colours);
        self.state = next.expect("inputs of the site, and a state of a run");
        self.inputs.push(inputs);
    }

    /// Steps with inputs that depend on the state, until something is true of the state.
    pub fn until(
        mut self,
        done: impl Fn(&State) -> bool,
        inputs: impl Fn(&State) -> u64,
    ) -> Option<Run<'a>> {
        while !done(&self.state) {
            if self.inputs.len() >= MOST_STEPS {
                return None;
            }
            self.step(inputs(&self.state));
        }
        Some(self)
    }
}

/// The input bits of some detectors.
pub fn detectors(site: &Site, some: impl Fn(Detector) -> bool) -> u64 {
    (0..site.detector_count())
        .filter(|&index| some(site.detector(index)))
        .fold(0, |set, index| set | 1 << index)
}

/// The input bit of the button of a movement.
pub fn button(movement: usize) -> u64 {
    1 << (FIRST_BUTTON as usize + movement)
}

/// The buttons of the movements of a phase, except one.
pub fn buttons(site: &Site, phase: u8, except: Option<usize>) -> u64 {
    (0..site.movement_count())
        .filter(|&movement| site.movement(movement).phase == phase && Some(movement) != except)
        .fold(0, |set, movement| set | button(movement))
}

/// The detectors of a phase that call it, with or without lock.
pub fn callers(site: &Site, phase: u8) -> u64 {
    detectors(site, |one| {
        one.phase == phase && (one.locks() || one.calls())
    })
}

/// The detectors that extend a phase.
pub fn extenders(site: &Site, phase: u8) -> u64 {
    detectors(site, |one| one.phase == phase && one.extends())
}

/// Whether a phase has started and is not left yet.
pub fn is_open(state: &State, phase: u8) -> bool {
    state.phase == phase && matches!(state.interval, Interval::LateStart) || state.is_green(phase)
}

/// Whether a movement is in a stage, at an age or later.
pub fn is_at(state: &State, movement: usize, stage: Stage, age: u16) -> bool {
    let one = state.movements[movement];
    one.stage == stage && one.age >= age
}
