//! How long demands wait, beside the wait of their own phase or movement.

use crate::demands::{called_phases, registered_movements, registered_phases};
use crate::limits::Limits;
use crate::site::Site;
use crate::state::Interval;
use crate::step::Step;
use crate::times::Ruling;
use crate::Breach;

/// The demands that wait, as the inputs make them.
#[derive(Clone, Debug)]
pub struct OwnWaits {
    locks: Vec<bool>,
    presses: Vec<bool>,
    /// The phase of each movement.
    phase_of: Vec<usize>,
    /// For the minimum green of each phase, and for the walk of each movement.
    phases: Vec<Lasting>,
    movements: Vec<Lasting>,
    /// Of the demands met, the wait that came nearest to its own wait, and that.
    pub nearest: (u64, u64),
}

/// A demand that lasts, from the step that registered it and from each later step at
/// which other times began to rule: from there on it may have to be met earlier.
type Lasting = Vec<Waiting>;

/// A demand from one of its steps on.
#[derive(Clone, Debug)]
struct Waiting {
    registered: u64,
    /// What comes before the turns, by the times ruling after that step.
    before: u64,
    /// The greatest turn of each other phase and the greatest late start that counts,
    /// among the times that ruled since.
    turns: [u64; 7],
    late_start: u64,
}

impl Waiting {
    /// It is met in fewer steps than these.
    fn wait(&self) -> u64 {
        self.before + self.late_start + self.turns.iter().sum::<u64>()
    }

    /// A demand for the minimum green of a phase.
    fn for_green(limits: &Limits, phase: usize, step: u64) -> Waiting {
        let mut waiting = Waiting::since(step, limits.first[phase]);
        waiting.ruled_by(limits, phase, true);
        waiting
    }

    /// A demand for the walk of a movement.
    fn for_walk(limits: &Limits, movement: usize, phase: usize, step: u64) -> Waiting {
        let mut waiting = Waiting::since(step, limits.walk_first[movement]);
        waiting.ruled_by(limits, phase, false);
        waiting
    }

    fn since(registered: u64, before: u64) -> Waiting {
        Waiting {
            registered,
            before,
            turns: [0; 7],
            late_start: 0,
        }
    }

    /// The limits by the times that rule while a phase is waited for, for its green or for a
    /// walk.
    fn ruled_by(&mut self, limits: &Limits, phase: usize, green: bool) {
        for (other, turn) in self.turns.iter_mut().enumerate() {
            if other != phase {
                *turn = limits.turn[other].max(*turn);
            }
        }
        if green {
            self.late_start = self.late_start.max(limits.late_start[phase]);
        }
    }
}

impl OwnWaits {
    pub fn new(site: &Site) -> OwnWaits {
        let movements = site.movements.len();
        OwnWaits {
            locks: vec![false; site.phases],
            presses: vec![false; movements],
            phase_of: site.movements.iter().map(|one| one.phase).collect(),
            phases: vec![Vec::new(); site.phases],
            movements: vec![Vec::new(); movements],
            nearest: (0, 1),
        }
    }

    pub fn step(&mut self, site: &Site, ruling: &Ruling, step: &Step) -> Result<(), Breach> {
        for phase in registered_phases(site, step) {
            self.locks[phase] = true;
        }
        for movement in registered_movements(site, step) {
            self.presses[movement] = true;
        }
        let called = called_phases(site, step).fold(0, |set: u8, phase| set | 1 << phase);
        if step.changes() {
            self.change(&ruling.limits);
        }
        for phase in 0..self.phases.len() {
            self.phase(&ruling.limits, step, phase, called >> phase & 1 != 0)?;
        }
        for movement in 0..self.movements.len() {
            self.movement(&ruling.limits, step, movement)?;
        }
        Ok(())
    }

    /// Other times rule while the demands wait.
    fn change(&mut self, limits: &Limits) {
        for (phase, lasting) in self.phases.iter_mut().enumerate() {
            let each = lasting.iter_mut();
            each.for_each(|one| one.ruled_by(limits, phase, true));
        }
        for (&phase, lasting) in self.phase_of.iter().zip(&mut self.movements) {
            let each = lasting.iter_mut();
            each.for_each(|one| one.ruled_by(limits, phase, false));
        }
    }

    /// The demand of a phase: it lasts from a step with the phase not in green, as long as
    /// the phase is demanded or in its late start.
    fn phase(
        &mut self,
        limits: &Limits,
        step: &Step,
        phase: usize,
        called: bool,
    ) -> Result<(), Breach> {
        let of_phase = |(&of, &pressed): (&usize, &bool)| pressed && of == phase;
        let pressed = self.phase_of.iter().zip(&self.presses).any(of_phase);
        let demanded = self.locks[phase] || pressed || called;
        let starting = step.before.is_in(phase, Interval::LateStart);
        let lasting = &mut self.phases[phase];
        if step.before.is_green(phase) || !demanded && !starting {
            lasting.clear();
        } else if demanded && (lasting.is_empty() || step.changes()) {
            lasting.push(Waiting::for_green(limits, phase, step.number));
        }
        if let Some((registered, wait)) = overdue(lasting, step.number) {
            return Err(Breach::PhaseWaits {
                step: step.number,
                phase,
                registered,
                wait,
            });
        }
        if step.minimum_green_begins(phase) {
            self.locks[phase] = false;
            nearer(&mut self.nearest, lasting, step.number);
            lasting.clear();
        }
        Ok(())
    }

    /// The button demand of a movement.
    fn movement(&mut self, limits: &Limits, step: &Step, movement: usize) -> Result<(), Breach> {
        let lasting = &mut self.movements[movement];
        if self.presses[movement] && (lasting.is_empty() || step.changes()) {
            let phase = self.phase_of[movement];
            lasting.push(Waiting::for_walk(limits, movement, phase, step.number));
        }
        if let Some((registered, wait)) = overdue(lasting, step.number) {
            return Err(Breach::WalkWaits {
                step: step.number,
                movement,
                registered,
                wait,
            });
        }
        if step.walk_begins(movement) {
            self.presses[movement] = false;
            nearer(&mut self.nearest, lasting, step.number);
            lasting.clear();
        }
        Ok(())
    }
}

/// The step and the wait of a demand that has waited too long, if there is one. To be met
/// in this step is too late too.
fn overdue(lasting: &[Waiting], step: u64) -> Option<(u64, u64)> {
    let late = |one: &&Waiting| step - one.registered >= one.wait();
    let late = lasting.iter().find(late)?;
    Some((late.registered, late.wait()))
}

/// Takes in the demands met in a step.
fn nearer(nearest: &mut (u64, u64), met: &[Waiting], step: u64) {
    for one in met {
        let (waited, wait) = (step - one.registered, one.wait());
        if waited * nearest.1 > nearest.0 * wait {
            *nearest = (waited, wait);
        }
    }
}
