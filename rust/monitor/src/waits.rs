//! How long demands wait.

use crate::demands::{registered_movements, registered_phases};
use crate::site::Site;
use crate::step::Step;
use crate::times::Ruling;
use crate::Breach;

/// The demands that wait.
#[derive(Clone, Debug)]
pub struct Waits {
    phases: Vec<Option<Waiting>>,
    movements: Vec<Option<Waiting>>,
    pub met: u64,
    pub longest: u64,
    /// Of the demands met, the wait that came nearest to what it was allowed, and
    /// that.
    pub nearest: (u64, u64),
    pub changes: u64,
}

/// A demand not yet met, by the step that registered it. If several steps did,
/// the one whose time is up first: every change gives all of them the same more.
#[derive(Clone, Copy, Debug, PartialEq, Eq)]
struct Waiting {
    registered: u64,
    /// The wait of the times ruling after that step, and that of every change since.
    allowed: u64,
}

impl Waiting {
    fn ends(self) -> u64 {
        self.registered + self.allowed
    }
}

impl Waits {
    pub fn new(site: &Site) -> Waits {
        Waits {
            phases: vec![None; site.phases],
            movements: vec![None; site.movements.len()],
            met: 0,
            longest: 0,
            nearest: (0, 1),
            changes: 0,
        }
    }

    pub fn step(&mut self, site: &Site, ruling: &Ruling, step: &Step) -> Result<(), Breach> {
        let wait = ruling.limits.bound;
        if step.changes() {
            self.changes += 1;
            let waiting = self.phases.iter_mut().chain(&mut self.movements);
            waiting.flatten().for_each(|one| one.allowed += wait);
        }
        let now = Waiting {
            registered: step.number,
            allowed: wait,
        };
        for phase in registered_phases(site, step) {
            register(&mut self.phases[phase], now);
        }
        for movement in registered_movements(site, step) {
            register(&mut self.movements[movement], now);
        }
        for phase in 0..self.phases.len() {
            if step.minimum_green_begins(phase) {
                let waiting = self.phases[phase].take();
                self.count_met(waiting, step.number);
            }
        }
        for movement in 0..self.movements.len() {
            if step.walk_begins(movement) {
                let waiting = self.movements[movement].take();
                self.count_met(waiting, step.number);
            }
        }
        self.none_too_long(step.number)
    }

    /// The demands that wait.
    pub fn waiting(&self) -> u64 {
        self.phases.iter().chain(&self.movements).flatten().count() as u64
    }

    fn count_met(&mut self, waiting: Option<Waiting>, step: u64) {
        if let Some(Waiting {
            registered,
            allowed,
        }) = waiting
        {
            let waited = step - registered;
            self.met += 1;
            self.longest = self.longest.max(waited);
            if waited * self.nearest.1 > self.nearest.0 * allowed {
                self.nearest = (waited, allowed);
            }
        }
    }

    /// A demand still waiting has further steps left.
    fn none_too_long(&self, step: u64) -> Result<(), Breach> {
        let overdue = |waiting: &Option<Waiting>| waiting.filter(|one| step >= one.ends());
        for (phase, waiting) in self.phases.iter().enumerate() {
            if let Some(Waiting { registered, .. }) = overdue(waiting) {
                return Err(Breach::LockUnmet {
                    step,
                    phase,
                    registered,
                });
            }
        }
        for (movement, waiting) in self.movements.iter().enumerate() {
            if let Some(Waiting { registered, .. }) = overdue(waiting) {
                return Err(Breach::PressUnmet {
                    step,
                    movement,
                    registered,
                });
            }
        }
        Ok(())
    }
}

fn register(waiting: &mut Option<Waiting>, now: Waiting) {
    match waiting {
        Some(earlier) if earlier.ends() <= now.ends() => {}
        _ => *waiting = Some(now),
    }
}
