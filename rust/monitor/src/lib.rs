//! Watches a run of step and retiming calls from outside, for the parts of demand 3:
//! no conflicting greens together, full clearances before a conflicting green, and
//! every registered demand met within the wait of the times then ruling and of those
//! that take over while it stands. Each demand that lasts is met within the wait of its own
//! phase or movement. While it waits no phase starts twice. A group that
//! stops early begins its clearance with early cut-off, the phases kept as demanded are
//! those that are, and times rule from the start on that they waited for.
//!
//! [`Monitor`] sees what a caller of the library sees, bytes and answers, and is told of each
//! accepted call. It reads them by itself and works out every limit by itself, from the words
//! of `docs/RULES.md` and `docs/DATA-SHEET.md`: it uses no code of the model, and no other
//! package. The personality must be one that is accepted.

#![forbid(unsafe_code)]

mod breach;
mod clearances;
mod demands;
mod limits;
mod own_waits;
mod site;
mod starts;
mod state;
mod step;
mod times;
mod waits;

pub use breach::Breach;
pub use demands::Demand;

use clearances::Clearances;
use own_waits::OwnWaits;
use site::Site;
use starts::Starts;
use step::Step;
use times::Ruling;
use waits::Waits;

/// An accepted step as seen from outside.
#[derive(Clone, Copy, Debug)]
pub struct Seen<'a> {
    /// The state handed in, and the one handed back.
    pub before: &'a [u8],
    pub inputs: u64,
    pub after: &'a [u8],
    /// One byte a group.
    pub colours: &'a [u8],
    /// The wait that the step reports.
    pub wait: u64,
}

/// The phases kept as demanded are those of the locks and of the demanded
/// movements.
fn demanded_kept(site: &Site, step: &Step) -> Result<(), Breach> {
    let state = &step.after;
    let pressed = (0..site.movements.len()).filter(|movement| state.presses >> movement & 1 != 0);
    let found = pressed.fold(state.locks, |set, movement| {
        set | 1 << site.movements[movement].phase
    });
    if state.kept == found {
        Ok(())
    } else {
        Err(Breach::DemandedDiffers {
            step: step.number,
            kept: state.kept,
            found,
        })
    }
}

/// Watches one run on one site.
#[derive(Clone, Debug)]
pub struct Monitor {
    site: Site,
    /// By the times that rule after the last accepted step.
    ruling: Ruling,
    clearances: Clearances,
    starts: Starts,
    waits: Waits,
    /// None if the wait bound alone is watched.
    own_waits: Option<OwnWaits>,
    accepted: u64,
    bound: u64,
}

impl Monitor {
    /// A monitor of a run on an accepted personality.
    pub fn new(personality: &[u8]) -> Monitor {
        let site = Site::read(personality);
        let ruling = Ruling::by(&site, &site.times);
        Monitor {
            clearances: Clearances::new(&site),
            starts: Starts::new(&site),
            waits: Waits::new(&site),
            own_waits: Some(OwnWaits::new(&site)),
            accepted: 0,
            bound: ruling.limits.bound,
            ruling,
            site,
        }
    }

    /// A monitor that measures every demand by the wait bound of the site alone. No wait of
    /// a phase or a movement is above it, so that the other monitor finds a long wait first.
    pub fn of_the_wait_bound(personality: &[u8]) -> Monitor {
        Monitor {
            own_waits: None,
            ..Monitor::new(personality)
        }
    }

    /// A run begins with the fresh state.
    pub fn begins_with(&self, state: &[u8]) -> Result<(), Breach> {
        if state == state::fresh(&self.site) {
            Ok(())
        } else {
            Err(Breach::NotFresh)
        }
    }

    /// What a step call answers that is refused, by its inputs and the length of its colour
    /// buffer alone; none if it is accepted.
    pub fn step_refusal(&self, inputs: u64, colours: usize) -> Option<u64> {
        if self.site.has_stray(inputs) {
            Some(15)
        } else if colours < self.site.groups.len() {
            Some(14)
        } else {
            None
        }
    }

    /// What a retiming answers with a new personality, by what reading that one answers.
    pub fn retiming_answer(&self, new_personality: &[u8], read: u64) -> u64 {
        match read {
            0 if !self.site.differs_in_times_at_most(new_personality) => 26,
            answer => answer,
        }
    }

    /// Takes in an accepted step; a breach is an error.
    pub fn accepted_step(&mut self, seen: &Seen) -> Result<(), Breach> {
        self.accepted += 1;
        let step = Step::of(&self.site, seen, self.accepted)?;
        self.ruling.take(&self.site, step.after.ruling);
        times::step(&self.ruling, &step)?;
        demanded_kept(&self.site, &step)?;
        self.clearances.step(&self.site, &self.ruling, &step)?;
        self.starts.step(&self.site, &step)?;
        if let Some(own_waits) = &mut self.own_waits {
            own_waits.step(&self.site, &self.ruling, &step)?;
        }
        self.waits.step(&self.site, &self.ruling, &step)
    }

    /// Takes in an accepted retiming with a new personality, by the states before and after it.
    pub fn accepted_retiming(
        &self,
        before: &[u8],
        after: &[u8],
        new_personality: &[u8],
    ) -> Result<(), Breach> {
        let new = Site::read(new_personality);
        if after == state::retimed(before, &new.times) {
            Ok(())
        } else {
            Err(Breach::WrongTimes {
                step: self.accepted,
            })
        }
    }

    /// The accepted steps so far.
    pub fn accepted(&self) -> u64 {
        self.accepted
    }

    /// The wait bound of the personality.
    pub fn bound(&self) -> u64 {
        self.bound
    }

    /// The demands met so far.
    pub fn met(&self) -> u64 {
        self.waits.met
    }

    /// The demands that wait.
    pub fn waiting(&self) -> u64 {
        self.waits.waiting()
    }

    /// The longest wait of a demand met so far, in steps.
    pub fn longest_wait(&self) -> u64 {
        self.waits.longest
    }

    /// Of the demands met so far, the wait that came nearest to what it was allowed,
    /// and that.
    pub fn nearest_wait(&self) -> (u64, u64) {
        self.waits.nearest
    }

    /// Of the demands met so far, the wait that came nearest to the wait of its own phase
    /// or movement, and that.
    pub fn nearest_own_wait(&self) -> (u64, u64) {
        self.own_waits.as_ref().map_or((0, 1), |own| own.nearest)
    }

    /// Most phases that started so far while a demand waited.
    pub fn most_starts(&self) -> u32 {
        self.starts.most
    }

    /// The changes to other times so far.
    pub fn changes(&self) -> u64 {
        self.waits.changes
    }

    /// The greens begun so far.
    pub fn green_starts(&self) -> u64 {
        self.clearances.green_starts
    }

    /// The wait of each phase, then of each movement, by the times that rule.
    pub fn waits(&self) -> Vec<u64> {
        let phases = (0..self.site.phases).map(|phase| self.ruling.limits.phase_wait(phase));
        let movements = self.site.movements.iter().enumerate();
        let movements = movements
            .map(|(index, movement)| self.ruling.limits.movement_wait(index, movement.phase));
        phases.chain(movements).collect()
    }
}
