//! Inputs that try a controller: random ones, and ones that know the rules and
//! try to keep a demand waiting.

use generate::{known_inputs, Rng};
use model::{Interval, Site, Stage, State, FIRST_BUTTON};

/// How a driver chooses its inputs.
#[derive(Clone, Copy, Debug, PartialEq, Eq)]
pub enum Strategy {
    /// Nothing at all.
    Quiet,
    /// Every detector occupied and every button pressed, always.
    Flood,
    /// New random inputs every step.
    Random,
    /// Random inputs that last a while.
    Bursts,
    /// One demand at a time, all others silent.
    Single,
    /// Registers a demand of one phase or movement, then keeps all others busy:
    /// every green held to its maximum, every other phase called, every button
    /// pressed.
    Greedy,
    /// The same, but registers its demand just after a walk of another phase
    /// has begun.
    Ambush,
    /// Holds the green and calls the other phases in every other step only.
    Flicker,
    /// Presses each button once, and afterwards only while its movement clears;
    /// calls the other phases now and then.
    Late,
}

impl Strategy {
    pub const ALL: [Strategy; 9] = [
        Strategy::Quiet,
        Strategy::Flood,
        Strategy::Random,
        Strategy::Bursts,
        Strategy::Single,
        Strategy::Greedy,
        Strategy::Ambush,
        Strategy::Flicker,
        Strategy::Late,
    ];
}

/// Chooses the inputs of a run.
#[derive(Clone, Debug)]
pub struct Driver {
    strategy: Strategy,
    rng: Rng,
    /// The inputs whose demand is to wait long.
    victim: u64,
    /// Inputs that last, and for how many more steps.
    lasting: (u64, usize),
    /// The movements whose buttons were pressed.
    pressed: u8,
    steps: u64,
}

impl Driver {
    pub fn new(strategy: Strategy, site: &Site, mut rng: Rng) -> Driver {
        let victim = choose_victim(&mut rng, site);
        Driver {
            strategy,
            rng,
            victim,
            lasting: (0, 0),
            pressed: 0,
            steps: 0,
        }
    }

    /// The inputs of the next step; each has a detector or button.
    pub fn inputs(&mut self, site: &Site, state: &State) -> u64 {
        self.steps += 1;
        match self.strategy {
            Strategy::Quiet => 0,
            Strategy::Flood => site.known_inputs(),
            Strategy::Random => known_inputs(&mut self.rng, site),
            Strategy::Bursts => self.lasting(1, 60, known_inputs, site),
            Strategy::Single => self.lasting(1, 200, one_input, site),
            Strategy::Greedy => self.greedy(site, state),
            Strategy::Ambush => self.ambush(site, state),
            Strategy::Flicker if self.steps.is_multiple_of(2) => hold_green(site, state),
            Strategy::Flicker => hold_green(site, state) | call_others(site, state),
            Strategy::Late if self.rng.percent(3) => {
                self.late_presses(site, state) | call_others(site, state)
            }
            Strategy::Late => self.late_presses(site, state),
        }
    }

    /// Inputs that are kept for a while.
    fn lasting(
        &mut self,
        low: usize,
        high: usize,
        choose: impl Fn(&mut Rng, &Site) -> u64,
        site: &Site,
    ) -> u64 {
        if self.lasting.1 == 0 {
            self.lasting = (choose(&mut self.rng, site), self.rng.range(low, high));
        }
        self.lasting.1 -= 1;
        self.lasting.0
    }

    /// Presses of movements that clear, and of those that were never pressed.
    fn late_presses(&mut self, site: &Site, state: &State) -> u64 {
        let mut presses = 0;
        for movement in 0..site.movement_count() {
            let clears = matches!(
                state.movements[movement].stage,
                Stage::ClearanceOne | Stage::ClearanceTwo
            );
            let first = self.pressed >> movement & 1 == 0;
            if (clears || first) && self.rng.percent(5) {
                self.pressed |= 1 << movement;
                presses |= 1 << (FIRST_BUTTON as usize + movement);
            }
        }
        presses
    }

    /// Demands for the victim, and everything that keeps it waiting.
    fn greedy(&mut self, site: &Site, state: &State) -> u64 {
        if self.rng.percent(1) {
            self.victim = choose_victim(&mut self.rng, site);
        }
        self.victim | hold_green(site, state) | call_others(site, state) | all_buttons(site)
    }

    /// Silence until a phase runs alone; then its buttons, and once one of its
    /// movements walks, the victim and all others.
    fn ambush(&mut self, site: &Site, state: &State) -> u64 {
        let walking = state.movements.iter().any(|m| m.stage == Stage::Walk);
        let demanded = state.locks != 0 || state.demands != 0;
        if demanded || walking || state.interval != Interval::Running {
            return self.greedy(site, state);
        }
        if self.rng.percent(5) {
            return self.victim;
        }
        hold_green(site, state) | own_buttons(site, state)
    }
}

/// A locking detector or a button, if the site has one.
fn choose_victim(rng: &mut Rng, site: &Site) -> u64 {
    let locking = (0..site.detector_count()).filter(|&index| site.detector(index).locks());
    let buttons = (0..site.movement_count()).map(|index| index + FIRST_BUTTON as usize);
    let bits: Vec<usize> = locking.chain(buttons).collect();
    if bits.is_empty() {
        0
    } else {
        1 << rng.pick(&bits)
    }
}

/// At most one input.
fn one_input(rng: &mut Rng, site: &Site) -> u64 {
    site.known_inputs() & 1 << rng.below(56)
}

/// The detectors that extend the phase.
fn hold_green(site: &Site, state: &State) -> u64 {
    detectors(site, |detector| {
        detector.extends() && detector.phase == state.phase
    })
}

/// The detectors that call another phase.
fn call_others(site: &Site, state: &State) -> u64 {
    detectors(site, |detector| {
        (detector.calls() || detector.locks()) && detector.phase != state.phase
    })
}

fn detectors(site: &Site, chosen: impl Fn(model::Detector) -> bool) -> u64 {
    (0..site.detector_count())
        .filter(|&index| chosen(site.detector(index)))
        .fold(0, |set, index| set | 1 << index)
}

fn all_buttons(site: &Site) -> u64 {
    site.known_inputs() >> FIRST_BUTTON << FIRST_BUTTON
}

/// The buttons of the phase's own movements.
fn own_buttons(site: &Site, state: &State) -> u64 {
    (0..site.movement_count())
        .filter(|&index| site.movement(index).phase == state.phase)
        .fold(0, |set, index| set | 1 << (FIRST_BUTTON as usize + index))
}
