//! Drives a site to its longest waits: for each phase and each movement the longest wait
//! that some inputs lead to, beside the wait that is promised, and what rules out the rest.

#![forbid(unsafe_code)]

mod demand;
mod random;
mod reasons;
mod run;
pub mod script;
mod situations;

pub use demand::{By, Demand, Driven};
pub use reasons::Reason;

use generate::Rng;
use model::Site;

/// The longest wait found for a phase or a movement.
#[derive(Clone, Debug)]
pub struct Found {
    /// A to G, or P1 to P8.
    pub name: String,
    /// The wait of the phase or the movement: a demand is met in fewer steps.
    pub wait: u32,
    pub driven: Driven,
    /// The steps that are ruled out for this demand.
    pub reasons: Vec<Reason>,
}

impl Found {
    /// The steps that were not reached, though nothing is known that rules them out.
    pub fn unexplained(&self) -> i64 {
        let ruled_out: u32 = self.reasons.iter().map(|reason| reason.steps).sum();
        i64::from(self.wait) - i64::from(ruled_out) - self.driven.wait as i64
    }
}

/// Drives each phase and each movement of a site to its longest wait, in the situations that
/// are known to be long and after so many random beginnings.
pub fn drive(site: &Site, seed: u64, trials: usize) -> Vec<Found> {
    let phases = (0..site.phase_count() as u8).map(|phase| {
        let name = (b'A' + phase) as char;
        let ways = Demand::all_of_phase(site, phase);
        (name.to_string(), site.lock_wait(phase), ways)
    });
    let movements = (0..site.movement_count()).map(|movement| {
        let ways = vec![Demand::Walk { movement }];
        (
            format!("P{}", movement + 1),
            site.button_wait(movement),
            ways,
        )
    });
    let all = phases.chain(movements).enumerate();
    let found = all.map(|(index, (name, wait, ways))| {
        let mut rng = Rng::of_case(seed, index as u64);
        let longest = |demand| {
            let known = situations::longest(site, demand);
            let others = random::longest(site, demand, &mut rng, trials);
            known.into_iter().chain(others)
        };
        let driven = situations::longer(ways.into_iter().flat_map(longest));
        let driven = driven.expect("each phase has a caller, and can wait in start red");
        Found {
            name,
            wait,
            reasons: reasons::ruled_out(site, driven.demand),
            driven,
        }
    });
    found.collect()
}
