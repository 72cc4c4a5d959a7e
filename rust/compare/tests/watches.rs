//! Some of the watched runs are long enough for long waits.

use compare::run_watches;
use drive::Strategy;
use model::packed::{self, Model};
use model::Site;
use monitor::Breach;
use std::cell::Cell;
use variant::{AsBoard, Variant};

/// The model, but it sees no detector and no button after as many steps as most runs have calls.
#[derive(Default)]
struct GoesBlind {
    /// Since the fresh state.
    steps: Cell<u64>,
}

const MOST_RUNS: u64 = 4_000;

impl Variant for GoesBlind {
    fn fresh(&self, personality: &[u8], state: &mut [u8]) -> u64 {
        self.steps.set(0);
        packed::fresh(personality, state)
    }

    fn step(&self, personality: &[u8], state: &mut [u8], inputs: u64, colours: &mut [u8]) -> u64 {
        self.steps.set(self.steps.get() + 1);
        let unseen = match self.steps.get() > MOST_RUNS {
            true => Site::read(personality).unwrap().known_inputs(),
            false => 0,
        };
        packed::step(personality, state, inputs & !unseen, colours)
    }
}

#[test]
fn a_demand_late_in_a_long_run_is_watched() {
    let found = run_watches(&AsBoard(GoesBlind::default()), 1, 1_000_000);
    let (_, breach) = found.expect_err("nothing is noticed");
    let waits = matches!(breach, Breach::PhaseWaits { .. } | Breach::WalkWaits { .. });
    assert!(waits, "{breach}");
}

#[test]
fn runs_of_twice_the_wait_bound_are_counted() {
    let watched = run_watches(&Model, 1, 400_000).unwrap();
    assert_eq!(watched.len(), Strategy::ALL.len() + 1);
    for strategy in &watched[..Strategy::ALL.len()] {
        assert!(strategy.long_runs < strategy.runs);
        // At a site with a bound of more steps than most runs have calls.
        assert!(strategy.patient_runs > 0, "{strategy}");
    }
    let flood = &watched[1];
    assert!(flood.demands_met > 100 && flood.demands_left > 0);
}
