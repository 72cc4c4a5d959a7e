//! A search by random inputs: it finds what the situations may have missed.

use crate::demand::{wait_for, Demand, Driven};
use crate::run::Run;
use crate::situations::longer;
use drive::{Driver, Strategy};
use generate::Rng;
use model::Site;

/// The longest wait of a demand after so many random beginnings.
pub fn longest(site: &Site, demand: Demand, rng: &mut Rng, trials: usize) -> Option<Driven> {
    longer((0..trials).filter_map(|trial| {
        let strategy = rng.pick(&Strategy::ALL);
        let steps = rng.below(site.wait_bound() as usize);
        let mut driver = Driver::new(strategy, site, Rng::new(rng.draw()));
        let mut run = Run::new(site);
        for _ in 0..steps {
            let inputs = driver.inputs(site, &run.state);
            run.step(inputs);
        }
        let how = format!("random beginning {trial}, {strategy:?}");
        wait_for(demand, run, &how, |_| site.known_inputs())
    }))
}
