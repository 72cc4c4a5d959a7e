//! The cases of retimings.

use crate::calls::Comparison;
use crate::cases::{fresh_bytes, invalid_bytes, site_whole, valid_bytes, Outcome};
use drive::{Driver, Strategy};
use generate::{
    any_inputs, any_second, broken_times, changed_beyond_times, known_inputs, refused_second,
    retimed, twice_damaged, Breakage, Pace, Plan, Rng, Shape, TimesBreakage,
};
use model::{Site, TimedState};

impl Comparison<'_> {
    /// Steps one after the other, with retimings among them, some of both refused.
    /// Most sites have short times, so that many phases start.
    pub(crate) fn retimed_run(&mut self) -> Outcome {
        let personality = quick_personality(&mut self.rng);
        let site = site_whole(&personality);
        let strategy = self.rng.pick(&Strategy::ALL);
        let mut driver = Driver::new(strategy, &site, self.rng.clone());
        let calls_a_retiming = self.rng.pick(&[5, 30, 100]);
        let mut state = fresh_bytes(&site);
        for _ in 0..400 {
            if self.rng.below(calls_a_retiming) == 0 {
                let new = any_second(&mut self.rng, &personality);
                self.retime(&personality, &mut state, &new)?;
                continue;
            }
            let before = TimedState::from_bytes(&state).expect("states of the model");
            let (inputs, length) = match self.rng.below(50) {
                0 => (any_inputs(&mut self.rng, &site), 32),
                1 => (0, self.rng.below(site.group_count())),
                _ => (driver.inputs(&site, &before.state), site.group_count()),
            };
            self.step(&personality, &mut state, inputs, length)?;
        }
        Ok(())
    }

    /// Retimings from random valid states, each followed by a step.
    pub(crate) fn retimings(&mut self) -> Outcome {
        self.on_site(20, |comparison, personality, site| {
            let mut state = valid_bytes(&mut comparison.rng, personality, site);
            let new = retimed(&mut comparison.rng, personality);
            comparison.retime(personality, &mut state, &new)?;
            let inputs = known_inputs(&mut comparison.rng, site);
            comparison.step(personality, &mut state, inputs, site.group_count())
        })
    }

    /// Retimings that are refused with 26.
    pub(crate) fn retimings_elsewhere(&mut self) -> Outcome {
        self.on_site(15, |comparison, personality, site| {
            let mut state = valid_bytes(&mut comparison.rng, personality, site);
            let new = changed_beyond_times(&mut comparison.rng, personality);
            comparison.retime(personality, &mut state, &new)
        })
    }

    /// Retimings with a personality that is itself refused.
    pub(crate) fn refused_seconds(&mut self) -> Outcome {
        self.on_site(15, |comparison, personality, site| {
            let mut state = valid_bytes(&mut comparison.rng, personality, site);
            let new = refused_second(&mut comparison.rng, personality);
            comparison.retime(personality, &mut state, &new)
        })
    }

    /// States whose times are wrong, stepped and retimed.
    pub(crate) fn broken_times(&mut self) -> Outcome {
        self.on_site(15, |comparison, personality, site| {
            let rng = &mut comparison.rng;
            let breakage = rng.pick(&TimesBreakage::ALL);
            let Some(mut state) = broken_times(rng, personality, site, breakage) else {
                return Ok(0);
            };
            let inputs = known_inputs(rng, site);
            let new = retimed(rng, personality);
            comparison.retime(personality, &mut state, &new)?;
            comparison.step(personality, &mut state, inputs, site.group_count())
        })
    }

    /// A state that may be wrong and a new personality that may be refused or differ
    /// in more than times, on a personality that may be refused.
    pub(crate) fn retiming_wrongs(&mut self) -> Outcome {
        let twice = twice_damaged(&mut self.rng);
        self.on_site(20, |comparison, personality, site| {
            let mut state = doubtful_state(&mut comparison.rng, personality, site);
            if comparison.rng.percent(10) {
                state.pop();
            }
            let new = match comparison.rng.below(4) {
                0 => twice.clone(),
                _ => any_second(&mut comparison.rng, personality),
            };
            let refused = comparison.rng.percent(20);
            let personality = if refused { &twice } else { personality };
            comparison.retime(personality, &mut state, &new)
        })
    }
}

/// A state that is valid or breaks one rule.
pub(crate) fn doubtful_state(rng: &mut Rng, personality: &[u8], site: &Site) -> Vec<u8> {
    let broken = match rng.below(4) {
        0 => {
            let breakage = rng.pick(&Breakage::ALL);
            invalid_bytes(rng, personality, site, breakage)
        }
        1 => {
            let breakage = rng.pick(&TimesBreakage::ALL);
            broken_times(rng, personality, site, breakage)
        }
        _ => None,
    };
    broken.unwrap_or_else(|| valid_bytes(rng, personality, site))
}

/// A random accepted personality; two of three have short times.
pub(crate) fn quick_personality(rng: &mut Rng) -> Vec<u8> {
    let mut shape = Shape::random(rng);
    if rng.percent(66) {
        shape.pace = Pace::Short;
    }
    Plan::of_shape(rng, shape).bytes()
}
