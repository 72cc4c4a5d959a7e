//! The sites of which calls are timed.

use generate::{known_inputs, time_fields, Plan, Rng};
use model::{packed, step_timed_on, Interval, Site, TimedState, MAX_GROUPS, STATE_LEN};

/// Steps before the inputs repeat.
pub const INPUTS: usize = 1 << 14;

/// The byte of a state that says whether times wait.
pub const TIMES_WAIT: usize = 187;

/// States of which lines are told.
const HOLDING: usize = 64;

/// A site with the inputs of its steps, a second personality for it, and some of the
/// states in running that the inputs lead to, each with the inputs of its step. Each
/// time of the second is a step longer, or a step shorter where no longer one is
/// allowed; a state in which it waits ends in the bytes of `waiting`.
pub struct Bench {
    pub name: &'static str,
    pub personality: Vec<u8>,
    pub second: Vec<u8>,
    pub waiting: [u8; STATE_LEN - TIMES_WAIT],
    pub inputs: Vec<u64>,
    pub holding: Vec<([u8; STATE_LEN], u64)>,
}

impl Bench {
    /// The smallest site, the junction of two phases, the same with an arrow that
    /// stops early, three phases not in letter order, and the largest site.
    pub fn all(seed: u64) -> [Bench; 5] {
        let arrow = Plan::turning_arrow(Some(vec![20, 0]));
        let ordered = Plan::three_phases(Some(vec![0, 2, 1]));
        [
            Bench::new("smallest site", Plan::smallest(), seed),
            Bench::new("junction of two phases", Plan::junction(), seed),
            Bench::new("junction with early cut-off", arrow, seed),
            Bench::new("three phases, C before B", ordered, seed),
            Bench::new("largest site", Plan::largest(), seed),
        ]
    }

    /// Each input word lasts a few steps, as vehicles do.
    fn new(name: &'static str, plan: Plan, seed: u64) -> Bench {
        let personality = plan.bytes();
        let site = Site::read(&personality).expect("an accepted plan");
        let mut rng = Rng::new(seed);
        let mut inputs = Vec::with_capacity(INPUTS);
        while inputs.len() < INPUTS {
            let word = known_inputs(&mut rng, &site);
            let lasts = rng.range(1, 30).min(INPUTS - inputs.len());
            inputs.extend(std::iter::repeat_n(word, lasts));
        }
        let second = other_times(&personality);
        Bench {
            name,
            waiting: waiting(&personality, &second),
            second,
            holding: holding(&site, &inputs),
            personality,
            inputs,
        }
    }
}

/// The personality with each time a step longer, or a step shorter where no longer
/// one is allowed.
fn other_times(personality: &[u8]) -> Vec<u8> {
    let mut other = personality.to_vec();
    for (at, _) in time_fields(personality) {
        let time = u16::from_le_bytes([other[at], other[at + 1]]);
        other[at..at + 2].copy_from_slice(&(time + 1).to_le_bytes());
        if packed::read(&other) != 0 {
            other[at..at + 2].copy_from_slice(&(time - 1).to_le_bytes());
        }
    }
    other
}

/// The end of a state in which the times of the second personality wait.
fn waiting(personality: &[u8], second: &[u8]) -> [u8; STATE_LEN - TIMES_WAIT] {
    let mut state = [0; STATE_LEN];
    assert_eq!(packed::fresh(personality, &mut state), 0);
    assert_eq!(packed::retime(personality, &mut state, second), 0);
    *state.last_chunk().expect("a state is longer")
}

/// States in running from all over a run, each with the inputs of its step.
fn holding(site: &Site, inputs: &[u64]) -> Vec<([u8; STATE_LEN], u64)> {
    let mut state = TimedState::fresh(site);
    let mut colours = [0; MAX_GROUPS];
    let mut running = Vec::new();
    for &inputs in inputs {
        state = step_timed_on(site, &state, inputs, &mut colours).expect("an accepted step");
        if state.state.interval == Interval::Running {
            running.push((state.to_bytes(), inputs));
        }
    }
    let apart = (running.len() / HOLDING).max(1);
    running.into_iter().step_by(apart).take(HOLDING).collect()
}

#[cfg(test)]
mod tests {
    use super::*;
    use model::{step_on, State};

    /// Whether the timed steps go through such a state.
    fn reaches(bench: &Bench, wanted: impl Fn(&State) -> bool) -> bool {
        let site = Site::read(&bench.personality).unwrap();
        let mut colours = [0; MAX_GROUPS];
        let mut state = model::fresh();
        bench.inputs.iter().any(|&inputs| {
            state = step_on(&site, &state, inputs, &mut colours).unwrap();
            wanted(&state)
        })
    }

    #[test]
    fn sites_with_early_cut_off_run_through_it() {
        let early = |state: &State| state.interval == Interval::EarlyCutOff;
        let found = Bench::all(1).map(|bench| reaches(&bench, early));
        assert_eq!(found, [false, false, true, false, true]);
    }

    #[test]
    fn every_site_tells_lines_of_several_lengths() {
        for bench in Bench::all(1) {
            assert_eq!(bench.holding.len(), HOLDING, "{}", bench.name);
            let length = |(state, inputs): &([u8; STATE_LEN], u64)| {
                packed::rest(packed::why_length(&bench.personality, state, *inputs))
            };
            let lengths = bench.holding.iter().map(length);
            let lengths: std::collections::BTreeSet<u64> = lengths.collect();
            assert!(lengths.len() > 2 && !lengths.contains(&0), "{lengths:?}");
        }
    }

    #[test]
    fn every_second_personality_has_other_times() {
        for bench in Bench::all(1) {
            assert_eq!(bench.waiting[0], 1);
            for (at, _) in time_fields(&bench.personality) {
                assert_ne!(bench.second[at..at + 2], bench.personality[at..at + 2]);
            }
        }
    }

    #[test]
    fn sites_with_an_order_run_by_it() {
        // C before B, both demanded.
        let ahead = |state: &State| state.target == Some(2) && state.demanded & 0b110 == 0b110;
        let found = Bench::all(1).map(|bench| reaches(&bench, ahead));
        assert_eq!(found, [false, false, false, true, true]);
    }
}
