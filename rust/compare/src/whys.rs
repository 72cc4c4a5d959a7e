//! The cases of the line that says why a phase holds.

use crate::calls::Comparison;
use crate::cases::{fresh_bytes, site_whole, valid_bytes, Outcome};
use crate::retimings::{doubtful_state, quick_personality};
use drive::{Driver, Strategy};
use generate::{any_inputs, known_inputs, retimed, running_timed_state, twice_damaged, Rng};
use model::packed::{number, rest, Board, Model};
use model::{Site, TimedState, LONGEST_LINE};

impl Comparison<'_> {
    /// Steps one after the other, with the line after each, by the inputs of the step
    /// or by others. Some runs are retimed.
    pub(crate) fn why_run(&mut self) -> Outcome {
        let personality = quick_personality(&mut self.rng);
        let site = site_whole(&personality);
        let strategy = self.rng.pick(&Strategy::ALL);
        let mut driver = Driver::new(strategy, &site, self.rng.clone());
        let is_retimed = self.rng.percent(50);
        let mut state = fresh_bytes(&site);
        for _ in 0..300 {
            if is_retimed && self.rng.percent(3) {
                let new = retimed(&mut self.rng, &personality);
                self.retime(&personality, &mut state, &new)?;
            }
            let before = TimedState::from_bytes(&state).expect("states of the model");
            let mut inputs = driver.inputs(&site, &before.state);
            self.step(&personality, &mut state, inputs, site.group_count())?;
            if self.rng.percent(20) {
                inputs = any_inputs(&mut self.rng, &site);
            }
            let room = self.room_for(&personality, &state, inputs);
            self.why(&personality, &state, inputs, room)?;
        }
        Ok(())
    }

    /// Lines of random valid states, most of them in running.
    pub(crate) fn whys(&mut self) -> Outcome {
        self.on_site(30, |comparison, personality, site| {
            let state = most_often_running(&mut comparison.rng, personality, site);
            let inputs = known_inputs(&mut comparison.rng, site);
            let room = comparison.room_for(personality, &state, inputs);
            comparison.why(personality, &state, inputs, room)
        })
    }

    /// A state that may be wrong, inputs that may be wrong, a buffer that may be
    /// short, on a personality that may be refused.
    pub(crate) fn why_wrongs(&mut self) -> Outcome {
        let twice = twice_damaged(&mut self.rng);
        self.on_site(30, |comparison, personality, site| {
            let rng = &mut comparison.rng;
            let mut state = match rng.below(3) {
                0 => doubtful_state(rng, personality, site),
                _ => most_often_running(rng, personality, site),
            };
            match rng.below(20) {
                0 => state.truncate(rng.below(state.len())),
                1 => state.extend([0; 3]),
                2 => {
                    let at = rng.below(state.len());
                    state[at] = rng.byte();
                }
                _ => {}
            }
            let inputs = any_inputs(rng, site);
            let room = rng.below(LONGEST_LINE);
            let refused = rng.percent(20);
            let personality = if refused { &twice } else { personality };
            comparison.why(personality, &state, inputs, room)
        })
    }

    /// A length for the buffer of a line: often just enough, or one byte less.
    fn room_for(&mut self, personality: &[u8], state: &[u8], inputs: u64) -> usize {
        let answer = Model.why_length(personality, state, inputs);
        let length = match number(answer) {
            0 => rest(answer) as usize,
            _ => 0,
        };
        let anywhere = self.rng.below(2 * LONGEST_LINE);
        self.rng.pick(&[
            0,
            length.saturating_sub(1),
            length,
            length,
            length + 1,
            LONGEST_LINE,
            anywhere,
        ])
    }
}

/// The bytes of a random valid state, four of five in running.
fn most_often_running(rng: &mut Rng, personality: &[u8], site: &Site) -> Vec<u8> {
    if rng.percent(20) {
        return valid_bytes(rng, personality, site);
    }
    let running = running_timed_state(rng, personality, site);
    running.to_bytes().to_vec()
}
