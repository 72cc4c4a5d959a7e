//! The cases of sealed records.

use crate::calls::{same, same_bytes, Comparison};
use crate::cases::{fresh_bytes, site_whole, valid_bytes, Outcome};
use crate::difference::{Difference, Handed};
use crate::retimings::{doubtful_state, quick_personality};
use drive::{Driver, Strategy};
use generate::{
    any_second, changed_beyond_times, damaged_record, known_inputs, record_of, retimed,
    twice_damaged, Plan, Rng, SealDamage,
};
use model::packed::{Board, Model};
use model::{Site, TimedState, SEALED_LEN, STATE_LEN};

impl Comparison<'_> {
    /// Steps one after the other, with retimings and times without power among them. The
    /// same run without the times without power goes beside it.
    pub(crate) fn sealed_run(&mut self) -> Outcome {
        let personality = quick_personality(&mut self.rng);
        let site = site_whole(&personality);
        let strategy = self.rng.pick(&Strategy::ALL);
        let mut driver = Driver::new(strategy, &site, self.rng.clone());
        let steps_a_power_down = self.rng.pick(&[2, 10, 50]);
        let mut state = fresh_bytes(&site);
        let mut without = state.clone();
        for _ in 0..200 {
            if self.rng.below(steps_a_power_down) == 0 {
                state = self.sealed_and_resumed(&personality, &state)?;
            }
            if self.rng.percent(3) {
                let new = any_second(&mut self.rng, &personality);
                self.retime(&personality, &mut state, &new)?;
                self.retime(&personality, &mut without, &new)?;
            }
            let before = TimedState::from_bytes(&state).expect("states of the model");
            let inputs = driver.inputs(&site, &before.state);
            let answer = self.step(&personality, &mut state, inputs, site.group_count())?;
            let other = self.step(&personality, &mut without, inputs, site.group_count())?;
            let handed = Handed {
                personality: personality.clone(),
                state: before.to_bytes().to_vec(),
                inputs,
                ..Handed::default()
            };
            same("resumed run: the answer", other, answer, &handed)?;
            same_bytes("resumed run: the state", &without, &state, &handed)?;
        }
        Ok(())
    }

    /// A valid state sealed, forgotten, and resumed.
    fn sealed_and_resumed(
        &mut self,
        personality: &[u8],
        state: &[u8],
    ) -> Result<Vec<u8>, Box<Difference>> {
        let sealed = self.seal(personality, state, SEALED_LEN)?;
        let mut resumed = self.rng.bytes(STATE_LEN);
        self.resume(personality, &sealed, &mut resumed)?;
        Ok(resumed)
    }

    /// Random valid states, sealed and resumed.
    pub(crate) fn seals(&mut self) -> Outcome {
        self.on_site(20, |comparison, personality, site| {
            let state = valid_bytes(&mut comparison.rng, personality, site);
            comparison.sealed_and_resumed(personality, &state)?;
            Ok(0)
        })
    }

    /// A state that may be wrong and a buffer of any length, on a personality that may
    /// be refused.
    pub(crate) fn seal_wrongs(&mut self) -> Outcome {
        let twice = twice_damaged(&mut self.rng);
        self.on_site(20, |comparison, personality, site| {
            let rng = &mut comparison.rng;
            let state = ragged(rng, personality, site);
            let length = other_length(rng, SEALED_LEN);
            let refused = rng.percent(15);
            let personality = if refused { &twice } else { personality };
            comparison.seal(personality, &state, length)?;
            Ok(0)
        })
    }

    /// Records damaged in every way, of two steps one after the other.
    pub(crate) fn damaged_seals(&mut self) -> Outcome {
        self.on_site(2, |comparison, personality, site| {
            let mut state = valid_bytes(&mut comparison.rng, personality, site);
            let before = record_of(personality, &state);
            let inputs = known_inputs(&mut comparison.rng, site);
            Model.step(personality, &mut state, inputs, &mut [0; 32]);
            let record = record_of(personality, &state);
            for damage in SealDamage::ALL {
                let rng = &mut comparison.rng;
                let damaged = damaged_record(rng, personality, &record, &before, damage);
                let mut state = rng.bytes(STATE_LEN);
                comparison.resume(personality, &damaged, &mut state)?;
            }
            Ok(0)
        })
    }

    /// Records of another personality: with other times, with one byte changed, of
    /// another length, of another site. The state is valid there.
    pub(crate) fn other_seals(&mut self) -> Outcome {
        self.on_site(15, |comparison, personality, _| {
            let rng = &mut comparison.rng;
            let other = match rng.below(4) {
                0 => retimed(rng, personality),
                1 => Plan::random(rng).bytes(),
                _ => changed_beyond_times(rng, personality),
            };
            let state = valid_bytes(rng, &other, &site_whole(&other));
            let sealed = comparison.seal(&other, &state, SEALED_LEN)?;
            let mut state = comparison.rng.bytes(STATE_LEN);
            comparison.resume(personality, &sealed, &mut state)
        })
    }

    /// Whole records of states that may be wrong.
    pub(crate) fn invalid_seals(&mut self) -> Outcome {
        self.on_site(20, |comparison, personality, site| {
            let state = doubtful_state(&mut comparison.rng, personality, site);
            let sealed = record_of(personality, &state);
            let mut state = comparison.rng.bytes(STATE_LEN);
            comparison.resume(personality, &sealed, &mut state)
        })
    }

    /// A record that may be damaged, of another personality or of a state that is not
    /// valid, and a buffer of any length, on a personality that may be refused.
    pub(crate) fn resume_wrongs(&mut self) -> Outcome {
        let twice = twice_damaged(&mut self.rng);
        self.on_site(20, |comparison, personality, site| {
            let rng = &mut comparison.rng;
            let other = any_second(rng, personality);
            let named = rng.pick(&[personality, personality, &other]);
            let [record, before] = [(); 2].map(|()| {
                let state = doubtful_state(rng, personality, site);
                record_of(named, &state)
            });
            let mut sealed = record;
            for _ in 0..rng.below(3) {
                if sealed.len() == SEALED_LEN {
                    let damage = rng.pick(&SealDamage::ALL);
                    sealed = damaged_record(rng, personality, &sealed, &before, damage);
                }
            }
            let length = other_length(rng, STATE_LEN);
            let mut state = rng.bytes(length);
            let refused = rng.percent(15);
            let personality = if refused { &twice } else { personality };
            comparison.resume(personality, &sealed, &mut state)
        })
    }
}

/// A state that may be wrong, or bytes of another length.
fn ragged(rng: &mut Rng, personality: &[u8], site: &Site) -> Vec<u8> {
    let mut state = doubtful_state(rng, personality, site);
    match rng.below(10) {
        0 => state.truncate(rng.below(STATE_LEN)),
        1 => state.extend([0; 3]),
        _ => {}
    }
    state
}

/// A length, most often the right one; else beside it, or anywhere.
fn other_length(rng: &mut Rng, right: usize) -> usize {
    let anywhere = rng.below(800);
    match rng.below(3) {
        0 => rng.pick(&[
            0,
            right - 1,
            right + 1,
            2 * right,
            STATE_LEN,
            SEALED_LEN,
            anywhere,
        ]),
        _ => right,
    }
}
