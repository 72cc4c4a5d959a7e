//! Single calls on states that are drawn: valid ones, reachable or not, invalid ones,
//! and bytes that are no state.

use super::MOST_PERSONALITY;
use crate::recorder::Recorder;
use generate::{
    any_inputs, any_second, broken_state_bytes, broken_times, changed_beyond_times,
    invalid_timed_state, known_inputs, refused_second, retimed, running_timed_state,
    unknown_inputs, valid_timed_state, Breakage, Plan, Rng, TimesBreakage,
};
use model::layout::FLAG;
use model::{Site, TimedState, LONGEST_LINE, MAX_GROUPS, PLAIN_LEN, SEALED_LEN, STATE_LEN};

/// The states of a scene.
const STATES: usize = 20;

/// The longest state buffer.
const MOST_STATE: usize = 700;

impl Recorder {
    pub(super) fn states(&mut self) {
        let personality = Plan::random(&mut self.rng).bytes();
        let site = Site::read(&personality).expect("an accepted plan");
        self.begin();
        let first = self.laid(&personality);
        let state = self.room(STATE_LEN);
        let rest = self.room(SEALED_LEN);
        for _ in 0..STATES {
            let drawn = any_state(&mut self.rng, &personality, &site);
            self.put(state, &drawn);
            let inputs = self.inputs(&site);
            let words = [first.into(), state.into(), inputs.into()];
            let answer = self.call("why_length", &words);
            let line = rest.with_length(self.room_for(answer));
            self.call("why", &[words[0], words[1], words[2], line.into()]);
            self.call("seal", &[words[0], words[1], rest.into()]);
            let colours = rest.with_length(self.colours_len(site.group_count()));
            self.call("step", &[words[0], words[1], words[2], colours.into()]);
        }
    }

    /// Most often inputs that the site has.
    fn inputs(&mut self, site: &Site) -> u64 {
        match self.rng.below(10) {
            0 => any_inputs(&mut self.rng, site),
            1 => unknown_inputs(&mut self.rng, site),
            _ => known_inputs(&mut self.rng, site),
        }
    }

    /// A length for the colours, most often just enough.
    fn colours_len(&mut self, groups: usize) -> usize {
        let anywhere = self.rng.below(2 * MAX_GROUPS);
        self.rng
            .pick(&[groups, groups, groups, groups - 1, groups + 1, 0, anywhere])
    }

    /// States of other lengths.
    pub(super) fn state_lengths(&mut self) {
        let personality = Plan::random(&mut self.rng).bytes();
        let site = Site::read(&personality).expect("an accepted plan");
        self.begin();
        let first = self.laid(&personality);
        let state = self.room(MOST_STATE);
        let rest = self.room(SEALED_LEN);
        let valid = valid_timed_state(&mut self.rng, &personality, &site).to_bytes();
        self.put(state, &valid);
        for _ in 0..STATES {
            let anywhere = self.rng.below(MOST_STATE);
            let length = self
                .rng
                .pick(&[0, PLAIN_LEN, STATE_LEN - 1, STATE_LEN + 1, anywhere]);
            let state = state.with_length(length);
            let words = [first.into(), state.into()];
            self.call("fresh", &words);
            self.call(
                "step",
                &[words[0], words[1], 0.into(), rest.with_length(32).into()],
            );
            self.call("why_length", &[words[0], words[1], 0.into()]);
            self.call(
                "why",
                &[
                    words[0],
                    words[1],
                    0.into(),
                    rest.with_length(LONGEST_LINE).into(),
                ],
            );
            self.call("retime", &[words[0], words[1], words[0]]);
            self.call("seal", &[words[0], words[1], rest.into()]);
            self.call("resume", &[words[0], rest.into(), words[1]]);
        }
    }

    /// Every byte of the plain state and the flag with every small number, in the fresh
    /// state and in one in running: the codes that there are, and those next to them.
    pub(super) fn every_code(&mut self) {
        let personality = Plan::largest().bytes();
        let site = Site::read(&personality).expect("an accepted plan");
        let running = running_timed_state(&mut self.rng, &personality, &site);
        self.begin();
        let first = self.laid(&personality);
        let state = self.room(STATE_LEN);
        for bytes in [TimedState::fresh(&site), running].map(|timed| timed.to_bytes()) {
            for place in (0..PLAIN_LEN).chain([FLAG]) {
                for code in 0..=8 {
                    self.put(state, &bytes);
                    self.put(state.part(place, 1), &[code]);
                    self.call("why_length", &[first.into(), state.into(), 0.into()]);
                }
            }
        }
    }

    /// Retimings from drawn states, each followed by a step.
    pub(super) fn retimings(&mut self) {
        let personality = Plan::random(&mut self.rng).bytes();
        let site = Site::read(&personality).expect("an accepted plan");
        self.begin();
        let first = self.laid(&personality);
        let new = self.room(MOST_PERSONALITY);
        let state = self.room(STATE_LEN);
        let colours = self.room(site.group_count());
        for _ in 0..STATES {
            let drawn = any_state(&mut self.rng, &personality, &site);
            self.put(state, &drawn);
            let second = match self.rng.below(8) {
                0 => self.drawn(|rng| changed_beyond_times(rng, &personality)),
                1 => self.drawn(|rng| refused_second(rng, &personality)),
                2 => self.drawn(|rng| any_second(rng, &personality)),
                _ => self.drawn(|rng| retimed(rng, &personality)),
            };
            self.put(new, &second);
            let new = new.with_length(second.len());
            self.call("retime", &[first.into(), state.into(), new.into()]);
            let inputs = known_inputs(&mut self.rng, &site);
            self.call(
                "step",
                &[first.into(), state.into(), inputs.into(), colours.into()],
            );
        }
    }
}

/// The bytes of a state: half are valid.
pub(super) fn any_state(rng: &mut Rng, personality: &[u8], site: &Site) -> Vec<u8> {
    let broken = match rng.below(10) {
        0 => {
            let breakage = rng.pick(&Breakage::ALL);
            let invalid = invalid_timed_state(rng, personality, site, breakage);
            invalid.map(|timed| timed.to_bytes().to_vec())
        }
        1 => {
            let breakage = rng.pick(&TimesBreakage::ALL);
            broken_times(rng, personality, site, breakage)
        }
        2 => Some(broken_state_bytes(rng, site)),
        3 => Some(rng.bytes(STATE_LEN)),
        4 => {
            let timed = valid_timed_state(rng, personality, site);
            let mut bytes = timed.to_bytes().to_vec();
            bytes[rng.below(STATE_LEN)] = rng.byte() & rng.byte();
            Some(bytes)
        }
        5..=7 => {
            let timed = running_timed_state(rng, personality, site);
            Some(timed.to_bytes().to_vec())
        }
        _ => None,
    };
    let valid = |rng| {
        valid_timed_state(rng, personality, site)
            .to_bytes()
            .to_vec()
    };
    broken.unwrap_or_else(|| valid(rng))
}
