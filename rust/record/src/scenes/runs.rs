//! Runs from the fresh state: steps, with refused calls, retimings, lines for the panel
//! and times without power among them.

use super::MOST_PERSONALITY;
use crate::recorder::{Buffer, Recorder};
use drive::{Driver, Strategy};
use generate::{any_inputs, any_second};
use model::{Site, TimedState, LONGEST_LINE, MAX_GROUPS, SEALED_LEN, STATE_LEN};

/// The steps of a run, and other calls among them.
const RUN: usize = 400;

/// The buffers of a run.
struct Buffers {
    personality: Buffer,
    second: Buffer,
    state: Buffer,
    colours: Buffer,
    line: Buffer,
    sealed: Buffer,
}

impl Recorder {
    pub(super) fn run(&mut self) {
        let personality = self.quick_site();
        let site = Site::read(&personality).expect("an accepted plan");
        self.begin();
        let buffers = Buffers {
            personality: self.laid(&personality),
            second: self.room(MOST_PERSONALITY),
            state: self.room(STATE_LEN),
            colours: self.room(MAX_GROUPS),
            line: self.room(2 * LONGEST_LINE),
            sealed: self.room(SEALED_LEN),
        };
        self.call("fresh", &[buffers.personality.into(), buffers.state.into()]);
        let strategy = self.rng.pick(&Strategy::ALL);
        let mut driver = Driver::new(strategy, &site, self.rng.clone());
        let calls_a_retiming = self.rng.pick(&[10, 50, 400]);
        for _ in 0..RUN {
            if self.rng.below(calls_a_retiming) == 0 {
                self.retime_in_run(&personality, &buffers);
            }
            let state = TimedState::from_bytes(self.bytes(buffers.state));
            let state = state.expect("a state after every call of a run");
            let inputs = driver.inputs(&site, &state.state);
            self.step_in_run(&site, &buffers, inputs);
            if self.rng.percent(10) {
                self.why_in_run(&site, &buffers, inputs);
            }
            if self.rng.percent(1) {
                self.power_lost(&buffers);
            }
        }
    }

    /// A step with the inputs, or one that may be refused.
    fn step_in_run(&mut self, site: &Site, buffers: &Buffers, inputs: u64) {
        let groups = site.group_count();
        let (inputs, length) = match self.rng.below(50) {
            0 => (any_inputs(&mut self.rng, site), MAX_GROUPS),
            1 => (inputs, self.rng.below(groups)),
            _ => (inputs, groups),
        };
        let colours = buffers.colours.with_length(length);
        let site = [buffers.personality.into(), buffers.state.into()];
        self.call("step", &[site[0], site[1], inputs.into(), colours.into()]);
    }

    fn retime_in_run(&mut self, personality: &[u8], buffers: &Buffers) {
        let second = self.drawn(|rng| any_second(rng, personality));
        self.put(buffers.second, &second);
        let second = buffers.second.with_length(second.len());
        let site = [buffers.personality.into(), buffers.state.into()];
        self.call("retime", &[site[0], site[1], second.into()]);
    }

    /// The line of the state, by the inputs of the step or by others, in a buffer that
    /// often just has room for it.
    fn why_in_run(&mut self, site: &Site, buffers: &Buffers, inputs: u64) {
        let inputs = match self.rng.percent(20) {
            true => any_inputs(&mut self.rng, site),
            false => inputs,
        };
        let words = [
            buffers.personality.into(),
            buffers.state.into(),
            inputs.into(),
        ];
        let answer = self.call("why_length", &words);
        let room = self.room_for(answer);
        let line = buffers.line.with_length(room);
        self.call("why", &[words[0], words[1], words[2], line.into()]);
    }

    /// A length for a line whose length was answered.
    pub(super) fn room_for(&mut self, answer: u64) -> usize {
        let length = match answer as u8 {
            0 => (answer >> 8) as usize,
            _ => 0,
        };
        let short = length.saturating_sub(1);
        let anywhere = self.rng.below(2 * LONGEST_LINE);
        self.rng
            .pick(&[0, short, length, length, length + 1, anywhere])
    }

    /// The state is sealed, lost and given back.
    fn power_lost(&mut self, buffers: &Buffers) {
        let Buffers {
            personality,
            state,
            sealed,
            ..
        } = *buffers;
        self.call("seal", &[personality.into(), state.into(), sealed.into()]);
        let lost = self.rng.bytes(STATE_LEN);
        self.put(state, &lost);
        self.call("resume", &[personality.into(), sealed.into(), state.into()]);
    }
}
