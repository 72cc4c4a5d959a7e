//! Personalities, accepted and refused: what they answer, with and without a state.

use super::MOST_PERSONALITY;
use crate::recorder::{Buffer, Recorder};
use generate::{damaged, other_edition, scrambled, twice_damaged, Pace, Plan, Rng, Shape, AIMED};
use model::{Site, TimedState, MOST_WAIT_BYTES, STATE_LEN};

/// Kinds that are looked up besides 0 to 10.
const FAR_KINDS: [u64; 4] = [255, 256, 257, 65_535];

impl Recorder {
    /// An accepted personality; two of three have short times, so that many phases
    /// start in a run.
    pub(super) fn quick_site(&mut self) -> Vec<u8> {
        let mut shape = Shape::random(&mut self.rng);
        if self.rng.percent(66) {
            shape.pace = Pace::Short;
        }
        Plan::of_shape(&mut self.rng, shape).bytes()
    }

    pub(super) fn accepted_site(&mut self) {
        let personality = Plan::random(&mut self.rng).bytes();
        self.everything_on(&personality);
    }

    pub(super) fn damaged_site(&mut self) {
        let personality = match self.rng.below(8) {
            0 | 1 => self.drawn(twice_damaged),
            2..=4 => self.drawn(scrambled),
            5 => self.drawn(other_edition),
            _ => {
                let number = self.rng.pick(&AIMED);
                self.drawn(|rng| damaged(rng, number))
            }
        };
        self.everything_on(&personality);
    }

    /// Personalities that are refused with this number.
    pub(super) fn site_damaged_by(&mut self, number: u8) {
        for _ in 0..3 {
            let personality = self.drawn(|rng| damaged(rng, number));
            self.everything_on(&personality);
        }
    }

    /// A personality that has room in the arena.
    pub(super) fn drawn(&mut self, draw: impl Fn(&mut Rng) -> Vec<u8>) -> Vec<u8> {
        loop {
            let personality = draw(&mut self.rng);
            if personality.len() <= MOST_PERSONALITY {
                return personality;
            }
        }
    }

    /// Every call that takes a personality, with a state that may be of another site.
    fn everything_on(&mut self, personality: &[u8]) {
        let other = Plan::random(&mut self.rng).bytes();
        let site = Site::read(personality).or(Site::read(&other));
        let fresh = TimedState::fresh(&site.expect("an accepted plan")).to_bytes();
        self.begin();
        let first = self.laid(personality);
        let second = self.laid(&other);
        let state = self.laid(&fresh);
        let rest = self.room(400);
        self.reading(first);
        let longest = self.rng.below(MOST_WAIT_BYTES + 4);
        for length in [MOST_WAIT_BYTES, longest] {
            let waits = rest.with_length(length);
            self.call("waits", &[first.into(), waits.into()]);
        }
        self.call("fresh", &[first.into(), state.into()]);
        let inputs = self.rng.draw() & self.rng.draw() & self.rng.draw();
        let colours = rest.with_length(32);
        for inputs in [0, inputs] {
            let words = [first.into(), state.into(), inputs.into(), colours.into()];
            self.call("step", &words);
            self.call("why", &words);
            self.call("why_length", &words[..3]);
        }
        self.call("retime", &[first.into(), state.into(), second.into()]);
        self.call("retime", &[first.into(), state.into(), first.into()]);
        self.call(
            "seal",
            &[first.into(), state.into(), rest.with_length(347).into()],
        );
        self.call(
            "resume",
            &[first.into(), rest.with_length(347).into(), state.into()],
        );
        let streams = second.with_length(4 * self.rng.below(3));
        let results = rest.with_length(self.rng.below(20));
        self.road(first, streams, 10, state.with_length(STATE_LEN), results);
    }

    /// The calls on a personality alone.
    fn reading(&mut self, personality: Buffer) {
        for name in ["read", "wait_bound", "groups"] {
            self.call(name, &[personality.into()]);
        }
        for kind in (0..=10).chain(FAR_KINDS) {
            self.call("section", &[personality.into(), kind.into()]);
        }
    }
}
