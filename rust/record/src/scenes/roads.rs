//! Simulated roads, accepted and refused.

use crate::recorder::{Buffer, Recorder};
use generate::{twice_damaged, Plan, RoadDamage, RoadPlan};
use model::{Site, MAX_STEPS, MAX_STREAMS, RESULT_LEN, STATE_LEN, STREAM_LEN};

/// The steps of a road, except of the one long one: a player takes long for more.
const STEPS: u32 = 1_000;

/// The longest streams, which are too many.
const MOST_STREAMS: usize = 1_300;

/// The longest result buffer.
const MOST_RESULTS: usize = RESULT_LEN * MAX_STREAMS + 8;

/// The buffers of roads: personality, streams, state, results.
type Buffers = [Buffer; 4];

impl Recorder {
    pub(super) fn road(
        &mut self,
        personality: Buffer,
        streams: Buffer,
        steps: u32,
        state: Buffer,
        results: Buffer,
    ) -> u64 {
        let steps = u64::from(steps).into();
        let ends = [state.into(), results.into()];
        self.call(
            "road",
            &[personality.into(), streams.into(), steps, ends[0], ends[1]],
        )
    }

    pub(super) fn roads(&mut self) {
        let (personality, buffers) = self.begin_roads();
        let site = Site::read(&personality).expect("an accepted plan");
        for _ in 0..3 {
            let mut road = RoadPlan::random(&mut self.rng, &site);
            road.steps %= STEPS;
            self.run_road(&buffers, &road, results_len(&road));
        }
        for _ in 0..6 {
            let mut road = RoadPlan::random(&mut self.rng, &site);
            road.steps %= 100;
            let needed = results_len(&road);
            let anywhere = self.rng.below(MOST_RESULTS);
            let short = needed.saturating_sub(1);
            let length = self.rng.pick(&[0, short, needed, needed + 1, anywhere]);
            self.run_road(&buffers, &road, length);
        }
    }

    /// Roads that are refused, some for a damaged personality.
    pub(super) fn damaged_roads(&mut self) {
        let (personality, buffers) = self.begin_roads();
        let site = Site::read(&personality).expect("an accepted plan");
        for damage in RoadDamage::ALL {
            let mut road = RoadPlan::random(&mut self.rng, &site);
            road.steps %= STEPS;
            // A site without the means stays undamaged.
            let _ = road.damage(&mut self.rng, &site, damage);
            self.run_road(&buffers, &road, results_len(&road).min(MOST_RESULTS));
        }
        let damaged = self.drawn(twice_damaged);
        self.begin();
        let [streams, results] = [self.room(4), self.room(4)];
        let [personality, state] = [self.laid(&damaged), self.room(STATE_LEN)];
        self.road(personality, streams, 10, state, results);
    }

    /// A road of as many steps as there may be, at the largest site.
    pub(super) fn longest_road(&mut self) {
        let personality = Plan::largest().bytes();
        let site = Site::read(&personality).expect("an accepted plan");
        let road = loop {
            let mut road = RoadPlan::random(&mut self.rng, &site);
            road.streams.truncate(4 * STREAM_LEN);
            if !road.streams.is_empty() {
                break RoadPlan {
                    steps: MAX_STEPS,
                    ..road
                };
            }
        };
        self.begin();
        let streams = self.laid(&road.streams);
        let results = self.room(results_len(&road));
        let [personality, state] = [self.laid(&personality), self.room(STATE_LEN)];
        self.road(personality, streams, road.steps, state, results);
    }

    /// Lays a site with room for its roads.
    fn begin_roads(&mut self) -> (Vec<u8>, Buffers) {
        let personality = Plan::random(&mut self.rng).bytes();
        self.begin();
        let first = self.laid(&personality);
        let streams = self.room(MOST_STREAMS);
        let state = self.room(STATE_LEN + 1);
        let results = self.room(MOST_RESULTS);
        (personality, [first, streams, state, results])
    }

    /// Runs a road. A state buffer may be of another length.
    fn run_road(&mut self, buffers: &Buffers, road: &RoadPlan, length: usize) {
        let &[personality, streams, state, results] = buffers;
        self.put(streams, &road.streams);
        let streams = streams.with_length(road.streams.len());
        let others = [
            STATE_LEN,
            STATE_LEN,
            STATE_LEN,
            STATE_LEN,
            0,
            STATE_LEN - 1,
            STATE_LEN + 1,
        ];
        let state = state.with_length(self.rng.pick(&others));
        self.road(
            personality,
            streams,
            road.steps,
            state,
            results.with_length(length),
        );
    }
}

/// The bytes that the results of a road take.
pub(super) fn results_len(road: &RoadPlan) -> usize {
    road.streams.len() / STREAM_LEN * RESULT_LEN
}
