//! The simulated road of request eight: streams of vehicles at one site, from
//! the fresh state.

use crate::colours::{show, Colour};
use crate::refusal::{Number, Refusal};
use crate::site::{Mark, Site};
use crate::state::{fresh, State};
use crate::step::advance;
use crate::valid::valid;
use crate::MAX_GROUPS;

/// Most streams of a road.
pub const MAX_STREAMS: usize = 48;
/// The highest rate of a stream, in vehicles an hour.
pub const MAX_RATE: u16 = 1_800;
/// Most steps of a road.
pub const MAX_STEPS: u32 = 180_000;
/// The length of a stream in bytes.
pub const STREAM_LEN: usize = 4;
/// The length of a stream's result in bytes.
pub const RESULT_LEN: usize = 4;

/// The steps of an hour. A remainder that reaches this number is one vehicle.
const HOUR: u16 = 36_000;
/// The steps in which a stream at green releases one vehicle.
const RELEASE: u8 = 20;

/// A stream of vehicles.
#[derive(Clone, Copy, Debug, Default, PartialEq, Eq)]
pub struct Stream {
    /// The detector that its queue occupies.
    pub detector: u8,
    /// The vehicle group that releases it.
    pub group: u8,
    /// Vehicles an hour.
    pub rate: u16,
}

impl Stream {
    pub fn from_bytes([detector, group, low, high]: [u8; STREAM_LEN]) -> Stream {
        Stream {
            detector,
            group,
            rate: u16::from_le_bytes([low, high]),
        }
    }

    pub fn to_bytes(self) -> [u8; STREAM_LEN] {
        let [low, high] = self.rate.to_le_bytes();
        [self.detector, self.group, low, high]
    }
}

/// The vehicles of a stream that wait, and those that have left.
#[derive(Clone, Copy, Debug, Default, PartialEq, Eq)]
pub struct Vehicles {
    pub queued: u16,
    pub gone: u16,
}

impl Vehicles {
    pub fn to_bytes(self) -> [u8; RESULT_LEN] {
        let [queued_low, queued_high] = self.queued.to_le_bytes();
        let [gone_low, gone_high] = self.gone.to_le_bytes();
        [queued_low, queued_high, gone_low, gone_high]
    }
}

/// A stream on the road.
#[derive(Clone, Copy, Debug, Default)]
struct Lane {
    stream: Stream,
    vehicles: Vehicles,
    /// What is left of the rate after whole vehicles.
    remainder: u16,
    /// Steps at green with a queue since the count was last set to 0.
    count: u8,
}

/// A site with its streams. It begins in the fresh state with empty queues.
#[derive(Clone, Copy, Debug)]
pub struct Road<'a> {
    site: Site<'a>,
    state: State,
    lanes: [Lane; MAX_STREAMS],
    lane_count: usize,
    steps_left: u32,
}

impl<'a> Road<'a> {
    /// A road of streams, given as bytes, that lasts so many steps.
    pub fn new(site: Site<'a>, streams: &[u8], steps: u32) -> Result<Road<'a>, Refusal> {
        let (records, ragged) = streams.as_chunks::<STREAM_LEN>();
        let mut lanes = [Lane::default(); MAX_STREAMS];
        let fits = ragged.is_empty() && records.len() <= MAX_STREAMS && steps <= MAX_STEPS;
        if !fits {
            return Err(Refusal::without_place(Number::WrongRoad));
        }
        for (lane, &record) in lanes.iter_mut().zip(records) {
            lane.stream = Stream::from_bytes(record);
            if !known(&site, lane.stream) {
                return Err(Refusal::without_place(Number::WrongRoad));
            }
        }
        Ok(Road {
            site,
            state: fresh(),
            lanes,
            lane_count: records.len(),
            steps_left: steps,
        })
    }

    /// The state of the controller.
    pub fn state(&self) -> &State {
        &self.state
    }

    /// The vehicles of each stream, in the order of the streams.
    pub fn vehicles(&self) -> impl Iterator<Item = Vehicles> + '_ {
        self.lanes[..self.lane_count]
            .iter()
            .map(|lane| lane.vehicles)
    }

    /// Takes all steps that are left.
    pub fn run(&mut self) {
        while self.step() {}
    }

    /// Takes one step: arrivals, detectors, the controller, releases. Answers
    /// false, and does nothing, if no step is left.
    #[inline]
    pub fn step(&mut self) -> bool {
        if self.steps_left == 0 {
            return false;
        }
        self.steps_left -= 1;
        let lanes = &mut self.lanes[..self.lane_count];
        let mut inputs = 0_u64;
        for lane in &mut *lanes {
            lane.arrive();
            inputs |= u64::from(lane.vehicles.queued > 0) << lane.stream.detector;
        }
        let mut colours = [0; MAX_GROUPS];
        self.state = advance(&self.site, &self.state, inputs);
        debug_assert!(valid(&self.site, &self.state));
        show(
            &self.site,
            &self.state,
            &mut colours[..self.site.group_count()],
        );
        for lane in lanes {
            let colour = colours[usize::from(lane.stream.group) % MAX_GROUPS];
            lane.release(colour == Colour::Green as u8);
        }
        true
    }
}

/// Whether a stream has a rate that is not too high, a detector and a vehicle
/// group of the site.
fn known(site: &Site, stream: Stream) -> bool {
    let group = usize::from(stream.group);
    stream.rate <= MAX_RATE
        && usize::from(stream.detector) < site.detector_count()
        && group < site.group_count()
        && site.group(group).mark != Mark::Pedestrian
}

impl Lane {
    /// Adds the rate of one step; a whole vehicle joins the queue.
    #[inline]
    fn arrive(&mut self) {
        self.remainder += self.stream.rate;
        if self.remainder >= HOUR {
            self.remainder -= HOUR;
            self.vehicles.queued += 1;
        }
    }

    /// Counts a step at green with a queue; the last one of the count releases a
    /// vehicle.
    #[inline]
    fn release(&mut self, green: bool) {
        if !green || self.vehicles.queued == 0 {
            self.count = 0;
            return;
        }
        self.count += 1;
        if self.count == RELEASE {
            self.count = 0;
            self.vehicles.queued -= 1;
            self.vehicles.gone += 1;
        }
    }
}
