//! Random streams of a simulated road, and damaged ones.

use crate::rng::Rng;
use model::{Mark, Site, Stream, MAX_RATE, MAX_STEPS, MAX_STREAMS, STREAM_LEN};

/// What a road is made of: the bytes of its streams, and its steps.
#[derive(Clone, Debug, PartialEq, Eq)]
pub struct RoadPlan {
    pub streams: Vec<u8>,
    pub steps: u32,
}

/// The ways in which a road is refused with 22.
#[derive(Clone, Copy, Debug, PartialEq, Eq)]
pub enum RoadDamage {
    TooManyStreams,
    /// Bytes that are no multiple of a stream's length.
    Ragged,
    Rate,
    Steps,
    Detector,
    Group,
    Pedestrian,
}

impl RoadDamage {
    pub const ALL: [RoadDamage; 7] = [
        RoadDamage::TooManyStreams,
        RoadDamage::Ragged,
        RoadDamage::Rate,
        RoadDamage::Steps,
        RoadDamage::Detector,
        RoadDamage::Group,
        RoadDamage::Pedestrian,
    ];
}

impl RoadPlan {
    /// A random road that is accepted: few or many streams, at detectors and
    /// groups that belong together or do not, and a length of any size.
    pub fn random(rng: &mut Rng, site: &Site) -> RoadPlan {
        let count = match rng.below(8) {
            0 => 0,
            1 => MAX_STREAMS,
            2..=4 => rng.range(1, 6),
            _ => rng.range(1, MAX_STREAMS),
        };
        RoadPlan {
            streams: random_streams(rng, site, count),
            steps: random_steps(rng),
        }
    }

    /// Damages the road in one way. None, and nothing is changed, if the site has
    /// nothing to damage it with.
    pub fn damage(&mut self, rng: &mut Rng, site: &Site, damage: RoadDamage) -> Option<()> {
        match damage {
            RoadDamage::TooManyStreams => {
                let most = rng.pick(&[MAX_STREAMS + 1, MAX_STREAMS + 1, 64, 256, 304]);
                let one = self.first_stream(rng, site)?;
                let wanted = STREAM_LEN * most;
                while self.streams.len() < wanted {
                    self.streams.extend(one);
                }
            }
            RoadDamage::Ragged => {
                let more = rng.range(1, STREAM_LEN - 1);
                self.streams.extend(rng.bytes(more));
            }
            RoadDamage::Steps => {
                let far = rng.draw() as u32 | 1 << 31;
                self.steps = rng.pick(&[MAX_STEPS + 1, 1 << 18, u32::MAX, far]);
            }
            RoadDamage::Rate => {
                let far = rng.draw() as u16 | 1 << 15;
                let rate = rng.pick(&[MAX_RATE + 1, MAX_RATE | 1 << 12, u16::MAX, far]);
                self.change(rng, site, |stream| stream.rate = rate)?;
            }
            RoadDamage::Detector => {
                let count = site.detector_count() as u8;
                let any = at_least(rng, count);
                let detector = rng.pick(&[count, any, 64, 255]);
                self.change(rng, site, |stream| stream.detector = detector)?;
            }
            RoadDamage::Group => {
                let count = site.group_count() as u8;
                let any = at_least(rng, count);
                let group = rng.pick(&[count, any, 32, 255]);
                self.change(rng, site, |stream| stream.group = group)?;
            }
            RoadDamage::Pedestrian => {
                let movements = site.movement_count();
                if movements == 0 {
                    return None;
                }
                let group = site.movement(rng.below(movements)).group;
                self.change(rng, site, |stream| stream.group = group)?;
            }
        }
        Some(())
    }

    /// Changes one stream; one is added if there is none.
    fn change(
        &mut self,
        rng: &mut Rng,
        site: &Site,
        change: impl FnOnce(&mut Stream),
    ) -> Option<()> {
        if self.streams.len() < STREAM_LEN {
            let one = self.first_stream(rng, site)?;
            self.streams.splice(0..0, one);
        }
        let count = self.streams.len() / STREAM_LEN;
        let any = rng.below(count);
        let chosen = rng.pick(&[0, count - 1, any]);
        let record = &mut self.streams.as_chunks_mut().0[chosen];
        let mut stream = Stream::from_bytes(*record);
        change(&mut stream);
        *record = stream.to_bytes();
        Some(())
    }

    /// The first stream, or a random one; none if the site can have no stream.
    fn first_stream(&self, rng: &mut Rng, site: &Site) -> Option<[u8; STREAM_LEN]> {
        match self.streams.first_chunk() {
            Some(&stream) => Some(stream),
            None => random_streams(rng, site, 1).first_chunk().copied(),
        }
    }
}

/// A byte from a lowest one on.
fn at_least(rng: &mut Rng, low: u8) -> u8 {
    rng.range(low.into(), 255) as u8
}

/// The vehicle groups of a site.
fn vehicle_groups(site: &Site) -> Vec<u8> {
    (0..site.group_count())
        .filter(|&group| site.group(group).mark != Mark::Pedestrian)
        .map(|group| group as u8)
        .collect()
}

/// So many streams; none if the site has no detector or no vehicle group.
fn random_streams(rng: &mut Rng, site: &Site, count: usize) -> Vec<u8> {
    let groups = vehicle_groups(site);
    let detectors = site.detector_count();
    if detectors == 0 || groups.is_empty() {
        return Vec::new();
    }
    let shared_detector = rng.percent(15).then(|| rng.below(detectors) as u8);
    let shared_group = rng.percent(15).then(|| rng.pick(&groups));
    let together = rng.percent(60);
    let busy = rng.below(4);
    let mut bytes = Vec::new();
    for _ in 0..count {
        let detector = shared_detector.unwrap_or_else(|| rng.below(detectors) as u8);
        let phase = site.detector(detector.into()).phase;
        let own: Vec<u8> = groups
            .iter()
            .copied()
            .filter(|&group| site.group(group.into()).set >> phase & 1 != 0)
            .collect();
        let group = match shared_group {
            Some(group) => group,
            None if together && !own.is_empty() => rng.pick(&own),
            None => rng.pick(&groups),
        };
        let stream = Stream {
            detector,
            group,
            rate: random_rate(rng, busy),
        };
        bytes.extend(stream.to_bytes());
    }
    bytes
}

/// A rate: any, one of the ends, a quiet road or a full one.
fn random_rate(rng: &mut Rng, busy: usize) -> u16 {
    match busy {
        0 => rng.time(0, MAX_RATE),
        1 => rng.pick(&[0, 1, 599, 600, 900, MAX_RATE - 1, MAX_RATE]),
        2 => rng.time(0, 400),
        _ => rng.time(MAX_RATE - 400, MAX_RATE),
    }
}

/// The length of a road: most are short, a few as long as they can be.
fn random_steps(rng: &mut Rng) -> u32 {
    match rng.below(250) {
        0 => MAX_STEPS,
        1 => rng.range(0, MAX_STEPS as usize) as u32,
        2..=19 => rng.range(0, 2) as u32,
        20..=79 => rng.range(0, 200) as u32,
        _ => rng.range(200, 4_000) as u32,
    }
}
