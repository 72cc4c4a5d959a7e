//! A plain road over step calls agrees with the model, and roads that are wrong in
//! one small thing are noticed.

mod faults;

use compare::Kind;
use faults::{assert_agrees, assert_noticed, cases_of};
use model::packed::{Board, Model};
use model::{fresh, step_on, valid, Mark, Site, TimedState, STATE_LEN};
use variant::{AsBoard, Variant};

/// The points in which a plain road may go wrong.
#[derive(Clone, Copy, Debug, PartialEq, Eq)]
enum Fault {
    None,
    CountsTo19,
    CountsTo21,
    JoinsAbove36000,
    RemainderSetTo0,
    ArrivesAfterDetectors,
    ReleasesByOldColours,
    ReleasesAtYellow,
    KeepsCountAtRed,
    CountsWithoutQueue,
    CountsForTheGroup,
    LastStreamRulesDetector,
    GoesOnFromTheStateHanded,
    OneStepMore,
    QueuedAndGoneExchanged,
    RefusesNoStreams,
    RefusesNoSteps,
    Refuses48Streams,
    RefusesHighestRate,
    RefusesMostSteps,
    RefusesModeZero,
    Takes49Streams,
    TakesHigherRate,
    TakesMoreSteps,
    TakesRaggedStreams,
    TakesPedestrians,
    TakesOneDetectorMore,
    TakesOneGroupMore,
    StateFirst,
    ResultsBeforeState,
    TakesLongerStates,
    RoadBeforePersonality,
    WritesWhenRefused,
    ClearsRestOfResults,
    PlaceGiven,
}

const FAULTS: [Fault; 34] = [
    Fault::CountsTo19,
    Fault::CountsTo21,
    Fault::JoinsAbove36000,
    Fault::RemainderSetTo0,
    Fault::ArrivesAfterDetectors,
    Fault::ReleasesByOldColours,
    Fault::ReleasesAtYellow,
    Fault::KeepsCountAtRed,
    Fault::CountsWithoutQueue,
    Fault::CountsForTheGroup,
    Fault::LastStreamRulesDetector,
    Fault::GoesOnFromTheStateHanded,
    Fault::OneStepMore,
    Fault::QueuedAndGoneExchanged,
    Fault::RefusesNoStreams,
    Fault::RefusesNoSteps,
    Fault::Refuses48Streams,
    Fault::RefusesHighestRate,
    Fault::RefusesMostSteps,
    Fault::RefusesModeZero,
    Fault::Takes49Streams,
    Fault::TakesHigherRate,
    Fault::TakesMoreSteps,
    Fault::TakesRaggedStreams,
    Fault::TakesPedestrians,
    Fault::TakesOneDetectorMore,
    Fault::TakesOneGroupMore,
    Fault::StateFirst,
    Fault::ResultsBeforeState,
    Fault::TakesLongerStates,
    Fault::RoadBeforePersonality,
    Fault::WritesWhenRefused,
    Fault::ClearsRestOfResults,
    Fault::PlaceGiven,
];

/// The model, but its road is a plain one over step calls.
struct PlainRoad(Fault);

impl PlainRoad {
    fn has(&self, fault: Fault) -> bool {
        self.0 == fault
    }

    /// Whether a road is refused with 22.
    fn refused(&self, site: &Site, streams: &[u8], steps: u32) -> bool {
        let most_streams = match self.0 {
            Fault::Takes49Streams => 49,
            Fault::Refuses48Streams => 47,
            _ => 48,
        };
        let most_steps = match self.0 {
            Fault::TakesMoreSteps => 180_001,
            Fault::RefusesMostSteps => 179_999,
            _ => 180_000,
        };
        let highest = match self.0 {
            Fault::TakesHigherRate => 1_801,
            Fault::RefusesHighestRate => 1_799,
            _ => 1_800,
        };
        let ragged = !streams.len().is_multiple_of(4) && !self.has(Fault::TakesRaggedStreams);
        let detectors = site.detector_count() + usize::from(self.has(Fault::TakesOneDetectorMore));
        let groups = site.group_count() + usize::from(self.has(Fault::TakesOneGroupMore));
        let mut wrong = ragged || streams.len() / 4 > most_streams || steps > most_steps;
        wrong |= self.has(Fault::RefusesNoStreams) && streams.is_empty();
        wrong |= self.has(Fault::RefusesNoSteps) && steps == 0;
        for stream in streams.chunks_exact(4) {
            let (detector, group) = (usize::from(stream[0]), usize::from(stream[1]));
            wrong |= detector >= detectors || group >= groups;
            wrong |= u16::from_le_bytes([stream[2], stream[3]]) > highest;
            if group < site.group_count() && !self.has(Fault::TakesPedestrians) {
                wrong |= site.group(group).mark == Mark::Pedestrian;
            }
            if detector < site.detector_count() && self.has(Fault::RefusesModeZero) {
                wrong |= site.detector(detector).mode == 0;
            }
        }
        wrong
    }

    /// The number of a refusal, or 0.
    fn verdict(
        &self,
        personality: &[u8],
        streams: &[u8],
        steps: u32,
        state_len: usize,
        results_len: usize,
    ) -> u64 {
        let read = Model.read(personality);
        let road = match Site::read(personality) {
            Ok(site) if self.refused(&site, streams, steps) => 22,
            Err(_) if self.has(Fault::RoadBeforePersonality) && steps > 180_000 => 22,
            _ => 0,
        };
        let road = if self.has(Fault::PlaceGiven) && road != 0 && steps > 180_000 {
            road | 4 << 8
        } else {
            road
        };
        let longer = self.has(Fault::TakesLongerStates) && state_len > STATE_LEN;
        let state = if state_len == STATE_LEN || longer {
            0
        } else {
            13
        };
        let short = if results_len < streams.len() / 4 * 4 {
            14
        } else {
            0
        };
        let order = match self.0 {
            Fault::StateFirst => [state, read, road, short],
            Fault::ResultsBeforeState => [read, road, short, state],
            Fault::RoadBeforePersonality => [road, read, state, short],
            _ => [read, road, state, short],
        };
        order.into_iter().find(|&answer| answer != 0).unwrap_or(0)
    }

    fn run(
        &self,
        personality: &[u8],
        streams: &[u8],
        steps: u32,
        handed: &[u8],
    ) -> ([u8; STATE_LEN], Vec<[u16; 2]>) {
        let site = Site::read(personality).expect("an accepted personality");
        let mut state = fresh();
        let mut colours = [0; 32];
        if self.has(Fault::GoesOnFromTheStateHanded) {
            let handed = TimedState::from_bytes(handed).map(|handed| handed.state);
            let handed = handed.filter(|handed| valid(&site, handed));
            state = handed.unwrap_or(state);
        }
        let streams: Vec<&[u8]> = streams.chunks_exact(4).collect();
        let count = streams.len();
        let mut remainders = vec![0_u32; count];
        let mut queued = vec![0_u16; count];
        let mut gone = vec![0_u16; count];
        let mut counts = vec![0_u32; count];
        let release = match self.0 {
            Fault::CountsTo19 => 19,
            Fault::CountsTo21 => 21,
            _ => 20,
        };
        for _ in 0..steps + u32::from(self.has(Fault::OneStepMore) && steps > 0) {
            let occupied = |queued: &[u16]| {
                let mut inputs = 0_u64;
                for (stream, &queue) in streams.iter().zip(queued) {
                    let bit = 1 << stream[0].min(47);
                    if queue > 0 {
                        inputs |= bit;
                    } else if self.has(Fault::LastStreamRulesDetector) {
                        inputs &= !bit;
                    }
                }
                // Only a fault takes a detector that the site does not have.
                inputs & site.known_inputs()
            };
            let before = occupied(&queued);
            for (index, stream) in streams.iter().enumerate() {
                remainders[index] += u32::from(u16::from_le_bytes([stream[2], stream[3]]));
                let limit = 36_000 + u32::from(self.has(Fault::JoinsAbove36000));
                if remainders[index] >= limit {
                    remainders[index] -= 36_000;
                    queued[index] += 1;
                    if self.has(Fault::RemainderSetTo0) {
                        remainders[index] = 0;
                    }
                }
            }
            let inputs = if self.has(Fault::ArrivesAfterDetectors) {
                before
            } else {
                occupied(&queued)
            };
            let old_colours = colours;
            state = step_on(&site, &state, inputs, &mut colours).expect("a known detector");
            let shown = if self.has(Fault::ReleasesByOldColours) {
                old_colours
            } else {
                colours
            };
            for (index, stream) in streams.iter().enumerate() {
                let colour = shown[usize::from(stream[1]).min(31)];
                let green = colour == 2 || colour == 1 && self.has(Fault::ReleasesAtYellow);
                let first = streams.iter().position(|other| other[1] == stream[1]);
                let own = match first {
                    Some(first) if self.has(Fault::CountsForTheGroup) => first,
                    _ => index,
                };
                let queue = queued[index] > 0 || self.has(Fault::CountsWithoutQueue);
                if green && queue {
                    counts[own] += 1;
                } else if green || !self.has(Fault::KeepsCountAtRed) {
                    counts[own] = 0;
                }
                if counts[own] == release {
                    counts[own] = 0;
                    if queued[index] > 0 {
                        queued[index] -= 1;
                        gone[index] += 1;
                    }
                }
            }
        }
        let exchanged = self.has(Fault::QueuedAndGoneExchanged);
        let result = |index: usize| match exchanged {
            true => [gone[index], queued[index]],
            false => [queued[index], gone[index]],
        };
        let last = TimedState::by_own_times(&site, state);
        (last.to_bytes(), (0..count).map(result).collect())
    }
}

impl Variant for PlainRoad {
    fn road(
        &self,
        personality: &[u8],
        streams: &[u8],
        steps: u32,
        state: &mut [u8],
        results: &mut [u8],
    ) -> u64 {
        let answer = self.verdict(personality, streams, steps, state.len(), results.len());
        if answer != 0 {
            if self.has(Fault::WritesWhenRefused) && answer == 14 {
                Model.fresh(personality, state);
            }
            return answer;
        }
        let (last, vehicles) = self.run(personality, streams, steps, state);
        state[..STATE_LEN].copy_from_slice(&last);
        if self.has(Fault::ClearsRestOfResults) {
            results.fill(0);
        }
        for (slot, [queued, gone]) in results.chunks_exact_mut(4).zip(vehicles) {
            slot[..2].copy_from_slice(&queued.to_le_bytes());
            slot[2..].copy_from_slice(&gone.to_le_bytes());
        }
        0
    }
}

const SEED: u64 = 8;

/// The cases with roads: enough that several are as long as they can be.
fn cases() -> Vec<u64> {
    let kinds = [
        Kind::Road,
        Kind::DamagedRoad,
        Kind::RoadBuffers,
        Kind::RoadWrongs,
    ];
    cases_of(&kinds, 12_000)
}

#[test]
fn a_plain_road_agrees() {
    assert_agrees(&AsBoard(PlainRoad(Fault::None)), SEED, cases());
}

#[test]
fn wrong_roads_are_noticed() {
    let calls = ["road: "];
    for fault in FAULTS {
        let board = AsBoard(PlainRoad(fault));
        assert_noticed(fault, &board, SEED, cases(), &calls);
    }
}
