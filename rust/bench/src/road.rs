//! A simulated hour at the four-phase example site, timed.

use crate::calls::{Calls, BOARDS};
use crate::clock::{times_of_long, Time, Work};
use model::{Stream, MAX_STREAMS, STATE_LEN, STREAM_LEN};
use std::hint::black_box;

const PERSONALITY: &[u8] = include_bytes!("../../../examples/four_phases/personality.bin");

/// The steps of an hour.
const HOUR: u32 = 36_000;

/// The hour is long, so that a few rounds are enough.
const MOST_ROUNDS: usize = 21;

/// The lanes of the site: detector, group and vehicles an hour.
const LANES: [(u8, u8, u16); 8] = [
    (4, 2, 700),
    (6, 3, 700),
    (0, 0, 200),
    (2, 1, 200),
    (12, 8, 500),
    (14, 9, 500),
    (10, 6, 120),
    (11, 7, 120),
];

/// The numbers of streams that are timed.
const COUNTS: [usize; 7] = [1, 2, 4, 8, 16, 32, MAX_STREAMS];

/// Times the hour with each number of streams and prints what was seen.
pub fn print(rounds: usize) {
    let rounds = rounds.min(MOST_ROUNDS);
    println!();
    println!("simulated hour of the four-phase site, {HOUR} steps: median of {rounds} rounds");
    let hour = times(rounds, LANES.len());
    let in_ms = |time: &Time| format!("{:.2} ms ({:.2})", time.median / 1e6, time.best / 1e6);
    let each: Vec<String> = BOARDS
        .iter()
        .zip(&hour)
        .map(|(calls, time)| format!("{} {}", calls.name, in_ms(time)))
        .collect();
    println!(
        "{} streams: {} {}",
        LANES.len(),
        each.join(", "),
        ratio(&hour)
    );
    println!(
        "{:>8} {:>18} {:>18} {:>20} {:>18}",
        "streams", "model, ns a step", "library", "", "each stream more"
    );
    let mut fewer: Option<(usize, Vec<Time>)> = None;
    for count in COUNTS {
        let times = times(rounds, count);
        let steps: Vec<String> = times.iter().map(shown).collect();
        let library = steps.get(1).map_or("", String::as_str);
        let more = fewer.map_or(String::new(), |(fewer, earlier)| {
            let each = times.iter().zip(&earlier).map(|(time, earlier)| {
                let difference = a_step(time.best) - a_step(earlier.best);
                format!("{:.2}", difference / (count - fewer) as f64)
            });
            each.collect::<Vec<_>>().join(", ")
        });
        println!(
            "{count:>8} {:>18} {library:>18} {:>20} {more:>18}",
            steps[0],
            ratio(&times)
        );
        fewer = Some((count, times));
    }
}

/// The ratio of the library to the model; no text if the library is not linked.
fn ratio(times: &[Time]) -> String {
    match times {
        [model, library] => format!("ratio {}", library.ratio(model)),
        _ => String::new(),
    }
}

/// The times of the model, and of the library if it is linked.
fn times(rounds: usize, count: usize) -> Vec<Time> {
    let works = BOARDS.iter().map(|calls| runner(calls, count));
    times_of_long(rounds, works.collect())
}

/// Runs the hour once a call.
fn runner(calls: &'static Calls, count: usize) -> Work<'static> {
    let streams = streams(count);
    let mut state = [0; STATE_LEN];
    let mut results = [0; STREAM_LEN * MAX_STREAMS];
    Box::new(move |_| {
        let (personality, streams) = (black_box(PERSONALITY), black_box(streams.as_slice()));
        let answer = calls
            .board
            .road(personality, streams, HOUR, &mut state, &mut results);
        assert_eq!(black_box(answer), 0);
        black_box((&state, &results));
    })
}

/// The first streams of the lanes, which repeat. Streams of one lane are equal, so
/// that the controller sees the same from 8 streams on.
fn streams(count: usize) -> Vec<u8> {
    let lanes = LANES.iter().cycle().take(count);
    let stream = |&(detector, group, rate): &(u8, u8, u16)| {
        let stream = Stream {
            detector,
            group,
            rate,
        };
        stream.to_bytes()
    };
    lanes.flat_map(stream).collect()
}

/// The time of one step of the hour.
fn a_step(hour: f64) -> f64 {
    hour / f64::from(HOUR)
}

fn shown(time: &Time) -> String {
    format!("{:.1} ({:.1})", a_step(time.median), a_step(time.best))
}

#[cfg(test)]
mod tests {
    use super::*;
    use model::{Road, Site, Vehicles};

    /// The vehicles after the hour, and the phases that were green in it.
    fn hour(count: usize) -> (Vec<Vehicles>, u8) {
        let site = Site::read(PERSONALITY).unwrap();
        let mut road = Road::new(site, &streams(count), HOUR).unwrap();
        let mut phases = 0;
        while road.step() {
            phases |= u8::from(road.state().interval.is_green()) << road.state().phase;
        }
        (road.vehicles().collect(), phases)
    }

    #[test]
    fn every_lane_flows_and_every_phase_runs() {
        let (vehicles, phases) = hour(LANES.len());
        assert_eq!(phases, 0b1111);
        assert!(vehicles.iter().all(|lane| lane.gone > 60), "{vehicles:?}");
    }

    #[test]
    fn more_streams_see_the_same_road() {
        let (eight, _) = hour(8);
        let (most, _) = hour(MAX_STREAMS);
        for (index, vehicles) in most.iter().enumerate() {
            assert_eq!(*vehicles, eight[index % 8]);
        }
    }
}
