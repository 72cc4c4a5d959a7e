//! The simulated road: worked cases, the order of refusals, and what is left as
//! it was.

use generate::{Plan, Rng, RoadDamage, RoadPlan};
use model::packed;
use model::{fresh, Interval, Refusal, Road, Site, State, Stream, TimedState, Vehicles, STATE_LEN};

const SEED: u64 = 22;
const CANARY: u8 = 0xA5;

fn streams(streams: &[(u8, u8, u16)]) -> Vec<u8> {
    let stream = |&(detector, group, rate): &(u8, u8, u16)| {
        let stream = Stream {
            detector,
            group,
            rate,
        };
        stream.to_bytes()
    };
    streams.iter().flat_map(stream).collect()
}

/// What a road ends in: the state, and the vehicles queued and gone.
fn ran(plan: &Plan, road: &[(u8, u8, u16)], steps: u32) -> (State, Vec<[u16; 2]>) {
    let personality = plan.bytes();
    let site = Site::read(&personality).unwrap();
    let mut road = Road::new(site, &streams(road), steps).unwrap();
    road.run();
    let vehicles = road.vehicles();
    let vehicles = vehicles.map(|Vehicles { queued, gone }| [queued, gone]);
    (*road.state(), vehicles.collect())
}

/// Phase, interval and age.
fn stands(state: &State) -> (u8, Interval, u16) {
    (state.phase, state.interval, state.age)
}

#[test]
fn both_full_for_200_steps() {
    let (state, vehicles) = ran(&Plan::junction(), &[(0, 0, 1800), (1, 1, 1800)], 200);
    assert_eq!(stands(&state), (0, Interval::MinimumGreen, 11));
    assert_eq!(vehicles, [[8, 2], [8, 2]]);
}

#[test]
fn two_streams_at_the_detector_of_b() {
    let (state, vehicles) = ran(&Plan::junction(), &[(1, 0, 1800), (1, 1, 900)], 200);
    assert_eq!(stands(&state), (1, Interval::Running, 110));
    assert_eq!(vehicles, [[10, 0], [1, 4]]);
}

#[test]
fn a_quiet_hour() {
    let (state, vehicles) = ran(&Plan::junction(), &[(0, 0, 600), (1, 1, 300)], 36_000);
    assert_eq!(stands(&state), (1, Interval::Yellow, 28));
    assert_eq!(vehicles, [[4, 596], [1, 299]]);
}

#[test]
fn a_full_hour() {
    let (_, vehicles) = ran(&Plan::junction(), &[(0, 0, 1800), (1, 1, 1800)], 36_000);
    assert_eq!(vehicles, [[1400, 400], [1400, 400]]);
}

#[test]
fn as_long_and_as_full_as_can_be() {
    let road = [(0, 0, 1800); 48];
    let (_, vehicles) = ran(&Plan::junction(), &road, 180_000);
    // Nobody calls B, so that A rests in green from step 10 on. The first vehicle
    // comes with step 20 and counts 20 steps from there, as the next one comes.
    assert_eq!(vehicles, [[1, 8999]; 48]);
    let (_, vehicles) = ran(&Plan::junction(), &[(0, 1, 1800); 48], 180_000);
    assert_eq!(vehicles, [[9000, 0]; 48]);
}

#[test]
fn no_steps_and_no_streams() {
    let (state, vehicles) = ran(&Plan::junction(), &[(0, 0, 1800)], 0);
    assert_eq!((state, vehicles), (fresh(), vec![[0, 0]]));
    let (state, vehicles) = ran(&Plan::junction(), &[], 0);
    assert_eq!((state, vehicles), (fresh(), vec![]));
    let (state, vehicles) = ran(&Plan::junction(), &[], 200);
    assert_eq!(stands(&state), (0, Interval::Running, 171));
    assert_eq!(vehicles, Vec::<[u16; 2]>::new());
}

#[test]
fn the_first_green_step_with_a_queue_counts_one() {
    // The first vehicle comes with step 20, at green since step 10: the steps 20 to
    // 39 count, and the second vehicle comes with step 40.
    let road = [(0, 0, 1800)];
    let at = |steps| ran(&Plan::junction(), &road, steps).1[0];
    assert_eq!(at(19), [0, 0]);
    assert_eq!(at(20), [1, 0]);
    assert_eq!(at(38), [1, 0]);
    assert_eq!(at(39), [0, 1]);
    assert_eq!(at(40), [1, 1]);
    assert_eq!(at(59), [0, 2]);
}

/// The steps in which the first stream releases a vehicle.
fn releases(road: &[(u8, u8, u16)], steps: u32) -> Vec<u32> {
    let gone = |steps| ran(&Plan::junction(), road, steps).1[0][1];
    (1..=steps)
        .filter(|&step| gone(step) > gone(step - 1))
        .collect()
}

#[test]
fn an_empty_queue_sets_the_count_to_0() {
    // At 1,200 an hour a vehicle comes with each 30th step.
    assert_eq!(releases(&[(0, 0, 1200)], 120), [49, 79, 109]);
}

#[test]
fn yellow_and_red_set_the_count_to_0() {
    // Vehicles of A come with steps 22, 43 and 64. A is green from step 10 to 59,
    // since it extends until its maximum, so that the second one has counted 17
    // steps as yellow begins. A is green again from step 190 on.
    assert_eq!(releases(&[(0, 0, 1700), (1, 1, 1800)], 215), [41, 209]);
}

#[test]
fn a_count_begins_with_green() {
    // A runs from step 30 on and gives way at once: yellow 31 to 60, all-red 61 to
    // 70, B green from step 71. Its queue has stood since step 20.
    let road = [(1, 1, 1800)];
    assert_eq!(releases(&road, 199), [90, 110, 130, 150, 170, 190]);
}

#[test]
fn streams_that_share_a_group_release_each_their_own() {
    let road = [(0, 0, 1800), (0, 0, 1800), (0, 0, 0)];
    let (_, vehicles) = ran(&Plan::junction(), &road, 40);
    assert_eq!(vehicles, [[1, 1], [1, 1], [0, 0]]);
}

#[test]
fn a_detector_without_call_may_be_named() {
    let plan = Plan {
        detectors: vec![[0, 6], [1, 6], [1, 0]],
        ..Plan::junction()
    };
    let (state, vehicles) = ran(&plan, &[(2, 1, 1800)], 400);
    assert_eq!(state.phase, 0);
    assert_eq!(vehicles, [[20, 0]]);
}

#[test]
fn an_arrow_of_every_mark_releases() {
    let plan = Plan {
        groups: vec![[1, 1], [1, 3], [2, 0], [0, 0]],
        conflicts: vec![0; 4],
        early_cut_offs: Some(vec![20, 0]),
        ..Plan::junction()
    };
    let road = [(0, 0, 1800), (0, 1, 1800), (0, 2, 1800), (0, 3, 1800)];
    let (_, vehicles) = ran(&plan, &road, 59);
    assert_eq!(vehicles, [[0, 2], [0, 2], [2, 0], [2, 0]]);
}

#[test]
fn arrivals_are_those_of_the_rate_and_none_is_lost() {
    let mut rng = Rng::new(SEED);
    for _ in 0..200 {
        let personality = Plan::random(&mut rng).bytes();
        let site = Site::read(&personality).unwrap();
        let plan = RoadPlan::random(&mut rng, &site);
        let mut road = Road::new(site, &plan.streams, plan.steps).unwrap();
        let mut steps = 0;
        while road.step() {
            steps += 1;
            if steps % 97 != 0 && steps != plan.steps {
                continue;
            }
            for (record, vehicles) in plan.streams.chunks(4).zip(road.vehicles()) {
                let rate = u32::from(u16::from_le_bytes([record[2], record[3]]));
                let arrived = u32::from(vehicles.queued) + u32::from(vehicles.gone);
                assert_eq!(arrived, rate * steps / 36_000, "step {steps}, {record:?}");
            }
        }
        assert_eq!(steps, plan.steps);
    }
}

/// The answer of a call whose buffers have these lengths. A refusal writes
/// nothing, and an accepted call nothing past the results.
fn answer(personality: &[u8], road: &[u8], steps: u32, state: usize, results: usize) -> u64 {
    let mut state = vec![CANARY; state];
    let mut results = vec![CANARY; results];
    let answer = packed::road(personality, road, steps, &mut state, &mut results);
    let kept = if answer == 0 { road.len() } else { 0 };
    assert!(results[kept..].iter().all(|&byte| byte == CANARY));
    assert!(answer == 0 || state.iter().all(|&byte| byte == CANARY));
    assert!(answer != 0 || TimedState::from_bytes(&state).is_some());
    answer
}

#[test]
fn each_refusal_22() {
    let plan = Plan {
        groups: vec![[1, 0], [2, 0], [1, 2]],
        conflicts: vec![2, 1, 0],
        movements: vec![[10, 1, 1]],
        ..Plan::junction()
    };
    let bytes = plan.bytes();
    let number = |road: &[u8], steps| answer(&bytes, road, steps, STATE_LEN, 400);
    let of = |road: &[(u8, u8, u16)]| number(&streams(road), 1);
    assert_eq!(of(&[(1, 1, 1800); 48]), 0);
    assert_eq!(of(&[(1, 1, 1800); 49]), 22);
    assert_eq!(of(&[(1, 1, 0); 49]), 22);
    assert_eq!(of(&[(0, 0, 0), (1, 1, 1801)]), 22);
    assert_eq!(of(&[(0, 0, 65_535)]), 22);
    assert_eq!(of(&[(0, 0, 1800), (2, 1, 1800)]), 22);
    assert_eq!(of(&[(255, 1, 1800)]), 22);
    assert_eq!(of(&[(0, 3, 1800)]), 22);
    assert_eq!(of(&[(0, 255, 1800)]), 22);
    assert_eq!(of(&[(0, 2, 1800)]), 22);
    assert_eq!(number(&[], 180_000), 0);
    assert_eq!(number(&[], 180_001), 22);
    assert_eq!(number(&[], u32::MAX), 22);
    let road = streams(&[(0, 0, 1800), (1, 1, 1800)]);
    for length in 0..=8 {
        let expected = if length % 4 == 0 { 0 } else { 22 };
        assert_eq!(number(&road[..length], 1), expected, "{length} bytes");
    }
}

#[test]
fn personality_then_22_then_state_then_results() {
    let good = Plan::junction().bytes();
    let mut damaged = Plan::junction();
    damaged.phases[0][4] = 29;
    let damaged = damaged.bytes();
    let road = streams(&[(0, 0, 1800), (1, 1, 1800)]);
    let wrong = streams(&[(0, 0, 1801), (1, 1, 1800)]);
    assert_eq!(answer(&damaged, &wrong, 1, 0, 0), 20 << 8 | 5);
    assert_eq!(answer(&[], &wrong, 1, 0, 0), 1);
    assert_eq!(answer(&good, &wrong, 1, 0, 0), 22);
    assert_eq!(answer(&good, &wrong, 1, STATE_LEN, 8), 22);
    assert_eq!(answer(&good, &road, 1, 0, 0), 13);
    assert_eq!(answer(&good, &road, 1, STATE_LEN - 1, 8), 13);
    assert_eq!(answer(&good, &road, 1, STATE_LEN + 1, 8), 13);
    assert_eq!(answer(&good, &road, 1, STATE_LEN, 7), 14);
    assert_eq!(answer(&good, &road, 0, STATE_LEN, 0), 14);
    assert_eq!(answer(&good, &road, 1, STATE_LEN, 8), 0);
    assert_eq!(answer(&good, &road, 1, STATE_LEN, 9), 0);
    assert_eq!(answer(&good, &[], 1, STATE_LEN, 0), 0);
}

#[test]
fn results_are_little_endian() {
    let bytes = Plan::junction().bytes();
    let road = streams(&[(0, 0, 1800), (1, 1, 1800)]);
    let mut state = [0; STATE_LEN];
    let mut results = [CANARY; 9];
    let answer = packed::road(&bytes, &road, 36_000, &mut state, &mut results);
    assert_eq!(answer, 0);
    // 1,400 is 0x0578 and 400 is 0x0190.
    let each = [0x78, 0x05, 0x90, 0x01];
    assert_eq!(results[..8], [each, each].concat());
    assert_eq!(results[8], CANARY);
}

#[test]
fn every_damage_is_refused_with_22() {
    let mut rng = Rng::new(SEED);
    for damage in RoadDamage::ALL {
        let mut found = 0;
        for _ in 0..100 {
            let personality = Plan::random(&mut rng).bytes();
            let site = Site::read(&personality).unwrap();
            let mut plan = RoadPlan::random(&mut rng, &site);
            if plan.damage(&mut rng, &site, damage).is_some() {
                let refusal = Road::new(site, &plan.streams, plan.steps).unwrap_err();
                let Refusal { number, place } = refusal;
                assert_eq!((number as u8, place), (22, 0), "{damage:?}: {plan:?}");
                found += 1;
            }
        }
        assert!(found >= 20, "{damage:?}: {found}");
    }
}
