//! The longest waits of the example sites and of random ones: each is below the wait that
//! is promised, and nothing is left that is not ruled out.

use drive::follow;
use generate::{Pace, Plan, Rng, Shape};
use longest::{drive, Found};
use model::packed::Model;
use model::{Site, TimedState};
use monitor::Monitor;
use std::path::Path;

/// Random beginnings for each demand.
const TRIALS: usize = 3;

fn driven(personality: &[u8]) -> Vec<Found> {
    let site = Site::read(personality).unwrap();
    let found = drive(&site, 1, TRIALS);
    for one in &found {
        let driven = one.driven.wait;
        assert!(driven < one.wait as usize, "{}", one.name);
        assert_eq!(one.unexplained(), 0, "{}", one.name);
    }
    found
}

/// The longest waits driven at an example site.
fn of_example(name: &str) -> Vec<usize> {
    let examples = Path::new(env!("CARGO_MANIFEST_DIR")).join("../../examples");
    let personality = std::fs::read(examples.join(name).join("personality.bin")).unwrap();
    let found = driven(&personality);
    found.iter().map(|one| one.driven.wait).collect()
}

#[test]
fn the_example_sites() {
    assert_eq!(of_example("two_phases"), [129, 129]);
    assert_eq!(of_example("t_junction"), [464, 599, 499]);
    assert_eq!(of_example("four_phases"), [1_012, 820, 1_051, 875]);
    assert_eq!(of_example("staggered"), [556, 597, 754, 791]);
    // Of P4 and P5 the formula gives a step away: another walk cannot begin in the last step
    // of the own clearance.
    let crossings = [
        1_593, 1_854, 1_854, 1_557, 1_772, 2_029, 2_008, 1_948, 2_208, 2_176,
    ];
    assert_eq!(of_example("crossings"), crossings);
}

#[test]
fn a_phase_that_nothing_extends() {
    let mut plan = Plan::junction();
    plan.detectors[1][1] = 2;
    let found = driven(&plan.bytes());
    // B has one step of running instead of 30, and A waits for them.
    let waits: Vec<usize> = found.iter().map(|one| one.driven.wait).collect();
    assert_eq!(waits, [129 - 29, 129]);
    assert_eq!(found[0].reasons[1].words, "nothing extends B");
    assert_eq!(found[0].reasons[1].steps, 29);
}

#[test]
fn the_monitor_sees_the_same_waits() {
    // In the second plan nothing extends B, which takes 9 steps from the others.
    for (plan, waits) in [
        (Plan::junction(), vec![(129, 130), (129, 130)]),
        (
            Plan::long_clearance(),
            vec![(150, 160), (450, 451), (390, 400)],
        ),
    ] {
        let personality = plan.bytes();
        for (found, wait) in driven(&personality).into_iter().zip(waits) {
            let inputs = found.driven.inputs;
            let next = |step: u64, _: &TimedState| inputs[step as usize - 1];
            let steps = inputs.len() as u64;
            let monitor = follow(
                Monitor::new(&personality),
                &Model,
                &personality,
                steps,
                next,
            );
            let nearest = monitor.unwrap().nearest_own_wait();
            assert_eq!((found.driven.wait as u64, u64::from(found.wait)), wait);
            assert_eq!(nearest, wait, "{}", found.name);
        }
    }
}

#[test]
fn random_sites() {
    let mut rng = Rng::new(33);
    for _ in 0..12 {
        let shape = Shape {
            pace: Pace::Short,
            phases: rng.range(2, 5),
            ..Shape::random(&mut rng)
        };
        driven(&Plan::of_shape(&mut rng, shape).bytes());
    }
}

/// A run waits longer than a formula allows that leaves something out.
#[test]
fn each_part_of_a_wait_is_needed() {
    // Start red: B waits for it and for the turn of A, 90.
    let mut plan = Plan::junction();
    plan.start_red = 150;
    assert_eq!(waits_of(&plan)[1], (150 + 90 - 1, 150 + 90));
    // The late start of the demanded phase: without it the wait is 130.
    let mut plan = Plan::junction();
    plan.phases[0][0] = 7;
    assert_eq!(waits_of(&plan)[0], (136, 137));
    // The walk of another movement beside the own clearance: without it the wait is 400.
    let mut plan = Plan::long_clearance();
    plan.groups.push([1, 2]);
    plan.conflicts[1] = 0b1101;
    plan.conflicts.push(0b0010);
    plan.movements.push([60, 5, 20]);
    let (driven, wait) = waits_of(&plan)[2];
    assert_eq!(wait, 465);
    assert!(driven > 400, "{driven}");
    // The second clearance runs beside yellow and all-red. If they came one after the other,
    // the wait of B would be 491, and 40 steps of it would never be reached.
    assert_eq!(waits_of(&Plan::long_clearance())[1], (450, 451));
}

/// For each phase and each movement the longest wait driven, and the one promised.
fn waits_of(plan: &Plan) -> Vec<(usize, u32)> {
    let found = driven(&plan.bytes()).into_iter();
    found.map(|one| (one.driven.wait, one.wait)).collect()
}
