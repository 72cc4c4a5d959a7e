//! The green man rests: request three of document 02.

use crate::trace::{button, changes, detector, once, Run};
use generate::Plan;
use model::{wait_bound, Interval, Stage};

/// The junction of two phases with a pedestrian group of A beside it.
fn beside_a() -> Plan {
    Plan {
        groups: vec![[1, 0], [2, 0], [1, 2]],
        conflicts: vec![2, 5, 2],
        movements: vec![[10, 10, 50]],
        ..Plan::junction()
    }
}

/// The button in step 12, detector 1 in step 100.
fn pressed_and_called(step: u32) -> u64 {
    once(12, button(0))(step) | once(100, detector(1))(step)
}

#[test]
fn it_rests_until_another_phase_is_demanded() {
    let lines = changes(&beside_a(), 180, pressed_and_called);
    assert_eq!(
        lines,
        [
            "1 A S RRR",
            "10 A M GRR",
            "30 A G GRG",
            "100 A G GRF",
            "110 A Y YRF",
            "140 A R RRF",
            "160 B M RGR",
            "180 B G RGR",
        ]
    );
}

#[test]
fn it_rests_on_until_the_maximum_count_where_the_green_is_held() {
    let inputs = |step| pressed_and_called(step) | detector(0);
    let lines = changes(&beside_a(), 195, inputs);
    assert_eq!(
        lines[2..7],
        [
            "30 A G GRG",
            "130 A G GRF",
            "140 A Y YRF",
            "170 A R RRF",
            "190 B M RGR",
        ]
    );
}

#[test]
fn the_counts_are_those_before_part_3() {
    let inputs = |step| match step {
        12 => button(0),
        60..100 => detector(0),
        100 => detector(0) | detector(1),
        _ => 0,
    };
    let mut run = Run::new(&beside_a());
    run.until(105, inputs);
    assert_eq!(run.state.gap_count, 0, "in part 3 of this step");
    assert_eq!(run.state.movements[0].stage, Stage::Walk);
    run.step(0);
    assert_eq!(run.state.movements[0].stage, Stage::ClearanceOne);
}

#[test]
fn a_walk_lasts_at_least_its_time() {
    for walk in [10, 40] {
        let mut plan = beside_a();
        plan.movements[0][0] = walk;
        // Another phase is demanded in the step after the walk begins.
        let mut run = Run::new(&plan);
        run.until(30, once(12, button(0)));
        assert_eq!(run.state.movements[0].stage, Stage::Walk);
        run.until(29 + u32::from(walk), once(31, detector(1)));
        assert_eq!(run.state.movements[0].stage, Stage::Walk);
        assert_eq!(run.state.movements[0].age, walk);
        run.step(0);
        assert_eq!(run.state.movements[0].stage, Stage::ClearanceOne);
    }
}

#[test]
fn the_step_that_enters_running_does_not_end_it() {
    let inputs = |step| once(5, button(0))(step) | once(12, detector(1))(step);
    let mut run = Run::new(&beside_a());
    run.until(30, inputs);
    assert_eq!(run.state.interval, Interval::Running);
    assert_eq!(run.state.movements[0].stage, Stage::Walk);
    run.step(0);
    assert_eq!(run.state.movements[0].stage, Stage::ClearanceOne);
}

#[test]
fn yellow_is_judged_anew_after_the_first_clearance() {
    let mut plan = beside_a();
    plan.detectors[1][1] = 1;
    let mut run = Run::new(&plan);
    run.until(100, pressed_and_called);
    assert_eq!(run.state.movements[0].stage, Stage::ClearanceOne);
    run.until(160, |_| 0);
    assert_eq!(run.shown(), "A G GRR", "the call without lock is gone");
    run.step(button(0));
    assert_eq!(run.shown(), "A G GRG");
}

#[test]
fn its_age_stops_and_it_can_still_end() {
    let mut run = Run::new(&beside_a());
    run.until(3_000, once(12, button(0)));
    assert_eq!(run.state.movements[0].age, model::MAX_AGE);
    run.step(detector(1));
    assert_eq!(run.shown(), "A G GRF");
}

#[test]
fn the_wait_keeps_its_formula() {
    let a = 20 + 30 + 2 * (20 + 30 + 10 + 50);
    let b = 20 + 30 + 2 * (30 + 10);
    assert_eq!(wait_bound(&beside_a().bytes()), Ok(10 + a + b));
}
