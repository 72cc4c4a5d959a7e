//! Late start.

use crate::trace::{changes, detector, once, Run};
use generate::Plan;
use model::Interval;

/// Three phases; B and C start late. Groups: A, B, C, B with late start, B and
/// A with late start.
fn late() -> Plan {
    let plain = [0, 20, 30, 5, 30, 10];
    let late = [7, 20, 30, 5, 30, 10];
    Plan {
        phases: vec![plain, late, late],
        groups: vec![[1, 0], [2, 0], [4, 0], [2, 1], [3, 1]],
        conflicts: vec![0; 5],
        detectors: vec![[0, 6], [1, 6], [2, 6]],
        ..Plan::junction()
    }
}

#[test]
fn a_late_group_waits_in_red_unless_it_was_green_before() {
    let lines = changes(&late(), 100, once(12, detector(1)));
    assert_eq!(
        lines[3..],
        [
            "31 A Y YRRRG",
            "61 A R RRRRG",
            "71 B L RGRRG",
            "78 B M RGRGG",
            "98 B G RGRGG",
        ]
    );
}

#[test]
fn from_a_phase_outside_its_set_it_waits() {
    let mut run = Run::new(&late());
    let inputs = |step| once(12, detector(2))(step) | once(80, detector(1))(step);
    run.until(71, inputs);
    assert_eq!(run.shown(), "C L RRGRR");
    run.until(139, inputs);
    let came_from = (run.state.phase, run.state.came_from);
    assert_eq!(came_from, (1, Some(2)), "{}", run.shown());
    assert_eq!(run.shown(), "B L RGRRR");
    run.until(146, inputs);
    assert_eq!(run.shown(), "B M RGRGG");
}

#[test]
fn after_start_red_it_waits_too() {
    let mut plan = late();
    plan.phases[0][0] = 3;
    plan.groups[0] = [1, 1];
    let lines = changes(&plan, 40, |_| 0);
    assert_eq!(
        lines,
        [
            "1 A S RRRRR",
            "10 A L RRRRR",
            "13 A M GRRRG",
            "33 A G GRRRG"
        ]
    );
}

#[test]
fn a_lock_made_in_late_start_is_cleared_by_minimum_green() {
    let mut run = Run::new(&late());
    run.until(71, once(12, detector(1)));
    assert_eq!(run.state.locks, 0b010, "still standing in late start");
    run.until(77, |_| detector(1));
    assert_eq!(
        (run.state.interval, run.state.age),
        (Interval::LateStart, 7)
    );
    assert_eq!(run.state.locks, 0b010);
    run.step(detector(1));
    assert_eq!(run.state.interval, Interval::MinimumGreen);
    assert_eq!((run.state.locks, run.state.gap_count), (0, 5));
}

#[test]
fn late_start_of_one_step() {
    let mut plan = late();
    plan.phases[1][0] = 1;
    let lines = changes(&plan, 80, once(12, detector(1)));
    assert_eq!(lines[5..], ["71 B L RGRRG", "72 B M RGRGG"]);
}
