//! Demands, the gap count and the maximum count.

use crate::trace::{detector, once, Run};
use generate::Plan;
use model::{Interval, MAX_AGE};

fn with_modes(a: u8, b: u8) -> Plan {
    Plan {
        detectors: vec![[0, a], [1, b]],
        ..Plan::junction()
    }
}

#[test]
fn a_non_locking_call_lasts_one_step() {
    let mut run = Run::new(&with_modes(6, 1));
    run.until(100, once(12, detector(1)));
    assert_eq!(
        (run.state.phase, run.state.interval),
        (0, Interval::Running)
    );
    assert_eq!(run.state.locks, 0);
    run.step(detector(1));
    assert_eq!(
        (run.state.interval, run.state.target),
        (Interval::Yellow, Some(1))
    );
}

#[test]
fn no_call_and_extension_only_never_demand() {
    for mode in [0, 4] {
        let mut plan = with_modes(6, mode);
        plan.detectors.push([1, 6]);
        let mut run = Run::new(&plan);
        run.until(300, |_| detector(1));
        assert_eq!(
            (run.state.phase, run.state.interval),
            (0, Interval::Running)
        );
    }
}

#[test]
fn the_maximum_count_runs_on_when_the_demand_drops_away() {
    let mut run = Run::new(&with_modes(6, 1));
    run.until(40, |_| detector(0));
    run.until(41, |_| detector(0) | detector(1));
    assert_eq!(run.state.maximum_count, 1);
    run.until(70, |_| detector(0));
    assert_eq!(run.state.maximum_count, 30);
    run.until(90, |_| detector(0));
    assert_eq!(run.state.maximum_count, 30);
    run.step(detector(0) | detector(1));
    assert_eq!(run.state.interval, Interval::Yellow);
}

#[test]
fn the_gap_count_runs_down_from_the_last_extension() {
    let mut run = Run::new(&with_modes(6, 2));
    run.until(39, |step| if step < 36 { detector(0) } else { detector(1) });
    assert_eq!(
        (run.state.interval, run.state.gap_count),
        (Interval::Running, 1)
    );
    run.step(0);
    assert_eq!(
        (run.state.interval, run.state.gap_count),
        (Interval::Yellow, 0)
    );
}

#[test]
fn the_gap_count_runs_in_minimum_green_too() {
    let mut run = Run::new(&with_modes(5, 2));
    run.until(10, |_| 0);
    assert_eq!(run.state.gap_count, 5);
    run.until(13, |_| 0);
    assert_eq!(run.state.gap_count, 2);
    run.step(detector(0));
    assert_eq!(run.state.gap_count, 5);
}

#[test]
fn a_gap_of_0_ends_the_green_under_an_occupied_detector() {
    let mut plan = with_modes(6, 6);
    plan.phases[0][3] = 0;
    let mut run = Run::new(&plan);
    run.until(31, |_| detector(0) | detector(1));
    assert_eq!(run.state.interval, Interval::Yellow);
}

#[test]
fn an_own_call_in_green_is_no_demand() {
    let mut run = Run::new(&with_modes(2, 2));
    run.until(100, |_| detector(0));
    assert_eq!(run.state.locks, 0);
    run.until(131, |step| if step == 101 { detector(1) } else { 0 });
    assert_eq!(run.state.interval, Interval::AllRed);
    run.step(detector(0));
    assert_eq!(
        run.state.locks, 0b11,
        "A again, and B until its minimum green"
    );
}

#[test]
fn in_yellow_and_all_red_the_phase_can_be_called_again() {
    let mut run = Run::new(&with_modes(6, 6));
    run.until(31, once(12, detector(1)));
    assert_eq!(
        (run.state.interval, run.state.locks),
        (Interval::Yellow, 0b10)
    );
    run.step(detector(0));
    assert_eq!(run.state.locks, 0b11);
    run.until(71, |_| 0);
    assert_eq!((run.state.phase, run.state.locks), (1, 0b01));
}

#[test]
fn counts_are_0_when_the_target_starts() {
    let mut plan = with_modes(6, 6);
    plan.phases[1][0] = 5;
    let mut run = Run::new(&plan);
    run.until(100, |step| detector(0) | once(12, detector(1))(step));
    assert_eq!(
        (run.state.phase, run.state.interval),
        (1, Interval::LateStart)
    );
    assert_eq!((run.state.gap_count, run.state.maximum_count), (0, 0));
}

#[test]
fn ages_stop_at_2000() {
    let mut run = Run::new(&with_modes(6, 6));
    run.until(2029, |_| 0);
    assert_eq!(run.state.age, MAX_AGE);
    run.until(2100, |_| 0);
    assert_eq!(
        (run.state.interval, run.state.age),
        (Interval::Running, MAX_AGE)
    );
}
