//! Pedestrian movements.

use crate::trace::{button, changes, detector, once, Run};
use generate::Plan;
use model::{Interval, Stage};

/// Two phases, a vehicle group each, and pedestrians who cross A's road while B
/// runs.
fn crossing(times: [u16; 3]) -> Plan {
    Plan {
        groups: vec![[1, 0], [2, 0], [2, 2]],
        conflicts: vec![0b110, 0b001, 0b001],
        movements: vec![times],
        ..Plan::junction()
    }
}

#[test]
fn a_press_brings_the_phase_and_the_walk_in_its_first_step() {
    let lines = changes(&crossing([10, 5, 7]), 300, once(1, button(0)));
    assert_eq!(
        lines,
        [
            "1 A S RRR",
            "10 A M GRR",
            "30 A G GRR",
            "31 A Y YRR",
            "61 A R RRR",
            "71 B M RGG",
            "91 B G RGG",
        ]
    );
}

#[test]
fn walk_and_the_first_clearance_hold_the_green() {
    let inputs = |step| once(1, button(0))(step) | once(72, detector(0))(step);
    let lines = changes(&crossing([40, 5, 7]), 200, inputs);
    assert_eq!(
        lines[5..],
        [
            "71 B M RGG",
            "91 B G RGG",
            "111 B G RGF",
            "116 B Y RYF",
            "123 B Y RYR",
            "146 B R RRR",
            "156 A M GRR",
            "176 A G GRR",
        ]
    );
}

#[test]
fn the_second_clearance_holds_the_all_red() {
    let inputs = |step| once(1, button(0))(step) | once(72, detector(0))(step);
    let lines = changes(&crossing([10, 5, 60]), 200, inputs);
    assert_eq!(
        lines[5..],
        [
            "71 B M RGG",
            "91 B G RGG",
            "92 B G RGF",
            "97 B Y RYF",
            "127 B R RRF",
            "157 A M GRR",
            "177 A G GRR",
        ]
    );
}

#[test]
fn a_press_in_walk_is_not_registered() {
    let mut run = Run::new(&crossing([10, 5, 7]));
    run.until(71, once(1, button(0)));
    assert_eq!(run.state.movements[0].stage, Stage::Walk);
    run.until(91, |_| button(0));
    assert_eq!(run.state.movements[0].stage, Stage::Walk);
    run.step(button(0) | detector(0));
    assert_eq!(run.state.movements[0].stage, Stage::ClearanceOne);
    assert_eq!(
        run.state.demands, 0,
        "the step that ends the walk counts as walk"
    );
}

#[test]
fn a_press_in_clearance_is_kept() {
    let mut plan = crossing([10, 5, 7]);
    plan.detectors[0][1] = 1;
    for pressed in 93..=104 {
        let mut run = Run::new(&plan);
        run.until(71, once(1, button(0)));
        // A calls without lock in one step: the walk ends, and B runs on.
        let inputs = |step| once(92, detector(0))(step) | once(pressed, button(0))(step);
        run.until(103, inputs);
        let stage = run.state.movements[0].stage;
        assert_eq!(stage, Stage::ClearanceTwo);
        run.until(104, inputs);
        let movement = run.state.movements[0];
        assert_eq!(
            (movement.stage, movement.age),
            (Stage::Walk, 1),
            "{pressed}"
        );
        assert_eq!(run.state.demands, 0);
        assert_eq!(run.shown(), "B G RGG");
    }
}

#[test]
fn no_new_walk_while_another_phase_is_demanded() {
    // B is held by its detector, and A is locked before the press.
    let inputs = |step| match step {
        20 | 71..95 => detector(1),
        95 => detector(1) | detector(0),
        96 => detector(1) | button(0),
        97..105 => detector(1),
        _ => 0,
    };
    let mut run = Run::new(&crossing([10, 5, 7]));
    run.until(104, inputs);
    assert_eq!(run.state.interval, Interval::Running);
    assert_eq!(run.state.movements[0].stage, Stage::Idle);
    assert_eq!(run.state.demands, 1);
    run.until(109, inputs);
    assert_eq!(run.state.interval, Interval::Yellow);
    run.until(220, inputs);
    assert_eq!(
        (run.state.phase, run.state.demands),
        (1, 0),
        "B comes round again"
    );
}

#[test]
fn a_demanded_movement_demands_its_phase_every_step() {
    let mut plan = crossing([10, 5, 7]);
    plan.detectors = vec![[0, 5], [1, 5]];
    let mut run = Run::new(&plan);
    run.until(40, |step| if step > 30 { detector(0) } else { 0 });
    assert_eq!(
        (run.state.phase, run.state.interval),
        (0, Interval::Running)
    );
    run.until(41, once(41, button(0)));
    assert_eq!(run.state.maximum_count, 1);
    run.until(70, |_| detector(0));
    assert_eq!(run.state.interval, Interval::Yellow, "at the maximum count");
}

#[test]
fn pressed_while_its_phase_runs_alone() {
    let mut run = Run::new(&crossing([10, 5, 7]));
    run.until(120, once(20, detector(1)));
    assert_eq!(run.shown(), "B G RGR");
    run.step(button(0));
    assert_eq!(run.shown(), "B G RGG");
}

#[test]
fn pressed_in_minimum_green_the_walk_waits_for_running() {
    let inputs = |step| once(20, detector(1))(step) | once(75, button(0))(step);
    let mut run = Run::new(&crossing([10, 5, 7]));
    run.until(90, inputs);
    assert_eq!(run.shown(), "B M RGR");
    run.until(91, inputs);
    assert_eq!(run.shown(), "B G RGG");
}

#[test]
fn the_movements_of_a_phase_walk_together_and_end_apart() {
    let plan = Plan {
        groups: vec![[1, 2], [2, 2], [1, 0], [2, 0], [2, 2]],
        conflicts: vec![0; 5],
        movements: vec![[12, 1, 1], [10, 2, 3], [11, 4, 4]],
        ..Plan::junction()
    };
    let presses = button(1) | button(2);
    let inputs = |step| once(2, presses)(step) | once(72, detector(0))(step);
    let lines = changes(&plan, 130, inputs);
    assert_eq!(
        lines[5..],
        [
            "71 B M RGRGG",
            "91 B G RGRGG",
            "92 B G RFRGF",
            "96 B Y RFRYF",
            "97 B Y RRRYF",
            "100 B Y RRRYR",
            "126 B R RRRRR",
        ]
    );
}

#[test]
fn buttons_belong_to_the_pedestrian_groups_in_order() {
    let plan = Plan {
        groups: vec![[2, 2], [3, 0], [1, 2]],
        conflicts: vec![0; 3],
        movements: vec![[20, 5, 7], [10, 5, 7]],
        ..Plan::junction()
    };
    let mut run = Run::new(&plan);
    run.until(10, once(3, button(1)));
    assert_eq!(
        run.shown(),
        "A M RGG",
        "the second button is the third group"
    );
}
