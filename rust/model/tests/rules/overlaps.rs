//! Groups of more than one phase.

use crate::trace::{changes, detector, once, Run};
use generate::Plan;
use model::Interval;

/// Three phases; a group each, and one of A and B together.
fn three_phases() -> Plan {
    Plan {
        phases: vec![[0, 20, 30, 5, 30, 10]; 3],
        groups: vec![[1, 0], [2, 0], [4, 0], [3, 0]],
        conflicts: vec![0b0110, 0b0101, 0b1011, 0b0100],
        detectors: vec![[0, 6], [1, 6], [2, 6]],
        ..Plan::junction()
    }
}

#[test]
fn it_stays_green_towards_a_phase_of_its_set() {
    let lines = changes(&three_phases(), 100, once(12, detector(1)));
    assert_eq!(
        lines,
        [
            "1 A S RRRR",
            "10 A M GRRG",
            "30 A G GRRG",
            "31 A Y YRRG",
            "61 A R RRRG",
            "71 B M RGRG",
            "91 B G RGRG",
        ]
    );
}

#[test]
fn it_clears_towards_another_phase() {
    let lines = changes(&three_phases(), 100, once(12, detector(2)));
    assert_eq!(
        lines,
        [
            "1 A S RRRR",
            "10 A M GRRG",
            "30 A G GRRG",
            "31 A Y YRRY",
            "61 A R RRRR",
            "71 C M RRGR",
            "91 C G RRGR",
        ]
    );
}

#[test]
fn the_target_is_not_chosen_again() {
    let mut run = Run::new(&three_phases());
    let inputs = |step| once(12, detector(2))(step) | once(40, detector(1))(step);
    run.until(71, inputs);
    assert_eq!(
        run.shown(),
        "C M RRGR",
        "though B, demanded later, comes first"
    );
    run.until(200, inputs);
    assert_eq!(run.shown(), "B G RGRG");
}

#[test]
fn the_target_is_the_next_in_cyclic_order() {
    let mut run = Run::new(&three_phases());
    run.until(71, once(12, detector(1) | detector(2)));
    assert_eq!(run.state.phase, 1);
    run.until(92, |_| detector(0) | detector(2));
    assert_eq!(run.state.target, Some(2));
    run.until(400, |step| {
        if step < 170 {
            detector(0) | detector(1)
        } else {
            0
        }
    });
    assert_eq!((run.state.phase, run.state.came_from), (1, Some(0)));
}

#[test]
fn a_group_of_all_phases_never_leaves_green() {
    let plan = Plan {
        groups: vec![[1, 0], [2, 0], [3, 0]],
        conflicts: vec![0b010, 0b001, 0],
        ..Plan::junction()
    };
    let mut run = Run::new(&plan);
    run.until(9, |_| detector(0) | detector(1));
    for step in 10..500 {
        run.until(step, |_| detector(0) | detector(1));
        assert!(run.shown().ends_with('G'), "step {step}: {}", run.shown());
    }
}

#[test]
fn a_group_of_no_phase_is_always_red() {
    let plan = Plan {
        groups: vec![[1, 0], [2, 0], [0, 1]],
        conflicts: vec![0b010, 0b001, 0],
        ..Plan::junction()
    };
    let mut run = Run::new(&plan);
    for step in 1..500 {
        run.until(step, |_| detector(0) | detector(1));
        assert!(run.shown().ends_with('R'));
    }
    assert_ne!(run.state.interval, Interval::StartRed);
}
