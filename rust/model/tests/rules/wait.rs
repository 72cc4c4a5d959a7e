//! The wait bound.

use generate::Plan;
use model::{wait_bound, Edition, Number};

#[test]
fn the_greatest_bound_is_37950() {
    let mut plan = Plan {
        edition: Edition::One,
        start_red: 150,
        phases: vec![[200, 400, 1500, 100, 100, 150]; 7],
        groups: (0..7).map(|phase| [1 << phase, 2]).collect(),
        conflicts: vec![0; 7],
        detectors: vec![],
        movements: vec![[400; 3]; 7],
        early_cut_offs: Some(vec![200; 7]),
        order: None,
    };
    assert_eq!(wait_bound(&plan.bytes()), Ok(37_950));
    plan.edition = Edition::Two;
    assert_eq!(wait_bound(&plan.bytes()), Ok(37_950));
    plan.early_cut_offs = None;
    assert_eq!(wait_bound(&plan.bytes()), Ok(35_150));
}

#[test]
fn every_early_cut_off_time_counts_twice() {
    let with = |times: [u16; 2]| wait_bound(&Plan::turning_arrow(Some(times.to_vec())).bytes());
    assert_eq!(with([0, 0]), Ok(270));
    assert_eq!(with([20, 0]), Ok(310));
    assert_eq!(with([20, 7]), Ok(324), "B has no group that stops early");
}

#[test]
fn the_longest_walk_and_the_longest_second_clearance_may_be_of_two_movements() {
    let plan = Plan {
        groups: vec![[3, 0], [1, 2], [1, 2], [2, 2]],
        conflicts: vec![0; 4],
        movements: vec![[20, 5, 90], [30, 1, 3], [10, 1, 1]],
        ..Plan::junction()
    };
    let a = 20 + 30 + 2 * (31 + 30 + 10 + 90);
    let b = 20 + 30 + 2 * (11 + 30 + 10 + 1);
    assert_eq!(wait_bound(&plan.bytes()), Ok(10 + a + b));
}

#[test]
fn late_start_counts_once_and_the_gap_not_at_all() {
    let mut plan = Plan::junction();
    plan.phases[1][0] = 200;
    plan.phases[1][3] = 100;
    assert_eq!(wait_bound(&plan.bytes()), Ok(470));
}

#[test]
fn a_refused_personality_has_none() {
    assert_eq!(wait_bound(&[]).unwrap_err().number, Number::CutShort);
}
