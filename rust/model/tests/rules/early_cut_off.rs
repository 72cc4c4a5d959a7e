//! Early cut-off green: request one of document 02.

use crate::trace::{changes, detector, once, Run};
use generate::Plan;
use model::{read, section, step, valid, wait_bound, Interval, Number, Part, Refusal, Site, Stage};

/// The junction with a turning arrow, group 1, and these times.
fn arrow(times: [u16; 2]) -> Plan {
    Plan::turning_arrow(Some(times.to_vec()))
}

/// The number and place of a refusal, 0 at 0 where it is accepted.
fn verdict(bytes: &[u8]) -> (u8, u32) {
    match read(bytes) {
        Ok(()) => (0, 0),
        Err(Refusal { number, place }) => (number as u8, place),
    }
}

/// What is shown from the end of running on, detector 1 occupied in step 12.
fn closing(times: [u16; 2]) -> Vec<String> {
    changes(&arrow(times), 200, once(12, detector(1))).split_off(2)
}

#[test]
fn shorter_than_yellow_the_arrow_stays_yellow_in_yellow() {
    assert_eq!(wait_bound(&arrow([20, 0]).bytes()), Ok(310));
    let lines = changes(&arrow([20, 0]), 200, once(12, detector(1)));
    assert_eq!(
        lines,
        [
            "1 A S RRR",
            "10 A M GGR",
            "30 A G GGR",
            "31 A E GYR",
            "51 A Y YYR",
            "61 A Y YRR",
            "81 A R RRR",
            "91 B M RRG",
            "111 B G RRG",
        ]
    );
}

#[test]
fn longer_than_yellow_the_arrow_is_red_before() {
    assert_eq!(
        closing([50, 0])[1..6],
        [
            "31 A E GYR",
            "61 A E GRR",
            "81 A Y YRR",
            "111 A R RRR",
            "121 B M RRG",
        ]
    );
}

#[test]
fn as_long_as_yellow_or_one_step_beside_it() {
    let lines = [
        "31 A E GYR",
        "61 A Y YRR",
        "91 A R RRR",
        "101 B M RRG",
        "121 B G RRG",
    ];
    assert_eq!(closing([30, 0])[1..], lines);
    assert_eq!(closing([29, 0])[2..4], ["60 A Y YYR", "61 A Y YRR"]);
    assert_eq!(closing([31, 0])[2..4], ["61 A E GRR", "62 A Y YRR"]);
    assert_eq!(closing([1, 0])[1..3], ["31 A E GYR", "32 A Y YYR"]);
}

#[test]
fn a_time_of_0_skips_it() {
    assert_eq!(
        closing([0, 0])[1..4],
        ["31 A Y YYR", "61 A R RRR", "71 B M RRG"]
    );
    assert_eq!(
        closing([0, 200]),
        closing([0, 0]),
        "B's time is of no account for A"
    );
}

#[test]
fn it_stays_green_towards_a_phase_of_its_set() {
    let mut plan = arrow([20, 0]);
    plan.groups[1][0] = 3;
    plan.conflicts = vec![4, 0, 1];
    let lines = changes(&plan, 100, once(12, detector(1)));
    assert_eq!(
        lines[3..],
        ["31 A E GGR", "51 A Y YGR", "81 A R RGR", "91 B M RGG"]
    );
}

#[test]
fn the_conditions_and_the_target_are_read_at_its_start() {
    let mut plan = arrow([20, 0]);
    plan.phases.push(plan.phases[0]);
    plan.groups.push([4, 0]);
    plan.conflicts = vec![0b1100, 0b1100, 0b1011, 0b0111];
    plan.detectors = vec![[0, 6], [1, 6], [2, 1]];
    plan.early_cut_offs = Some(vec![20, 0, 0]);
    // C calls without lock until it is the target; B is locked in E, too late.
    let inputs = |now: u32| {
        if now <= 31 {
            detector(2)
        } else {
            once(35, detector(1))(now)
        }
    };
    let mut run = Run::new(&plan);
    run.until(31, inputs);
    assert_eq!(run.shown(), "A E GYRR");
    assert_eq!(run.state.target, Some(2));
    run.until(50, inputs);
    assert_eq!(
        (run.state.interval, run.state.age),
        (Interval::EarlyCutOff, 20)
    );
    assert_eq!(run.state.locks, 0b010, "locked in early cut-off");
    run.until(91, inputs);
    assert_eq!(run.shown(), "C M RRRG");
}

#[test]
fn its_own_phase_locks_in_it() {
    let inputs = |now| once(12, detector(1))(now) | once(40, detector(0))(now);
    let mut run = Run::new(&arrow([20, 0]));
    run.until(39, inputs);
    assert_eq!(run.state.locks, 0b10);
    run.step(inputs(40));
    assert_eq!(run.state.locks, 0b11);
}

#[test]
fn second_clearances_run_on_in_it() {
    let mut plan = arrow([20, 0]);
    plan.groups.push([1, 2]);
    plan.conflicts = vec![4, 4, 0b1011, 4];
    plan.movements = vec![[10, 15, 70]];
    let inputs = |now| once(5, 1 << 48)(now) | once(12, detector(1))(now);
    let mut run = Run::new(&plan);
    run.until(45, inputs);
    assert_eq!(run.shown(), "A G GGRF");
    run.step(0);
    assert_eq!(run.shown(), "A E GYRF", "in the step that ends C1");
    assert_eq!(run.state.movements[0].stage, Stage::ClearanceTwo);
    run.until(115, inputs);
    assert_eq!(run.shown(), "A R RRRF", "C2 outlasts E, yellow and all-red");
    run.step(0);
    assert_eq!(run.shown(), "B M RRGR");
}

#[test]
fn late_start_and_walks_know_nothing_of_it() {
    let mut plan = arrow([20, 0]);
    plan.phases[0][0] = 5;
    let lines = changes(&plan, 40, |_| 0);
    assert_eq!(lines[1..], ["10 A L GGR", "15 A M GGR", "35 A G GGR"]);
}

#[test]
fn its_bytes() {
    let bytes = arrow([20, 0]).bytes();
    assert_eq!(bytes.len(), 82);
    assert_eq!(bytes[74..], [4, 0, 7, 0, 20, 0, 0, 0]);
    assert_eq!(verdict(&bytes), (0, 0));
    let part = |offset, length| Ok(Part { offset, length });
    assert_eq!(section(&bytes, 7), part(78, 4));
    assert_eq!(section(&bytes, 6), part(74, 0));
    assert_eq!(
        section(&bytes, 8).unwrap_err().number,
        Number::UnexpectedKind
    );
}

#[test]
fn a_section_without_a_group_that_stops_early() {
    let plan = Plan {
        early_cut_offs: Some(vec![200, 0]),
        ..Plan::junction()
    };
    let bytes = plan.bytes();
    assert_eq!(verdict(&bytes), (0, 0));
    assert_eq!(wait_bound(&bytes), Ok(670));
}

#[test]
fn mark_3_without_the_section_is_17_at_its_record() {
    let bytes = Plan::turning_arrow(None).bytes();
    assert_eq!(verdict(&bytes), (17, 42));
    let with = |more: &[u8]| verdict(&[bytes.as_slice(), more].concat());
    assert_eq!(with(&[4, 0, 7]), (17, 42));
    assert_eq!(with(&[4, 0, 8, 0, 0, 0, 0, 0]), (17, 42));
    assert_eq!(with(&[0]), (17, 42));
    assert_eq!(with(&[4, 0, 7, 1, 0, 0, 0, 0]), (17, 42), "kind 263");
}

#[test]
fn the_first_such_group_counts() {
    let mut plan = Plan::turning_arrow(None);
    plan.groups[2][1] = 3;
    assert_eq!(verdict(&plan.bytes()), (17, 42));
    plan.groups[0][1] = 3;
    assert_eq!(verdict(&plan.bytes()), (17, 40));
}

#[test]
fn earlier_checks_come_before_17() {
    let mut plan = Plan::turning_arrow(None);
    plan.detectors[1][1] = 3;
    assert_eq!(verdict(&plan.bytes()), (11, 68));
}

#[test]
fn times_and_lengths_of_the_section() {
    let bytes = arrow([20, 0]).bytes();
    let with = |changes: &[(usize, u8)]| {
        let mut bytes = bytes.clone();
        changes.iter().for_each(|&(at, byte)| bytes[at] = byte);
        verdict(&bytes)
    };
    assert_eq!(with(&[(78, 200)]), (0, 0));
    assert_eq!(with(&[(78, 201)]), (5, 78));
    assert_eq!(with(&[(81, 1)]), (5, 80));
    assert_eq!(with(&[(78, 201), (80, 201)]), (5, 78));
    for length in (0..=255).filter(|&length| length != 4) {
        assert_eq!(with(&[(74, length)]), (3, 74));
    }
    assert_eq!(with(&[(75, 1)]), (3, 74));
}

#[test]
fn a_cut_body_is_1_and_a_cut_head_is_none() {
    let bytes = Plan {
        early_cut_offs: Some(vec![20, 0]),
        ..Plan::junction()
    }
    .bytes();
    assert_eq!(verdict(&bytes[..68]), (0, 0));
    for length in 69..72 {
        assert_eq!(verdict(&bytes[..length]), (12, 68), "cut to {length}");
    }
    for length in 72..76 {
        assert_eq!(verdict(&bytes[..length]), (1, 68), "cut to {length}");
    }
    assert_eq!(verdict(&arrow([20, 0]).bytes()[..80]), (1, 74));
}

#[test]
fn bytes_behind_it_are_12() {
    let bytes = arrow([20, 0]).bytes();
    let with = |more: &[u8]| verdict(&[bytes.as_slice(), more].concat());
    assert_eq!(with(&[1]), (12, 82));
    assert_eq!(with(&bytes[74..]), (12, 82), "the section once more");
}

#[test]
fn states_in_it() {
    let with = arrow([0, 20]).bytes();
    let without = Plan::junction().bytes();
    let mut state = model::fresh();
    state.interval = Interval::EarlyCutOff;
    state.target = Some(1);
    let holds = |state: &model::State| valid(&Site::read(&with).unwrap(), state);
    assert!(holds(&state), "although the phase's time is 0");
    assert!(!valid(&Site::read(&without).unwrap(), &state));
    let next = step(&with, &state, 0, &mut [0; 3]).state;
    assert_eq!((next.interval, next.age), (Interval::Yellow, 1));
    for target in [None, Some(0), Some(2)] {
        assert!(!holds(&model::State { target, ..state }));
    }
}
