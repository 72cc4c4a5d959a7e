//! Why a phase holds its green: request thirteen of document 02.

use crate::trace::{button, detector, once};
use generate::{known_inputs, valid_timed_state, Plan, Rng, MODES};
use model::packed::{self, number, rest};
use model::{
    fresh, layout, scan, step_timed, valid_timed, why, Interval, MovementState, Number, Reasons,
    Refusal, Site, Stage, State, TimedState, Times, LONGEST_LINE, STATE_LEN,
};
use std::collections::BTreeSet;

const SEED: u64 = 13;
const CANARY: u8 = 0xA5;

/// Two phases with the highest times: A has eight movements, and each phase a
/// detector of every mode.
fn crossings() -> Plan {
    let modes = MODES.into_iter();
    let pedestrians = std::iter::repeat_n([1, 2], 8);
    Plan {
        start_red: 150,
        phases: vec![[200, 400, 1500, 100, 100, 150]; 2],
        groups: [[1, 0], [2, 0]].into_iter().chain(pedestrians).collect(),
        conflicts: vec![0; 10],
        detectors: modes.flat_map(|mode| [[0, mode], [1, mode]]).collect(),
        movements: vec![[400; 3]; 8],
        ..Plan::junction()
    }
}

/// A state in running by the plan's own times, changed.
fn running(plan: &Plan, change: impl FnOnce(&mut State)) -> TimedState {
    let personality = plan.bytes();
    let site = Site::read(&personality).unwrap();
    let mut state = State {
        interval: Interval::Running,
        ..fresh()
    };
    change(&mut state);
    state.demanded = scan(&site, &state);
    let timed = TimedState::by_own_times(&site, state);
    assert!(valid_timed(&site, &timed));
    timed
}

/// The line of both calls, which agree with each other and with the call that gives
/// the reasons. Bytes behind the line stay, and a buffer one byte shorter is refused.
fn line(plan: &Plan, timed: &TimedState, inputs: u64) -> String {
    let (personality, state) = (plan.bytes(), timed.to_bytes());
    let mut buffer = [CANARY; LONGEST_LINE + 3];
    let answer = packed::why(&personality, &state, inputs, &mut buffer);
    assert_eq!(packed::why_length(&personality, &state, inputs), answer);
    assert_eq!(number(answer), 0);
    let (line, behind) = buffer.split_at(rest(answer) as usize);
    assert!(behind.iter().all(|&byte| byte == CANARY));
    let mut exact = vec![CANARY; line.len()];
    assert_eq!(
        packed::why(&personality, &state, inputs, &mut exact),
        answer
    );
    assert_eq!(exact, line);
    if let Some((_, short)) = exact.split_first_mut() {
        short.fill(CANARY);
        assert_eq!(packed::why(&personality, &state, inputs, short), 14);
        assert!(short.iter().all(|&byte| byte == CANARY));
    }
    let reasons = why(&personality, timed, inputs).unwrap();
    let text = reasons.map_or(String::new(), |reasons| reasons.to_string());
    assert_eq!(text.as_bytes(), line);
    text
}

/// The lines after each step of a run, by the inputs of the step.
fn lines(plan: &Plan, steps: u32, inputs: impl Fn(u32) -> u64) -> Vec<String> {
    let personality = plan.bytes();
    let mut timed = TimedState::fresh(&Site::read(&personality).unwrap());
    let told = (1..=steps).map(|step| {
        let answer = step_timed(&personality, &timed, inputs(step), &mut [0; 32]);
        assert!(answer.wait_bound.is_ok());
        timed = answer.state;
        line(plan, &timed, inputs(step))
    });
    told.collect()
}

#[test]
fn the_junction_rests() {
    let told = lines(&Plan::junction(), 40, |_| 0);
    assert!(told[..29].iter().all(String::is_empty));
    for line in &told[29..] {
        assert_eq!(line, "A holds, no other demand, max 30");
    }
}

#[test]
fn the_junction_is_called() {
    let told = lines(&Plan::junction(), 91, once(12, detector(1)));
    assert_eq!(told[29], "A holds, max 30");
    assert!(told[30..90].iter().all(String::is_empty));
    assert_eq!(told[90], "B holds, no other demand, max 30");
}

#[test]
fn the_junction_is_held_to_its_maximum() {
    let inputs = |step| detector(0) | once(12, detector(1))(step);
    let told = lines(&Plan::junction(), 120, inputs);
    for (index, left) in (1..=30).rev().enumerate() {
        assert_eq!(told[29 + index], format!("A holds, gap 5, max {left}"));
    }
    assert!(told[59..119].iter().all(String::is_empty));
    // A was locked again in its yellow.
    assert_eq!(told[119], "B holds, max 30");
}

#[test]
fn the_gap_runs_down() {
    let told = lines(&Plan::junction(), 46, |step| u64::from(step <= 40));
    for (step, gap) in (40..=44).zip((1..=5).rev()) {
        let expected = format!("A holds, no other demand, gap {gap}, max 30");
        assert_eq!(told[step - 1], expected);
    }
    assert_eq!(told[44], "A holds, no other demand, max 30");
}

#[test]
fn every_reason_at_once_and_none() {
    let plan = crossings();
    let longest = running(&plan, |state| {
        state.gap_count = 100;
        state.movements = [MovementState::begin(Stage::Walk); 8];
    });
    let told = line(&plan, &longest, 0);
    assert_eq!(
        told,
        "A holds, no other demand, gap 100, max 1500, walk 1, walk 2, walk 3, walk 4, walk 5, \
         walk 6, walk 7, walk 8"
    );
    assert_eq!(told.len(), LONGEST_LINE);
    let shortest = running(&plan, |state| {
        state.locks = 0b10;
        state.maximum_count = 1500;
    });
    assert_eq!(line(&plan, &shortest, 0), "A holds");
}

#[test]
fn every_letter() {
    let plan = Plan::largest();
    for (phase, letter) in (0..).zip(["A", "B", "C", "D", "E", "F", "G"]) {
        let state = running(&plan, |state| state.phase = phase);
        let expected = format!("{letter} holds, no other demand, max 300");
        assert_eq!(line(&plan, &state, 0), expected);
    }
}

#[test]
fn no_line_outside_running() {
    let plan = Plan {
        early_cut_offs: Some(vec![20, 20]),
        ..crossings()
    };
    let (personality, mut told) = (plan.bytes(), 0);
    for interval in Interval::ALL {
        let state = running(&plan, |state| {
            state.interval = interval;
            state.gap_count = 5;
            state.target = interval.is_clearing().then_some(1);
        });
        let bytes = state.to_bytes();
        let told_here = line(&plan, &state, 0);
        if interval == Interval::Running {
            told += 1;
            assert_eq!(told_here, "A holds, no other demand, gap 5, max 1500");
            assert_eq!(packed::why(&personality, &bytes, 0, &mut []), 14);
        } else {
            assert_eq!(told_here, "");
            assert_eq!(packed::why(&personality, &bytes, 0, &mut []), 0);
        }
    }
    assert_eq!(told, 1);
}

#[test]
fn the_steps_left_are_told_before_the_count_begins_and_not_at_its_end() {
    let plan = Plan::junction();
    let told = |count| {
        let state = running(&plan, |state| state.maximum_count = count);
        line(&plan, &state, 0)
    };
    assert_eq!(told(0), "A holds, no other demand, max 30");
    assert_eq!(told(1), "A holds, no other demand, max 29");
    assert_eq!(told(29), "A holds, no other demand, max 1");
    assert_eq!(told(30), "A holds, no other demand");
}

#[test]
fn counts_of_every_length() {
    let plan = crossings();
    for gap in 0..=100 {
        for left in [0, 1, 9, 10, 99, 100, 101, 999, 1000, 1500] {
            let state = running(&plan, |state| {
                state.gap_count = gap;
                state.maximum_count = 1500 - left;
                state.locks = 0b10;
            });
            let mut expected = "A holds".to_string();
            if gap > 0 {
                expected += &format!(", gap {gap}");
            }
            if left > 0 {
                expected += &format!(", max {left}");
            }
            assert_eq!(line(&plan, &state, 0), expected);
        }
    }
}

#[test]
fn movements_in_walk_or_their_first_clearance() {
    let plan = crossings();
    let stages = [
        Stage::Idle,
        Stage::ClearanceOne,
        Stage::ClearanceTwo,
        Stage::Walk,
        Stage::Idle,
        Stage::Walk,
        Stage::ClearanceTwo,
        Stage::ClearanceOne,
    ];
    let state = running(&plan, |state| {
        state.movements = stages.map(MovementState::begin);
        state.maximum_count = 1500;
        state.locks = 0b10;
    });
    let told = line(&plan, &state, 0);
    assert_eq!(told, "A holds, walk 2, walk 4, walk 6, walk 8");
}

#[test]
fn what_stands_for_another_phase() {
    let plan = Plan {
        groups: vec![[1, 0], [2, 0], [1, 2], [2, 2]],
        conflicts: vec![0; 4],
        movements: vec![[10, 5, 7]; 2],
        ..Plan::junction()
    };
    let alone = |locks, demands| {
        let state = running(&plan, |state| {
            (state.locks, state.demands) = (locks, demands);
            state.maximum_count = 30;
        });
        match line(&plan, &state, 0).as_str() {
            "A holds, no other demand" => true,
            "A holds" => false,
            line => panic!("{line}"),
        }
    };
    assert!(alone(0, 0));
    // A demand of the running phase itself is no other one.
    assert!(alone(0b01, 0b01));
    assert!(!alone(0b10, 0));
    assert!(!alone(0, 0b10));
    assert!(!alone(0b11, 0b11));
}

#[test]
fn of_the_inputs_the_non_locking_calls_only() {
    let plan = crossings();
    let state = running(&plan, |state| state.maximum_count = 1500);
    let alone = |inputs| line(&plan, &state, inputs) == "A holds, no other demand";
    for (index, [phase, mode]) in (0..).zip(&plan.detectors) {
        let calls = *phase == 1 && [1, 5].contains(mode);
        assert_eq!(alone(detector(index)), !calls, "phase {phase}, mode {mode}");
    }
    for movement in 0..8 {
        assert!(alone(button(movement)));
    }
    let site = plan.bytes();
    let all = Site::read(&site).unwrap().known_inputs();
    assert!(!alone(all));
    // Without the two non-locking detectors of B.
    assert!(alone(all & !(detector(3) | detector(9))));
}

#[test]
fn the_steps_left_go_by_the_times_that_rule() {
    let plan = Plan::junction();
    let with_maximum = |maximum| {
        let mut plan = Plan::junction();
        plan.phases[0][2] = maximum;
        Times::of(&Site::read(&plan.bytes()).unwrap())
    };
    let mut timed = running(&plan, |state| state.maximum_count = 7);
    timed.waiting = Some(with_maximum(1000));
    assert_eq!(line(&plan, &timed, 0), "A holds, no other demand, max 23");
    timed.ruling = with_maximum(400);
    assert_eq!(line(&plan, &timed, 0), "A holds, no other demand, max 393");
}

#[test]
fn personality_then_state_then_inputs_then_buffer() {
    let (good, mut bad) = (Plan::junction(), Plan::junction());
    bad.phases[0][4] = 29;
    let (good, bad) = (good.bytes(), bad.bytes());
    let state = running(&Plan::junction(), |_| {}).to_bytes();
    let mut wrong = state;
    wrong[layout::AGE] = 0;
    let both = |personality: &[u8], state: &[u8], inputs: u64, room: usize| {
        let mut buffer = vec![CANARY; room];
        let written = packed::why(personality, state, inputs, &mut buffer);
        assert!(number(written) == 0 || buffer.iter().all(|&byte| byte == CANARY));
        (packed::why_length(personality, state, inputs), written)
    };
    let same = |answer: u64| (answer, answer);
    assert_eq!(both(&bad, &wrong, 4, 0), same(20 << 8 | 5));
    assert_eq!(both(&[], &[], 4, 0), same(1));
    assert_eq!(both(&good, &wrong, 4, 0), same(13));
    assert_eq!(both(&good, &state[1..], 4, 0), same(13));
    assert_eq!(both(&good, &[], 4, 0), same(13));
    assert_eq!(both(&good, &[[0; STATE_LEN]; 2].concat(), 4, 0), same(13));
    assert_eq!(both(&good, &state, 4, 0), same(15));
    assert_eq!(both(&good, &state, 1 << 63, 40), same(15));
    // 32 bytes; the call for the length has no buffer that could be short.
    assert_eq!(both(&good, &state, 0, 31), (32 << 8, 14));
    assert_eq!(both(&good, &state, 0, 32), same(32 << 8));
    let refusal = Refusal {
        number: Number::UnknownInput,
        place: 0,
    };
    let timed = TimedState::from_bytes(&state).unwrap();
    assert_eq!(why(&good, &timed, 4), Err(refusal));
}

#[test]
fn every_wrong_is_refused_as_in_a_step() {
    let mut rng = Rng::new(SEED);
    for _ in 0..300 {
        let personality = Plan::random(&mut rng).bytes();
        let site = Site::read(&personality).unwrap();
        for _ in 0..20 {
            let mut state = valid_timed_state(&mut rng, &personality, &site).to_bytes();
            state[rng.below(STATE_LEN)] ^= rng.pick(&[0, 0, 1, 2, 128]);
            let stray = 1 << rng.below(64);
            let inputs = known_inputs(&mut rng, &site) | rng.pick(&[0, 0, 0, stray]);
            let mut after = state;
            let step = packed::step(&personality, &mut after, inputs, &mut [0; 32]);
            let length = packed::why_length(&personality, &state, inputs);
            match number(step) {
                0 => assert_eq!(number(length), 0),
                _ => assert_eq!(length, step),
            }
        }
    }
}

/// The line of these reasons.
fn told(reasons: &Reasons) -> String {
    let line = reasons.to_string();
    assert_eq!(reasons.length(), line.len());
    line
}

#[test]
fn different_reasons_never_read_alike() {
    let mut lines = BTreeSet::new();
    let mut lists = 0;
    for phase in 0..7 {
        for no_other_demand in [false, true] {
            for gap in [0, 1, 2, 9, 10, 11, 12, 99, 100] {
                for steps_left in [0, 1, 2, 9, 10, 11, 12, 99, 100, 999, 1000, 1001, 1500] {
                    for walks in [0, 1, 2, 3, 4, 0x0F, 0x80, 0x81, 0xFE, 0xFF] {
                        lists += 1;
                        lines.insert(told(&Reasons {
                            phase,
                            no_other_demand,
                            gap,
                            steps_left,
                            walks,
                        }));
                    }
                }
            }
        }
    }
    assert_eq!(lines.len(), lists);
    assert!(lines.iter().all(|line| line.len() <= LONGEST_LINE));
}

#[test]
fn a_line_from_any_valid_state_says_what_is_true() {
    let mut rng = Rng::new(SEED);
    let mut seen = BTreeSet::new();
    for _ in 0..300 {
        let plan = Plan::random(&mut rng);
        let personality = plan.bytes();
        let site = Site::read(&personality).unwrap();
        for _ in 0..20 {
            let mut timed = valid_timed_state(&mut rng, &personality, &site);
            if timed.state.interval.is_green() {
                timed.state.interval = Interval::Running;
            }
            let inputs = known_inputs(&mut rng, &site);
            let said = line(&plan, &timed, inputs);
            if timed.state.interval != Interval::Running {
                assert_eq!(said, "");
                continue;
            }
            let state = &timed.state;
            let calls = (0..site.detector_count())
                .filter(|index| inputs >> index & 1 != 0)
                .map(|index| site.detector(index))
                .any(|one| one.calls() && one.phase != state.phase);
            let other = state.demanded & !(1 << state.phase) != 0 || calls;
            assert_eq!(said.contains(", no other demand"), !other);
            assert_eq!(said.contains(", gap"), state.gap_count > 0);
            let maximum = site.with_times(&timed.ruling).phase(state.phase);
            let reached = state.maximum_count == maximum.maximum_green;
            assert_eq!(said.contains(", max"), !reached);
            for (index, movement) in (1..).zip(&state.movements) {
                let walks = matches!(movement.stage, Stage::Walk | Stage::ClearanceOne);
                assert_eq!(said.contains(&format!(", walk {index}")), walks);
            }
            seen.insert((other, state.gap_count > 0, reached));
        }
    }
    assert_eq!(seen.len(), 8);
}
