//! Which states are valid, and what a step makes of odd ones.

use generate::Plan;
use model::{
    fresh, scan, step, valid, Interval, MovementState, Number, Site, Stage, State, MAX_AGE,
};

/// Two phases with a vehicle group and a pedestrian group each.
fn crossing() -> Plan {
    Plan {
        groups: vec![[1, 0], [2, 0], [1, 2], [2, 2]],
        conflicts: vec![0; 4],
        movements: vec![[10, 5, 7], [10, 5, 7]],
        ..Plan::junction()
    }
}

/// Whether the fresh state, changed, is valid. Its demanded phases are kept.
fn holds(change: impl FnOnce(&mut State)) -> bool {
    let bytes = crossing().bytes();
    let site = Site::read(&bytes).unwrap();
    let mut state = fresh();
    change(&mut state);
    state.demanded = scan(&site, &state);
    valid(&site, &state)
}

fn in_stage(stage: Stage, age: u16) -> MovementState {
    MovementState { stage, age }
}

#[test]
fn odd_but_valid() {
    assert!(holds(|_| {}));
    assert!(holds(|state| state.phase = 1), "start red of B");
    assert!(holds(|state| state.came_from = Some(0)), "came from itself");
    assert!(holds(|state| state.age = MAX_AGE));
    assert!(holds(
        |state| (state.gap_count, state.maximum_count) = (5, 30)
    ));
    assert!(holds(|state| (state.locks, state.demands) = (0b11, 0b11)));
    assert!(
        holds(|state| state.interval = Interval::LateStart),
        "L is 0"
    );
    assert!(holds(|state| {
        state.interval = Interval::Running;
        state.locks = 1;
        state.demands = 1;
        state.movements[0] = in_stage(Stage::Walk, MAX_AGE);
    }));
    assert!(holds(|state| {
        state.interval = Interval::AllRed;
        state.target = Some(1);
        state.movements[0] = in_stage(Stage::ClearanceTwo, 400);
    }));
}

#[test]
fn phases_beyond() {
    assert!(!holds(|state| state.phase = 2));
    assert!(!holds(|state| state.came_from = Some(2)));
    assert!(!holds(|state| state.locks = 0b100));
    assert!(!holds(|state| state.locks = 0b1000_0000));
    assert!(!holds(|state| {
        state.interval = Interval::Yellow;
        state.target = Some(2);
    }));
}

#[test]
fn targets() {
    for interval in Interval::ALL {
        if interval == Interval::EarlyCutOff {
            continue; // not valid here: the site has no early cut-off times
        }
        let clearing = matches!(interval, Interval::Yellow | Interval::AllRed);
        let with = |target| {
            holds(|state| {
                state.interval = interval;
                state.target = target;
            })
        };
        assert_eq!(with(Some(1)), clearing, "{interval:?}");
        assert_eq!(with(None), !clearing, "{interval:?}");
        assert!(!with(Some(0)), "{interval:?}");
    }
}

#[test]
fn ages_and_counts() {
    assert!(!holds(|state| state.age = 0));
    assert!(!holds(|state| state.age = MAX_AGE + 1));
    assert!(!holds(|state| state.gap_count = 6));
    assert!(!holds(|state| state.maximum_count = 31));
}

#[test]
fn movements() {
    let running = |movement: usize, is: MovementState| {
        holds(|state| {
            state.interval = Interval::Running;
            state.movements[movement] = is;
        })
    };
    for stage in [Stage::Walk, Stage::ClearanceOne, Stage::ClearanceTwo] {
        assert!(running(0, in_stage(stage, 1)));
        assert!(!running(0, in_stage(stage, 0)));
        assert!(!running(0, in_stage(stage, MAX_AGE + 1)));
        assert!(!running(1, in_stage(stage, 1)), "of another phase");
        assert!(!running(2, in_stage(stage, 1)), "beyond");
        assert!(
            !holds(|state| state.movements[0] = in_stage(stage, 1)),
            "in start red"
        );
    }
    for movement in 0..8 {
        assert!(!running(movement, in_stage(Stage::Idle, 2)));
        assert!(!running(movement, in_stage(Stage::Idle, 0)));
    }
    assert!(!holds(|state| state.demands = 0b100));
}

#[test]
fn no_walk_or_first_clearance_in_yellow_and_all_red() {
    for interval in [Interval::Yellow, Interval::AllRed] {
        for (stage, fits) in [
            (Stage::Walk, false),
            (Stage::ClearanceOne, false),
            (Stage::ClearanceTwo, true),
        ] {
            let is_valid = holds(|state| {
                state.interval = interval;
                state.target = Some(1);
                state.movements[0] = in_stage(stage, 1);
            });
            assert_eq!(is_valid, fits);
        }
    }
}

/// The state after one step without inputs.
fn next(change: impl FnOnce(&mut State)) -> State {
    let bytes = crossing().bytes();
    let mut state = fresh();
    change(&mut state);
    state.demanded = scan(&Site::read(&bytes).unwrap(), &state);
    let answer = step(&bytes, &state, 0, &mut [0; 4]);
    assert_eq!(answer.wait_bound, Ok(10 + 2 * (50 + 2 * (15 + 40 + 7))));
    answer.state
}

#[test]
fn after_start_red_came_from_and_the_maximum_count_stay() {
    let state = next(|state| {
        state.phase = 1;
        state.age = 10;
        state.came_from = Some(0);
        state.maximum_count = 12;
        state.locks = 0b11;
    });
    assert_eq!((state.phase, state.interval), (1, Interval::MinimumGreen));
    assert_eq!((state.came_from, state.maximum_count), (Some(0), 12));
    assert_eq!((state.locks, state.gap_count), (0b01, 5));
}

#[test]
fn late_start_without_a_setting_ends_at_once() {
    let state = next(|state| state.interval = Interval::LateStart);
    assert_eq!((state.interval, state.age), (Interval::MinimumGreen, 1));
}

#[test]
fn a_stage_older_than_its_setting_ends_once() {
    let walking = |locks| {
        next(|state| {
            state.interval = Interval::Running;
            state.locks = locks;
            state.movements[0] = in_stage(Stage::Walk, MAX_AGE);
        })
        .movements[0]
    };
    assert_eq!(walking(0b10), in_stage(Stage::ClearanceOne, 1));
    assert_eq!(walking(0b00), in_stage(Stage::Walk, MAX_AGE), "it rests");
}

#[test]
fn a_demand_of_a_movement_in_walk_waits() {
    let state = next(|state| {
        state.interval = Interval::Running;
        state.demands = 1;
        state.movements[0] = in_stage(Stage::Walk, 3);
    });
    assert_eq!(state.movements[0], in_stage(Stage::Walk, 4));
    assert_eq!(state.demands, 1);
}

#[test]
fn a_lock_of_the_running_phase_is_no_other_demand() {
    let state = next(|state| {
        state.interval = Interval::Running;
        state.locks = 1;
    });
    assert_eq!(
        (state.interval, state.maximum_count),
        (Interval::Running, 0)
    );
    assert_eq!(state.locks, 1);
}

#[test]
fn counts_stand_still_outside_the_green() {
    let state = next(|state| {
        state.interval = Interval::Yellow;
        state.target = Some(1);
        state.gap_count = 4;
        state.maximum_count = 9;
    });
    assert_eq!((state.gap_count, state.maximum_count), (4, 9));
}

#[test]
fn the_maximum_count_of_a_state_runs_without_a_demand() {
    let state = next(|state| {
        state.interval = Interval::Running;
        state.maximum_count = 9;
    });
    assert_eq!(state.maximum_count, 10);
    let entering = next(|state| {
        state.interval = Interval::MinimumGreen;
        state.age = 20;
        state.maximum_count = 9;
    });
    assert_eq!(
        (entering.interval, entering.maximum_count),
        (Interval::Running, 0)
    );
}

#[test]
fn an_invalid_state_is_13_at_0() {
    let mut state = fresh();
    state.age = 0;
    let answer = step(&crossing().bytes(), &state, 0, &mut [0; 4]);
    let refusal = answer.wait_bound.unwrap_err();
    assert_eq!((refusal.number, refusal.place), (Number::InvalidState, 0));
    assert_eq!(answer.state, state);
}
