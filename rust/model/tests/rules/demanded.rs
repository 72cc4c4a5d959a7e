//! The demanded phases kept ready: request two of document 02.

use crate::trace::{button, detector, Run};
use generate::{valid_state, Plan, Rng};
use model::packed::{self, number};
use model::{fresh, layout, step, valid, Interval, Number, Site, Stage, State, TimedState};

/// Three phases with a vehicle group and a locking detector each, two movements
/// of B; a non-locking detector of C.
fn crossing() -> Plan {
    Plan {
        phases: vec![[0, 20, 30, 5, 30, 10]; 3],
        groups: vec![[1, 0], [2, 0], [4, 0], [2, 2], [2, 2]],
        conflicts: vec![0; 5],
        detectors: vec![[0, 6], [1, 2], [2, 2], [2, 1]],
        movements: vec![[10, 5, 7], [10, 5, 7]],
        ..Plan::junction()
    }
}

#[test]
fn locks_and_presses_are_kept_and_calls_without_lock_are_not() {
    let mut run = Run::new(&crossing());
    assert_eq!(run.state.demanded, 0);
    run.step(detector(3));
    assert_eq!(run.state.demanded, 0, "only in its step");
    run.step(detector(2));
    assert_eq!(run.state.demanded, 0b100);
    run.step(button(0));
    assert_eq!(run.state.demanded, 0b110);
}

#[test]
fn a_phase_is_kept_until_its_last_demand_is_met() {
    let mut run = Run::new(&crossing());
    run.step(detector(1) | button(0));
    run.until(70, |_| 0);
    assert_eq!(
        (run.state.interval, run.state.demanded),
        (Interval::AllRed, 0b010)
    );
    run.step(0);
    assert_eq!(
        (run.state.phase, run.state.interval),
        (1, Interval::MinimumGreen)
    );
    assert_eq!(run.state.demanded, 0, "lock and press are both met");
    run.step(button(1));
    assert_eq!(run.state.demanded, 0b010, "pressed too late for the start");
    run.until(90, |_| 0);
    assert_eq!(run.state.demanded, 0b010);
    run.step(0);
    assert_eq!(run.state.movements[1].stage, Stage::Walk);
    assert_eq!(run.state.demanded, 0);
}

#[test]
fn the_lock_is_met_and_the_press_is_not() {
    let mut run = Run::new(&crossing());
    run.until(70, |step| if step == 1 { detector(1) } else { 0 });
    // A press in the step that starts B is met by it, one in the next step is not.
    run.step(button(0));
    assert_eq!(
        (run.state.interval, run.state.demanded),
        (Interval::MinimumGreen, 0)
    );
    run.step(button(0) | button(1));
    assert_eq!(run.state.demands, 0b10, "the first movement walks");
    assert_eq!(run.state.demanded, 0b010);
}

/// Whether the fresh state with these locks, demands and kept phases is valid.
fn holds(locks: u8, demands: u8, demanded: u8) -> bool {
    let bytes = crossing().bytes();
    let state = State {
        locks,
        demands,
        demanded,
        ..fresh()
    };
    let is_valid = valid(&Site::read(&bytes).unwrap(), &state);
    let answer = step(&bytes, &state, 0, &mut [0; 5]).wait_bound;
    let refused = answer.is_err_and(|refusal| refusal.number == Number::InvalidState);
    assert_eq!(is_valid, !refused);
    is_valid
}

#[test]
fn a_kept_set_that_differs_from_the_scan_is_13() {
    assert!(holds(0, 0, 0));
    assert!(!holds(0, 0, 0b001));
    assert!(holds(0b101, 0, 0b101));
    assert!(!holds(0b101, 0, 0b001));
    assert!(!holds(0b101, 0, 0b111));
    for demands in 1..4 {
        assert!(holds(0, demands, 0b010));
        assert!(holds(0b010, demands, 0b010));
        assert!(!holds(0, demands, 0));
        assert!(!holds(0b100, demands, 0b100));
    }
}

#[test]
fn any_one_bit_turned_over_is_13_and_writes_nothing() {
    let mut rng = Rng::new(2);
    for _ in 0..200 {
        let bytes = Plan::random(&mut rng).bytes();
        let site = Site::read(&bytes).unwrap();
        let state = valid_state(&mut rng, &site);
        let state = TimedState::by_own_times(&site, state).to_bytes();
        let answer = |state: &mut [u8]| packed::step(&bytes, state, 0, &mut [0; 32]);
        assert_eq!(number(answer(&mut state.clone())), 0);
        for phase in 0..8 {
            let mut spoilt = state;
            spoilt[layout::DEMANDED] ^= 1 << phase;
            let handed = spoilt;
            assert_eq!(answer(&mut spoilt), 13, "phase {phase}");
            assert_eq!(spoilt, handed);
        }
    }
}

#[test]
fn a_walking_movement_is_no_demand() {
    let bytes = crossing().bytes();
    let site = Site::read(&bytes).unwrap();
    let mut state = fresh();
    state.phase = 1;
    state.interval = Interval::Running;
    state.movements[0] = model::MovementState::begin(Stage::Walk);
    assert!(valid(&site, &state));
    state.demanded = 0b010;
    assert!(!valid(&site, &state));
}
