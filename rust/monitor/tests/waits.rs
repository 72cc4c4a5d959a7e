//! The wait of each phase and each movement: what the monitor finds by them, and what the
//! wait bound of the site alone does not show.

use drive::{follow, watch, Among, Driver, Strategy};
use generate::{Plan, Rng};
use model::packed::{self, number, Board, Model};
use model::{Interval, Site, TimedState, FIRST_BUTTON};
use monitor::{Breach, Monitor};
use variant::{AsBoard, Variant};

// The site is `Plan::long_clearance`. Its wait bound is 920, and the wait of its crossing 400.
const BUTTON: u64 = 1 << FIRST_BUTTON;
const EXTEND_A: u64 = 1 << 0;
const CALL_B: u64 = 1 << 1;

/// Steps of a board from the fresh state under a monitor. The inputs of a step are chosen
/// by its number and by the state before it. Gives the breach, if there is one.
fn run(
    board: &dyn Board,
    plan: &Plan,
    monitor: Monitor,
    steps: u64,
    inputs: impl FnMut(u64, &TimedState) -> u64,
) -> Result<Monitor, Breach> {
    follow(monitor, board, &plan.bytes(), steps, inputs)
}

fn monitor_of(plan: &Plan, monitor: fn(&[u8]) -> Monitor) -> Monitor {
    monitor(&plan.bytes())
}

/// The model, but the maximum count goes back to 0 in running when no other phase is
/// demanded any more.
struct SetBack;

impl Variant for SetBack {
    fn step(&self, personality: &[u8], state: &mut [u8], inputs: u64, colours: &mut [u8]) -> u64 {
        let site = Site::read(personality).unwrap();
        let answer = packed::step(personality, state, inputs, colours);
        if number(answer) != 0 {
            return answer;
        }
        let mut timed = TimedState::from_bytes(state).unwrap();
        let called = (0..site.detector_count()).any(|index| {
            let detector = site.detector(index);
            inputs >> index & 1 != 0 && detector.calls() && detector.phase != timed.state.phase
        });
        let others = timed.state.demanded & !(1 << timed.state.phase) != 0;
        if timed.state.interval == Interval::Running && !called && !others {
            timed.state.maximum_count = 0;
            state.copy_from_slice(&timed.to_bytes());
        }
        answer
    }
}

/// Presses the button, lets the walk end by one call of B, presses again when the first
/// clearance begins, and extends A always. B is called again in the last step of the second
/// clearance and from then on, so that A goes on to its maximum if that has been set back.
fn hold_a(step: u64, before: &TimedState) -> u64 {
    let movement = before.state.movements[0];
    let press = match (step, movement.stage as u8, movement.age) {
        // Registered while start red lasts: the walk begins with A.
        (1, _, _) => BUTTON,
        (_, 2, 1) => BUTTON,
        _ => 0,
    };
    let call = match (movement.stage as u8, movement.age) {
        (1, 10..) => CALL_B,
        (3, 100) => CALL_B,
        (0, _) if step > 200 => CALL_B,
        _ => 0,
    };
    press | call | EXTEND_A
}

#[test]
fn a_maximum_count_that_is_set_back() {
    let plan = Plan::long_clearance();
    let right = run(
        &Model,
        &plan,
        monitor_of(&plan, Monitor::new),
        2_000,
        hold_a,
    );
    assert_eq!(right.unwrap().nearest_own_wait(), (390, 400));
    let wrong = AsBoard(SetBack);
    let found = run(
        &wrong,
        &plan,
        monitor_of(&plan, Monitor::new),
        2_000,
        hold_a,
    );
    let found = found.expect_err("the monitor notices nothing");
    assert!(
        matches!(
            found,
            Breach::WalkWaits {
                movement: 0,
                wait: 400,
                ..
            }
        ),
        "{found}"
    );
    // The wait bound of the site is not broken.
    let monitor = monitor_of(&plan, Monitor::of_the_wait_bound);
    let unseen = run(&wrong, &plan, monitor, 2_000, hold_a).unwrap();
    assert_eq!(unseen.nearest_wait(), (489, 920));
}

#[test]
fn drivers_find_it_by_themselves() {
    let personality = Plan::long_clearance().bytes();
    let site = Site::read(&personality).unwrap();
    let board = AsBoard(SetBack);
    let found = (0..8).find_map(|seed| {
        let mut driver = Driver::new(Strategy::Bursts, &site, Rng::new(seed));
        let mut rng = Rng::new(!seed);
        let among = Among::Nothing;
        let watched = watch(among, &board, &personality, &mut driver, &mut rng, 40_000);
        watched.unwrap().err()
    });
    let found = found.expect("the monitor notices nothing");
    assert!(matches!(found, Breach::WalkWaits { .. }), "{found}");
}

/// The model, but it sees no detector and no button.
struct Blind;

impl Variant for Blind {
    fn step(&self, personality: &[u8], state: &mut [u8], _: u64, colours: &mut [u8]) -> u64 {
        packed::step(personality, state, 0, colours)
    }
}

/// The breach of a blind board by inputs that depend on the step alone, if there is one.
fn blind(monitor: fn(&[u8]) -> Monitor, plan: &Plan, inputs: fn(u64) -> u64) -> Option<Breach> {
    let monitor = monitor_of(plan, monitor);
    run(&AsBoard(Blind), plan, monitor, 2_000, |step, _| {
        inputs(step)
    })
    .err()
}

#[test]
fn a_call_that_is_held_is_promised_its_green() {
    let found = |inputs| blind(Monitor::new, &Plan::long_clearance(), inputs);
    let late = |registered| {
        Some(Breach::PhaseWaits {
            step: registered + 451,
            phase: 1,
            registered,
            wait: 451,
        })
    };
    assert_eq!(found(|_| CALL_B), late(1));
    // Absent in one step: it begins again.
    assert_eq!(found(|step| u64::from(step != 400) * CALL_B), late(401));
    // Absent now and then: nothing is promised.
    assert_eq!(
        found(|step| u64::from(!step.is_multiple_of(400)) * CALL_B),
        None
    );
}

#[test]
fn what_each_mode_of_a_detector_demands() {
    let (registered, wait) = (1, 451);
    let late = Breach::PhaseWaits {
        step: registered + wait,
        phase: 1,
        registered,
        wait,
    };
    for (mode, held, once) in [
        (0, false, false),
        (1, true, false),
        (2, true, true),
        (4, false, false),
        (5, true, false),
        (6, true, true),
    ] {
        let mut plan = Plan::long_clearance();
        // Another detector calls B, so that the personality is accepted.
        plan.detectors.push(plan.detectors[1]);
        plan.detectors[1][1] = mode;
        let found = |inputs| blind(Monitor::new, &plan, inputs);
        let expected = |demands: bool| demands.then(|| late.clone());
        assert_eq!(found(|_| CALL_B), expected(held), "mode {mode}");
        let at_once = found(|step| u64::from(step == 1) * CALL_B);
        assert_eq!(at_once, expected(once), "mode {mode}");
    }
}

#[test]
fn calls_and_locks_by_turns_are_one_demand() {
    let mut plan = Plan::long_clearance();
    plan.detectors.push([1, 2]);
    // A call to step 100, then a lock that stays.
    let found = blind(Monitor::new, &plan, |step| match step {
        1..100 => CALL_B,
        100 => 1 << 2,
        _ => 0,
    });
    let (registered, wait) = (1, 451);
    let step = registered + wait;
    assert_eq!(
        found,
        Some(Breach::PhaseWaits {
            step,
            phase: 1,
            registered,
            wait
        })
    );
}

#[test]
fn a_button_is_promised_its_walk() {
    let press = |step| u64::from(step == 5) * BUTTON;
    let found = blind(Monitor::new, &Plan::long_clearance(), press);
    let late = Breach::WalkWaits {
        step: 405,
        movement: 0,
        registered: 5,
        wait: 400,
    };
    assert_eq!(found, Some(late));
}

#[test]
fn the_wait_bound_is_watched_too() {
    let mut plan = Plan::long_clearance();
    plan.detectors[1][1] = 2;
    let found = |inputs| blind(Monitor::of_the_wait_bound, &plan, inputs);
    let (registered, step) = (5, 925);
    let lock = Breach::LockUnmet {
        step,
        phase: 1,
        registered,
    };
    assert_eq!(found(|step| u64::from(step == 5) * CALL_B), Some(lock));
    let press = Breach::PressUnmet {
        step,
        movement: 0,
        registered,
    };
    assert_eq!(found(|step| u64::from(step == 5) * BUTTON), Some(press));
}
