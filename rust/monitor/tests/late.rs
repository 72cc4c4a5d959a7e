//! A demand that is served one step too late, at a site with a long wait bound: longer than most
//! runs are.

use drive::follow;
use generate::Plan;
use model::packed::{self, number};
use model::{layout, FIRST_BUTTON};
use monitor::{Breach, Monitor};
use std::cell::Cell;
use variant::{AsBoard, Variant};

/// Three phases with a locking detector and a crossing each, and the longest times that there
/// are.
fn patient() -> Plan {
    Plan {
        start_red: 150,
        phases: vec![[200, 400, 1_500, 100, 100, 150]; 3],
        groups: vec![[1, 0], [2, 0], [4, 0], [1, 2], [2, 2], [4, 2]],
        conflicts: vec![0; 6],
        detectors: vec![[0, 6], [1, 6], [2, 6]],
        movements: vec![[400, 400, 400]; 3],
        early_cut_offs: Some(vec![200; 3]),
        ..Plan::junction()
    }
}

/// The wait bound, and the wait of phase B: its late start, 450 to leave a phase, and two turns
/// of 2,101 + 400 + 450 steps.
const BOUND: u64 = 150 + 3 * (2_100 + 2 * (800 + 450 + 400));
const WAIT_B: u64 = 200 + 450 + 2 * 2_951;

/// The inputs that lock B, and that press the button of its movement.
const LOCK_B: u64 = 1 << 1;
const PRESS_B: u64 = 1 << (FIRST_BUTTON + 1);

/// Phase A rests in running.
const REGISTERED: u64 = 1_000;

/// The model, but it overlooks the demands of B for so many steps: it steps as if they were not
/// there, and keeps them.
struct Late {
    overlooked: u64,
    steps: Cell<u64>,
}

impl Variant for Late {
    fn step(&self, personality: &[u8], state: &mut [u8], inputs: u64, colours: &mut [u8]) -> u64 {
        let step = self.steps.get() + 1;
        self.steps.set(step);
        if step < REGISTERED || step >= REGISTERED + self.overlooked {
            return packed::step(personality, state, inputs, colours);
        }
        let kept = [layout::LOCKS, layout::DEMANDS, layout::DEMANDED].map(|at| {
            let byte = state[at];
            state[at] = 0;
            (at, byte)
        });
        let answer = packed::step(personality, state, 0, colours);
        assert_eq!(number(answer), 0);
        for (at, byte) in kept {
            state[at] = byte;
        }
        let registers = |input: u64, at: usize| u8::from(inputs & input != 0 || kept_in(kept, at));
        let lock = registers(LOCK_B, layout::LOCKS);
        let press = registers(PRESS_B, layout::DEMANDS);
        state[layout::LOCKS] = lock << 1;
        state[layout::DEMANDS] = press << 1;
        state[layout::DEMANDED] = (lock | press) << 1;
        answer
    }
}

fn kept_in(kept: [(usize, u8); 3], at: usize) -> bool {
    kept.iter().any(|&(place, byte)| place == at && byte != 0)
}

/// A demand of step 1,000 that is overlooked for so many steps.
fn watched(monitor: fn(&[u8]) -> Monitor, demand: u64, overlooked: u64) -> Result<Monitor, Breach> {
    let personality = patient().bytes();
    let board = AsBoard(Late {
        overlooked,
        steps: Cell::new(0),
    });
    let inputs = |step, _: &_| u64::from(step == REGISTERED) * demand;
    let monitor = monitor(&personality);
    follow(monitor, &board, &personality, 2 * BOUND, inputs)
}

/// The demand is met so many steps after it was registered if it is overlooked that much longer.
fn overlooked_until(monitor: fn(&[u8]) -> Monitor, demand: u64, met: u64) -> u64 {
    let at_once = watched(monitor, demand, 0).unwrap();
    assert_eq!((at_once.bound(), at_once.met()), (BOUND, 1));
    assert_eq!(at_once.waits()[1], WAIT_B);
    met - at_once.longest_wait()
}

#[test]
fn one_step_past_the_wait_bound() {
    let monitor = Monitor::of_the_wait_bound;
    for (demand, breach) in [
        (
            LOCK_B,
            Breach::LockUnmet {
                step: REGISTERED + BOUND,
                phase: 1,
                registered: REGISTERED,
            },
        ),
        (
            PRESS_B,
            Breach::PressUnmet {
                step: REGISTERED + BOUND,
                movement: 1,
                registered: REGISTERED,
            },
        ),
    ] {
        let overlooked = overlooked_until(monitor, demand, BOUND);
        let just = watched(monitor, demand, overlooked).unwrap();
        assert_eq!((just.met(), just.longest_wait()), (1, BOUND));
        let late = watched(monitor, demand, overlooked + 1);
        assert_eq!(late.expect_err("nothing is noticed"), breach);
    }
}

#[test]
fn one_step_past_the_own_wait() {
    // It is met in fewer steps than its wait.
    let overlooked = overlooked_until(Monitor::new, LOCK_B, WAIT_B - 1);
    let just = watched(Monitor::new, LOCK_B, overlooked).unwrap();
    assert_eq!(just.nearest_own_wait(), (WAIT_B - 1, WAIT_B));
    let late = watched(Monitor::new, LOCK_B, overlooked + 1);
    assert_eq!(
        late.expect_err("nothing is noticed"),
        Breach::PhaseWaits {
            step: REGISTERED + WAIT_B,
            phase: 1,
            registered: REGISTERED,
            wait: WAIT_B,
        }
    );
}
