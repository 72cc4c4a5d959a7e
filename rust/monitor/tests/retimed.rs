//! Runs with retimings among the calls: the model without a breach, controllers that
//! handle new times wrongly, and the waits that changes allow.

mod runs;

use drive::{Among, Strategy};
use generate::{Pace, Plan, Rng, Shape};
use model::packed::{self, number, Model};
use model::{Interval, Number, Site, State, TimedState, Times};
use monitor::{Breach, Monitor, Seen};
use runs::{find_breach, first_breach, watched};
use variant::{AsBoard, Variant};

/// A site with short times, so that a run sees many changes.
fn quick_site(rng: &mut Rng) -> Plan {
    let shape = Shape {
        pace: Pace::Short,
        ..Shape::random(rng)
    };
    Plan::of_shape(rng, shape)
}

#[test]
fn the_model_breaks_nothing() {
    let mut rng = Rng::new(12);
    let mut retimings = 0;
    let mut changes = 0;
    let mut met = 0;
    let mut nearest = 0.0_f64;
    let part = |(waited, wait): (u64, u64)| waited as f64 / wait as f64;
    for seed in 0..150 {
        let plan = match seed {
            0 => Plan::junction(),
            1 => Plan::largest(),
            _ if seed % 2 == 0 => quick_site(&mut rng),
            _ => Plan::random(&mut rng),
        };
        for strategy in Strategy::ALL {
            let report = watched(Among::Retimings, &Model, &plan, strategy, seed, 1_000)
                .unwrap_or_else(|breach| panic!("{strategy:?}, seed {seed}: {breach}\n{plan:?}"));
            retimings += report.retimings;
            changes += report.changes;
            met += report.demands_met;
            nearest = nearest.max(part(report.nearest_own_wait));
        }
    }
    let counts = [retimings, changes, met];
    let least = [5_000, 2_000, 5_000];
    assert!(
        counts
            .iter()
            .zip(least)
            .all(|(&count, least)| count > least),
        "{counts:?}"
    );
    // A wait of a phase or a movement is nearly reached, with retimings in the run.
    assert!(nearest > 0.95, "{nearest}");
}

/// The model, but it handles steps or retimings in another way.
struct Odd {
    step: fn(&[u8], &mut [u8], u64, &mut [u8]) -> u64,
    retime: fn(&[u8], &mut [u8], &[u8]) -> u64,
}

const RIGHT: Odd = Odd {
    step: packed::step,
    retime: packed::retime,
};

impl Variant for Odd {
    fn step(&self, personality: &[u8], state: &mut [u8], inputs: u64, colours: &mut [u8]) -> u64 {
        (self.step)(personality, state, inputs, colours)
    }

    fn retime(&self, personality: &[u8], state: &mut [u8], new_personality: &[u8]) -> u64 {
        (self.retime)(personality, state, new_personality)
    }
}

macro_rules! assert_breach {
    ($board:expr, $breach:pat) => {
        let breach = first_breach(Among::Retimings, &AsBoard($board), quick_site);
        assert!(matches!(breach, $breach), "{breach}");
    };
}

/// A clearance that is too short. In other runs of such a board a wait is too long.
fn assert_uncleared(board: Odd) {
    let uncleared = |breach: &Breach| matches!(breach, Breach::Uncleared { .. });
    find_breach(Among::Retimings, &AsBoard(board), quick_site, uncleared);
}

fn decode(state: &[u8]) -> TimedState {
    TimedState::from_bytes(state).expect("a state")
}

/// Changes the state that an accepted call hands back.
fn then(answer: u64, state: &mut [u8], change: impl FnOnce(&mut TimedState)) -> u64 {
    if number(answer) == 0 {
        let mut timed = decode(state);
        change(&mut timed);
        state.copy_from_slice(&timed.to_bytes());
    }
    answer
}

#[test]
fn new_times_that_rule_at_once() {
    let board = Odd {
        retime: |personality, state, new| {
            let answer = packed::retime(personality, state, new);
            then(answer, state, |timed| {
                timed.ruling = timed.waiting.take().unwrap();
                timed.state.gap_count = 0;
                timed.state.maximum_count = 0;
            })
        },
        ..RIGHT
    };
    assert_breach!(board, Breach::WrongTimes { .. });
}

#[test]
fn new_times_that_never_rule() {
    let board = Odd {
        step: |personality, state, inputs, colours| {
            let before = decode(state);
            let mut without = before;
            without.waiting = None;
            let mut bytes = without.to_bytes();
            let answer = packed::step(personality, &mut bytes, inputs, colours);
            then(answer, &mut bytes, |timed| timed.waiting = before.waiting);
            if number(answer) == 0 {
                state.copy_from_slice(&bytes);
            }
            answer
        },
        ..RIGHT
    };
    assert_breach!(board, Breach::WrongTimes { .. });
}

#[test]
fn new_times_that_wait_on_after_their_start() {
    let board = Odd {
        step: |personality, state, inputs, colours| {
            let waited = decode(state).waiting;
            let answer = packed::step(personality, state, inputs, colours);
            then(answer, state, |timed| timed.waiting = waited)
        },
        ..RIGHT
    };
    assert_breach!(board, Breach::WrongTimes { .. });
}

#[test]
fn new_times_that_rule_in_the_minimum_green_they_come_in() {
    let board = Odd {
        step: |personality, state, inputs, colours| {
            let before = decode(state);
            let answer = packed::step(personality, state, inputs, colours);
            then(answer, state, |timed| {
                let in_minimum_green = timed.state.interval == Interval::MinimumGreen;
                if let Some(waiting) = before.waiting.filter(|_| in_minimum_green) {
                    timed.ruling = waiting;
                    timed.waiting = None;
                    timed.state.gap_count = 0;
                    timed.state.maximum_count = 0;
                }
            })
        },
        ..RIGHT
    };
    assert_breach!(board, Breach::WrongTimes { .. });
}

#[test]
fn a_later_retiming_that_does_not_replace() {
    let board = Odd {
        retime: |personality, state, new| {
            let waited = decode(state).waiting;
            let answer = packed::retime(personality, state, new);
            then(answer, state, |timed| {
                timed.waiting = waited.or(timed.waiting)
            })
        },
        ..RIGHT
    };
    assert_breach!(board, Breach::WrongTimes { .. });
}

#[test]
fn a_retiming_that_drops_the_demands() {
    let board = Odd {
        retime: |personality, state, new| {
            let answer = packed::retime(personality, state, new);
            then(answer, state, |timed| {
                (timed.state.locks, timed.state.demands) = (0, 0);
                timed.state.demanded = 0;
            })
        },
        ..RIGHT
    };
    assert_breach!(board, Breach::WrongTimes { .. });
}

#[test]
fn a_change_that_drops_the_demands() {
    let board = Odd {
        step: |personality, state, inputs, colours| {
            let waited = decode(state).waiting.is_some();
            let answer = packed::step(personality, state, inputs, colours);
            then(answer, state, |timed| {
                if waited && timed.waiting.is_none() {
                    (timed.state.locks, timed.state.demands) = (0, 0);
                    timed.state.demanded = 0;
                }
            })
        },
        ..RIGHT
    };
    assert_breach!(
        board,
        Breach::PhaseWaits { .. } | Breach::WalkWaits { .. } | Breach::StartsTwice { .. }
    );
}

/// Steps an interval by the times that wait, as if they ruled in it.
fn stepped_by_waiting(
    personality: &[u8],
    state: &mut [u8],
    inputs: u64,
    colours: &mut [u8],
    early: fn(&State) -> bool,
) -> u64 {
    let before = decode(state);
    match before.waiting {
        Some(waiting) if early(&before.state) => {
            let mut other = before;
            other.ruling = waiting;
            other.state.gap_count = 0;
            other.state.maximum_count = 0;
            let mut bytes = other.to_bytes();
            let answer = packed::step(personality, &mut bytes, inputs, colours);
            if number(answer) != 0 {
                return packed::step(personality, state, inputs, colours);
            }
            then(answer, &mut bytes, |timed| {
                if timed.waiting.is_some() {
                    timed.ruling = before.ruling;
                }
            });
            state.copy_from_slice(&bytes);
            let site = Site::read(personality).unwrap();
            u64::from(decode(state).wait_bound(&site)) << 8
        }
        _ => packed::step(personality, state, inputs, colours),
    }
}

#[test]
fn yellow_by_the_times_that_wait() {
    let board = Odd {
        step: |personality, state, inputs, colours| {
            stepped_by_waiting(personality, state, inputs, colours, |state| {
                state.interval == Interval::Yellow
            })
        },
        ..RIGHT
    };
    assert_uncleared(board);
}

#[test]
fn all_red_by_the_times_that_wait() {
    let board = Odd {
        step: |personality, state, inputs, colours| {
            stepped_by_waiting(personality, state, inputs, colours, |state| {
                state.interval == Interval::AllRed
            })
        },
        ..RIGHT
    };
    assert_uncleared(board);
}

#[test]
fn second_clearances_by_the_times_that_wait() {
    let board = Odd {
        step: |personality, state, inputs, colours| {
            stepped_by_waiting(personality, state, inputs, colours, |state| {
                let mut movements = state.movements.iter();
                state.interval == Interval::AllRed
                    && movements.any(|one| one.stage == model::Stage::ClearanceTwo)
            })
        },
        ..RIGHT
    };
    assert_breach!(board, Breach::Uncleared { .. });
}

#[test]
fn the_wait_of_the_first_personality() {
    let board = Odd {
        step: |personality, state, inputs, colours| {
            let answer = packed::step(personality, state, inputs, colours);
            match number(answer) {
                0 => packed::wait_bound(personality),
                _ => answer,
            }
        },
        ..RIGHT
    };
    assert_breach!(board, Breach::WrongWait { .. });
}

#[test]
fn the_wait_of_the_times_before_the_step() {
    let board = Odd {
        step: |personality, state, inputs, colours| {
            let before = decode(state);
            let answer = packed::step(personality, state, inputs, colours);
            let site = Site::read(personality).unwrap();
            match number(answer) {
                0 => u64::from(before.wait_bound(&site)) << 8,
                _ => answer,
            }
        },
        ..RIGHT
    };
    assert_breach!(board, Breach::WrongWait { .. });
}

#[test]
fn a_retiming_refused_in_start_red() {
    let board = Odd {
        retime: |personality, state, new| match decode(state).state.interval {
            Interval::StartRed => Number::InvalidState as u64,
            _ => packed::retime(personality, state, new),
        },
        ..RIGHT
    };
    assert_breach!(board, Breach::WrongAnswer { .. });
}

#[test]
fn equal_times_refused() {
    let board = Odd {
        retime: |personality, state, new| match personality == new {
            true => Number::NotTimesAlone as u64,
            false => packed::retime(personality, state, new),
        },
        ..RIGHT
    };
    assert_breach!(board, Breach::WrongAnswer { .. });
}

#[test]
fn another_site_accepted() {
    let board = Odd {
        retime: |personality, state, new| match packed::retime(personality, state, new) {
            26 => 0,
            answer => answer,
        },
        ..RIGHT
    };
    assert_breach!(board, Breach::WrongAnswer { .. });
}

#[test]
fn a_refused_retiming_that_writes() {
    let board = Odd {
        retime: |personality, state, new| {
            let answer = packed::retime(personality, state, new);
            if answer == 26 {
                let own = Times::of(&Site::read(personality).unwrap());
                then(0, state, |timed| timed.waiting = Some(own));
            }
            answer
        },
        ..RIGHT
    };
    assert_breach!(board, Breach::RefusalWrites { .. });
}

/// The junction of two phases with a start red and with these times of both phases.
fn times_of(start_red: u16, phase: [u16; 6]) -> Times {
    let plan = Plan {
        start_red,
        phases: vec![phase; 2],
        ..Plan::junction()
    };
    Times::of(&Site::read(&plan.bytes()).unwrap())
}

/// The junction of two phases with a wait bound of 460 steps. A turn has 160 steps, and 60
/// come first.
fn longer() -> Times {
    times_of(20, [0, 40, 60, 10, 40, 20])
}

/// The junction of two phases with late start 7 and turns of 67 steps; 40 come first.
fn shorter() -> Times {
    times_of(10, [7, 10, 10, 5, 30, 10])
}

/// A demand of B that is never met. It is registered in these steps, and the times
/// change in one step, if in any: start red lasts until then. Gives the first step
/// in which the monitor finds that it waits too long, and the registering step.
fn overdue(
    monitor: fn(&[u8]) -> Monitor,
    registered: &[u64],
    change: Option<(u64, Times)>,
) -> (u64, u64) {
    let personality = Plan::junction().bytes();
    let site = Site::read(&personality).unwrap();
    let mut monitor = monitor(&personality);
    let mut before = TimedState::fresh(&site);
    before.waiting = change.map(|(_, times)| times);
    for step in 1.. {
        let mut after = before;
        let registers = registered.contains(&step);
        if registers {
            (after.state.locks, after.state.demanded) = (0b10, 0b10);
        }
        if let Some((_, times)) = change.filter(|&(at, _)| at == step) {
            after.state.interval = Interval::LateStart;
            after.ruling = times;
            after.waiting = None;
        }
        let seen = Seen {
            before: &before.to_bytes(),
            inputs: u64::from(registers) << 1,
            after: &after.to_bytes(),
            colours: &[0, 0],
            wait: after.wait_bound(&site).into(),
        };
        match monitor.accepted_step(&seen) {
            Ok(()) => before = after,
            Err(Breach::LockUnmet {
                step,
                phase: 1,
                registered,
            }) => return (step, registered),
            Err(Breach::PhaseWaits {
                step,
                phase: 1,
                registered,
                ..
            }) => return (step, registered),
            Err(breach) => panic!("{breach}"),
        }
    }
    unreachable!("a demand waits for ever");
}

#[test]
fn how_long_a_demand_may_wait() {
    let overdue = |registered: &[u64], change: Option<u64>| {
        let change = change.map(|step| (step, longer()));
        overdue(Monitor::of_the_wait_bound, registered, change)
    };
    // Not met in step s and n further steps: n is below the sum.
    assert_eq!(overdue(&[1], None), (1 + 270, 1));
    assert_eq!(overdue(&[1, 200], None), (1 + 270, 1));
    // Through a change the old wait and the new one.
    assert_eq!(overdue(&[1], Some(2)), (1 + 270 + 460, 1));
    assert_eq!(overdue(&[1], Some(270)), (1 + 270 + 460, 1));
    // A change in the step in which the old wait ends still counts.
    assert_eq!(overdue(&[1], Some(271)), (1 + 270 + 460, 1));
    assert_eq!(overdue(&[1], Some(272)), (1 + 270, 1));
    // Registered in the change: the new wait alone.
    assert_eq!(overdue(&[100], Some(100)), (100 + 460, 100));
    assert_eq!(overdue(&[100], Some(50)), (100 + 460, 100));
    // Registered again after the change: that one has less time.
    assert_eq!(overdue(&[1, 100], Some(50)), (100 + 460, 100));
    assert_eq!(overdue(&[1, 100], Some(100)), (100 + 460, 100));
    assert_eq!(overdue(&[1, 280], Some(50)), (1 + 270 + 460, 1));
}

#[test]
fn how_long_a_phase_may_wait() {
    let late = |registered: &[u64], change| overdue(Monitor::new, registered, change);
    // 40 steps that come first, and a turn of A of 90.
    assert_eq!(late(&[1], None), (1 + 130, 1));
    assert_eq!(late(&[1, 100], None), (1 + 130, 1));
    // Through a change the longer turn, but what comes first by the times before it.
    let long = |step| Some((step, longer()));
    assert_eq!(late(&[1], long(2)), (1 + 40 + 160, 1));
    assert_eq!(late(&[1], long(131)), (1 + 40 + 160, 1));
    assert_eq!(late(&[1], long(132)), (1 + 130, 1));
    assert_eq!(late(&[100], long(100)), (100 + 60 + 160, 100));
    assert_eq!(late(&[100], long(50)), (100 + 60 + 160, 100));
    // The turn of the times before the change is the longer one; the late start is that of
    // the times after it. From the change on only the shorter turn counts.
    let short = |step| Some((step, shorter()));
    assert_eq!(late(&[1], short(100)), (1 + 40 + 90 + 7, 1));
    assert_eq!(late(&[1], short(20)), (20 + 40 + 67 + 7, 20));
    assert_eq!(late(&[30], short(20)), (30 + 40 + 67 + 7, 30));
}
