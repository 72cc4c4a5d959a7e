//! Runs with times without power among the calls: the model without a breach, and
//! boards that seal or resume wrongly.

mod runs;

use drive::{Among, Report, Strategy};
use generate::{Plan, Rng};
use model::packed::{self, Model};
use model::{layout, Interval, Number, SEALED_LEN, STATE_LEN};
use monitor::Breach;
use runs::{first_breach, watched};
use variant::{AsBoard, Variant};

#[test]
fn the_model_breaks_nothing() {
    let mut rng = Rng::new(21);
    let mut together = Report::default();
    for seed in 0..60 {
        let plan = match seed {
            0 => Plan::junction(),
            1 => Plan::largest(),
            _ => Plan::random(&mut rng),
        };
        for strategy in Strategy::ALL {
            let report = watched(Among::PowerDowns, &Model, &plan, strategy, seed, 600)
                .unwrap_or_else(|breach| panic!("{strategy:?}, seed {seed}: {breach}\n{plan:?}"));
            together.power_downs += report.power_downs;
            together.demands_met += report.demands_met;
            together.changes += report.changes;
        }
    }
    let Report {
        power_downs,
        demands_met,
        changes,
        ..
    } = together;
    let counts = [power_downs, demands_met, changes];
    assert!(
        power_downs > 50_000 && demands_met > 1_000 && changes > 200,
        "{counts:?}"
    );
}

/// The model, but it seals or resumes in another way.
struct Odd {
    seal: fn(&[u8], &[u8], &mut [u8]) -> u64,
    resume: fn(&[u8], &[u8], &mut [u8]) -> u64,
}

const RIGHT: Odd = Odd {
    seal: packed::seal,
    resume: packed::resume,
};

impl Variant for Odd {
    fn seal(&self, personality: &[u8], state: &[u8], sealed: &mut [u8]) -> u64 {
        (self.seal)(personality, state, sealed)
    }

    fn resume(&self, personality: &[u8], sealed: &[u8], state: &mut [u8]) -> u64 {
        (self.resume)(personality, sealed, state)
    }
}

macro_rules! assert_breach {
    ($board:expr, $breach:pat) => {
        let breach = first_breach(Among::PowerDowns, &AsBoard($board), Plan::random);
        assert!(matches!(breach, $breach), "{breach}");
    };
}

/// Changes the state that an accepted resuming gives back.
fn resumed(
    personality: &[u8],
    sealed: &[u8],
    state: &mut [u8],
    change: impl FnOnce(&mut [u8]),
) -> u64 {
    let answer = packed::resume(personality, sealed, state);
    if answer == 0 {
        change(state);
    }
    answer
}

#[test]
fn the_fresh_state_resumed() {
    let board = Odd {
        resume: |personality, sealed, state| {
            resumed(personality, sealed, state, |state| {
                assert_eq!(packed::fresh(personality, state), 0);
            })
        },
        ..RIGHT
    };
    assert_breach!(board, Breach::NotResumed { .. });
}

#[test]
fn demands_that_are_lost() {
    let board = Odd {
        resume: |personality, sealed, state| {
            resumed(personality, sealed, state, |state| {
                (state[layout::LOCKS], state[layout::DEMANDS]) = (0, 0);
                state[layout::DEMANDED] = 0;
            })
        },
        ..RIGHT
    };
    assert_breach!(board, Breach::NotResumed { .. });
}

#[test]
fn waiting_times_that_are_lost() {
    let board = Odd {
        resume: |personality, sealed, state| {
            resumed(personality, sealed, state, |state| {
                state[layout::FLAG..].fill(0);
            })
        },
        ..RIGHT
    };
    assert_breach!(board, Breach::NotResumed { .. });
}

#[test]
fn no_sealing_in_yellow() {
    let board = Odd {
        seal: |personality, state, sealed| match state[layout::INTERVAL] {
            code if code == Interval::Yellow as u8 => Number::InvalidState as u64,
            _ => packed::seal(personality, state, sealed),
        },
        ..RIGHT
    };
    assert_breach!(board, Breach::WrongAnswer { answer: 13, .. });
}

#[test]
fn a_whole_record_refused() {
    let board = Odd {
        resume: |personality, sealed, state| match sealed[SEALED_LEN - 1] {
            0 => Number::Damaged as u64,
            _ => packed::resume(personality, sealed, state),
        },
        ..RIGHT
    };
    assert_breach!(board, Breach::WrongAnswer { answer: 28, .. });
}

#[test]
fn a_damaged_record_taken() {
    let board = Odd {
        resume: |personality, sealed, state| {
            let answer = packed::resume(personality, sealed, state);
            if answer == Number::Damaged as u64 {
                state.copy_from_slice(&sealed[7..7 + STATE_LEN]);
                return 0;
            }
            answer
        },
        ..RIGHT
    };
    assert_breach!(board, Breach::WrongAnswer { answer: 0, .. });
}

#[test]
fn another_version_taken_for_damage() {
    let board = Odd {
        resume: |personality, sealed, state| match packed::resume(personality, sealed, state) {
            27 => 28,
            answer => answer,
        },
        ..RIGHT
    };
    assert_breach!(board, Breach::WrongAnswer { answer: 28, .. });
}

#[test]
fn a_refusal_that_writes() {
    let board = Odd {
        resume: |personality, sealed, state| {
            let answer = packed::resume(personality, sealed, state);
            if answer != 0 {
                state[0] ^= 1;
            }
            answer
        },
        ..RIGHT
    };
    assert_breach!(board, Breach::RefusalWrites { .. });
}
