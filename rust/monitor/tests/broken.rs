//! Controllers broken on purpose: the monitor notices each.

use drive::{watch, Among, Driver, Strategy};
use generate::{Pace, Plan, Rng, Shape};
use model::packed::{self, number, Board, Model};
use model::{
    layout, Edition, Interval, Mark, MovementState, Site, Stage, State, TimedState, MAX_AGE,
};
use monitor::Breach;
use variant::{AsBoard, Variant};

/// The model with its accepted steps spoilt.
struct Broken<F>(F);

/// What a spoiler may look at and change after an accepted step.
struct Outcome<'a> {
    site: Site<'a>,
    state: State,
    colours: &'a mut [u8],
}

impl<F: Fn(&mut Outcome)> Variant for Broken<F> {
    fn step(&self, personality: &[u8], state: &mut [u8], inputs: u64, colours: &mut [u8]) -> u64 {
        let answer = packed::step(personality, state, inputs, colours);
        if number(answer) == 0 {
            let mut timed = TimedState::from_bytes(state).unwrap();
            let mut outcome = Outcome {
                site: Site::read(personality).unwrap(),
                state: timed.state,
                colours,
            };
            (self.0)(&mut outcome);
            outcome.state.demanded = demanded_phases(&outcome.site, &outcome.state);
            timed.state = outcome.state;
            state.copy_from_slice(&timed.to_bytes());
        }
        answer
    }
}

/// The phases with a standing demand.
fn demanded_phases(site: &Site, state: &State) -> u8 {
    (0..site.movement_count())
        .filter(|index| state.demands >> index & 1 != 0)
        .fold(state.locks, |set, index| {
            set | 1 << site.movement(index).phase
        })
}

/// The breach of one run, if there is one.
fn breach_of(board: &dyn Board, plan: &Plan, strategy: Strategy, seed: u64) -> Option<Breach> {
    let personality = plan.bytes();
    let site = Site::read(&personality).unwrap();
    let mut driver = Driver::new(strategy, &site, Rng::new(seed));
    let mut rng = Rng::new(!seed);
    watch(
        Among::Nothing,
        board,
        &personality,
        &mut driver,
        &mut rng,
        3_000,
    )
    .unwrap()
    .err()
}

/// A site with overlaps, and with second clearances that may outlast the yellow.
fn busy_site(rng: &mut Rng) -> Plan {
    let shape = Shape {
        edition: rng.pick(&Edition::ALL),
        phases: rng.range(3, 7),
        groups: rng.range(8, 20),
        pedestrians: rng.range(1, 8),
        detectors: 30,
        early_cut_offs: true,
        order: rng.percent(50),
        pace: Pace::Short,
    };
    let mut plan = Plan::of_shape(rng, shape);
    for movement in &mut plan.movements {
        movement[2] = rng.time(1, 80);
    }
    plan
}

/// The first breach of a kind on some site under some strategy.
fn find_breach(board: &dyn Board, wanted: impl Fn(&Breach) -> bool) -> Option<Breach> {
    let mut rng = Rng::new(7);
    (0..30).find_map(|seed| {
        let plan = busy_site(&mut rng);
        let mut breaches = Strategy::ALL
            .into_iter()
            .filter_map(|strategy| breach_of(board, &plan, strategy, seed));
        breaches.find(&wanted)
    })
}

/// The first breach of a variant of the model on some site under some strategy.
fn first_breach(variant: impl Variant) -> Breach {
    find_breach(&AsBoard(variant), |_| true).expect("the monitor notices nothing")
}

macro_rules! assert_breach {
    ($spoil:expr, $breach:pat) => {
        let spoil: fn(&mut Outcome) = $spoil;
        let breach = first_breach(Broken(spoil));
        assert!(matches!(breach, $breach), "{breach}");
    };
}

#[test]
fn nothing_is_noticed_where_nothing_is_broken() {
    let mut rng = Rng::new(7);
    for seed in 0..5 {
        let plan = busy_site(&mut rng);
        for strategy in Strategy::ALL {
            let untouched = AsBoard(Broken(|_: &mut Outcome| {}));
            assert_eq!(breach_of(&untouched, &plan, strategy, seed), None);
        }
    }
}

#[test]
fn all_red_cut_short() {
    assert_breach!(
        |outcome| {
            if outcome.state.interval == Interval::AllRed {
                outcome.state.age = MAX_AGE;
            }
        },
        Breach::Uncleared { .. }
    );
}

#[test]
fn all_red_one_step_short() {
    assert_breach!(
        |outcome| {
            let all_red = outcome.site.phase(outcome.state.phase).all_red;
            if outcome.state.interval == Interval::AllRed && outcome.state.age == all_red - 1 {
                outcome.state.age += 1;
            }
        },
        Breach::Uncleared { .. }
    );
}

#[test]
fn yellow_one_step_short() {
    assert_breach!(
        |outcome| {
            if outcome.state.interval == Interval::Yellow && outcome.state.age == 1 {
                outcome.state.age = 2;
            }
        },
        Breach::Uncleared { .. }
    );
}

#[test]
fn yellow_shown_as_red() {
    assert_breach!(
        |outcome| {
            let yellow = outcome.state.interval == Interval::Yellow;
            for colour in outcome
                .colours
                .iter_mut()
                .filter(|code| yellow && **code == 1)
            {
                *colour = 0;
            }
        },
        Breach::Uncleared { .. }
    );
}

/// Spoils the colours of the groups that stop early, in early cut-off or yellow.
fn spoil_early(outcome: &mut Outcome, interval: Interval, spoil: fn(&Outcome, u8) -> u8) {
    if outcome.state.interval != interval {
        return;
    }
    for group in 0..outcome.site.group_count() {
        if outcome.site.group(group).mark == Mark::EarlyCutOff {
            outcome.colours[group] = spoil(outcome, outcome.colours[group]);
        }
    }
}

#[test]
fn an_arrow_that_stays_green_in_early_cut_off() {
    assert_breach!(
        |outcome| spoil_early(outcome, Interval::EarlyCutOff, |_, colour| {
            if colour == 0 {
                0
            } else {
                2
            }
        }),
        Breach::StaysOpen { .. }
    );
}

#[test]
fn an_arrow_that_closes_without_yellow() {
    assert_breach!(
        |outcome| spoil_early(outcome, Interval::EarlyCutOff, |_, colour| {
            if colour == 1 {
                0
            } else {
                colour
            }
        }),
        Breach::StaysOpen { .. }
    );
}

#[test]
fn an_arrow_whose_yellow_ends_with_early_cut_off() {
    assert_breach!(
        |outcome| spoil_early(outcome, Interval::Yellow, |outcome, colour| {
            let skipped = outcome.site.early_cut_off(outcome.state.phase) == 0;
            if colour == 1 && !skipped {
                0
            } else {
                colour
            }
        }),
        Breach::Uncleared { .. }
    );
}

#[test]
fn an_arrow_whose_yellow_starts_again_with_yellow() {
    assert_breach!(
        |outcome| spoil_early(outcome, Interval::Yellow, |_, colour| {
            if colour == 0 {
                1
            } else {
                colour
            }
        }),
        Breach::Uncleared { .. }
    );
}

#[test]
fn an_arrow_one_step_short_of_its_yellow() {
    assert_breach!(
        |outcome| spoil_early(outcome, Interval::EarlyCutOff, |outcome, colour| {
            let yellow = outcome.site.phase(outcome.state.phase).yellow;
            if colour == 1 && outcome.state.age == yellow {
                0
            } else {
                colour
            }
        }),
        Breach::Uncleared { .. }
    );
}

#[test]
fn early_cut_off_that_lasts_for_ever() {
    assert_breach!(
        |outcome| {
            if outcome.state.interval == Interval::EarlyCutOff {
                outcome.state.age = 1;
            }
        },
        Breach::PhaseWaits { .. } | Breach::WalkWaits { .. }
    );
}

#[test]
fn all_red_ended_while_the_second_clearance_runs() {
    assert_breach!(
        |outcome| {
            let all_red = outcome.site.phase(outcome.state.phase).all_red;
            if outcome.state.interval == Interval::AllRed && outcome.state.age >= all_red {
                outcome.state.movements = [MovementState::IDLE; 8];
            }
        },
        Breach::Uncleared { .. }
    );
}

#[test]
fn the_first_clearance_left_out() {
    assert_breach!(
        |outcome| {
            for movement in &mut outcome.state.movements {
                if movement.stage == Stage::ClearanceOne {
                    movement.stage = Stage::ClearanceTwo;
                }
            }
        },
        Breach::Uncleared { .. }
    );
}

#[test]
fn the_target_chosen_again_after_yellow() {
    assert_breach!(
        |outcome| {
            let state = &mut outcome.state;
            if state.interval == Interval::AllRed && state.age == 1 {
                let phases = outcome.site.phase_count() as u8;
                let demanded = demanded_phases(&outcome.site, state);
                let after = (1..phases).map(|step| (state.phase + step) % phases);
                let next = after.into_iter().find(|phase| demanded >> phase & 1 != 0);
                state.target = next.or(state.target);
            }
        },
        Breach::Uncleared { .. } | Breach::GreenTogether { .. }
    );
}

#[test]
fn the_lowest_demanded_phase_always_next() {
    // Yellow has begun with the other target, so that some runs break a clearance
    // before a phase starts twice.
    let board = AsBoard(Broken(|outcome: &mut Outcome| {
        let state = &mut outcome.state;
        let others = demanded_phases(&outcome.site, state) & !(1 << state.phase);
        if state.interval == Interval::Yellow && state.age == 1 && others != 0 {
            state.target = Some(others.trailing_zeros() as u8);
        }
    }));
    let twice = |breach: &Breach| matches!(breach, Breach::StartsTwice { .. });
    assert!(find_breach(&board, twice).is_some());
}

#[test]
fn locks_dropped() {
    assert_breach!(
        |outcome| {
            if outcome.state.interval == Interval::Yellow {
                outcome.state.locks = 0;
            }
        },
        Breach::PhaseWaits { .. } | Breach::StartsTwice { .. }
    );
}

#[test]
fn a_press_during_clearance_dropped() {
    assert_breach!(
        |outcome| {
            let state = &mut outcome.state;
            for (index, movement) in state.movements.iter().enumerate() {
                if matches!(movement.stage, Stage::ClearanceOne | Stage::ClearanceTwo) {
                    state.demands &= !(1 << index);
                }
            }
        },
        Breach::WalkWaits { .. } | Breach::StartsTwice { .. }
    );
}

#[test]
fn running_that_never_ends() {
    assert_breach!(
        |outcome| outcome.state.maximum_count = 0,
        Breach::PhaseWaits { .. } | Breach::WalkWaits { .. }
    );
}

#[test]
fn a_walk_that_rests_for_ever() {
    assert_breach!(
        |outcome| {
            for movement in &mut outcome.state.movements {
                if *movement == MovementState::begin(Stage::ClearanceOne) {
                    movement.stage = Stage::Walk;
                }
            }
        },
        Breach::PhaseWaits { .. } | Breach::WalkWaits { .. }
    );
}

#[test]
fn a_resting_walk_that_ends_without_its_first_clearance() {
    assert_breach!(
        |outcome| {
            for movement in &mut outcome.state.movements {
                if movement.stage == Stage::Walk && movement.age > 100 {
                    *movement = MovementState::begin(Stage::ClearanceTwo);
                }
            }
        },
        Breach::Uncleared { .. }
    );
}

#[test]
fn lights_that_never_alter() {
    assert_breach!(
        |outcome| outcome.state = model::fresh(),
        Breach::PhaseWaits { .. } | Breach::WalkWaits { .. }
    );
}

#[test]
fn every_group_green() {
    assert_breach!(
        |outcome| outcome.colours.fill(2),
        Breach::GreenTogether { .. }
    );
}

/// The model, but it answers steps in another way.
struct Odd(fn(&[u8], &mut [u8], u64, &mut [u8]) -> u64);

impl Variant for Odd {
    fn step(&self, personality: &[u8], state: &mut [u8], inputs: u64, colours: &mut [u8]) -> u64 {
        (self.0)(personality, state, inputs, colours)
    }
}

#[test]
fn blind_to_detectors() {
    let blind = Odd(|personality, state, inputs, colours| {
        let site = Site::read(personality).unwrap();
        packed::step(personality, state, inputs & !site.known_inputs(), colours)
    });
    let breach = first_breach(blind);
    assert!(matches!(
        breach,
        Breach::PhaseWaits { .. } | Breach::WalkWaits { .. }
    ));
}

#[test]
fn a_demanded_phase_not_kept() {
    let breach = first_breach(Odd(|personality, state, inputs, colours| {
        let answer = packed::step(personality, state, inputs, colours);
        state[layout::DEMANDED] &= !(1 << 2);
        answer
    }));
    assert!(matches!(breach, Breach::DemandedDiffers { .. }));
}

#[test]
fn a_phase_kept_that_is_not_demanded() {
    let breach = first_breach(Odd(|personality, state, inputs, colours| {
        let answer = packed::step(personality, state, inputs, colours);
        if number(answer) == 0 {
            state[layout::DEMANDED] |= 1;
        }
        answer
    }));
    assert!(matches!(breach, Breach::DemandedDiffers { .. }));
}

#[test]
fn every_step_refused() {
    let breach = first_breach(Odd(|_, _, _, _| 13));
    assert!(matches!(breach, Breach::WrongAnswer { .. }));
}

#[test]
fn a_refusal_that_writes() {
    let breach = first_breach(Odd(|personality, state, inputs, colours| {
        let answer = packed::step(personality, state, inputs, colours);
        if number(answer) == 15 {
            colours[0] = 0;
        }
        answer
    }));
    assert!(matches!(breach, Breach::RefusalWrites { .. }));
}

#[test]
fn a_state_that_is_none() {
    let breach = first_breach(Odd(|personality, state, inputs, colours| {
        let answer = Model.step(personality, state, inputs, colours);
        state[layout::INTERVAL] = 9;
        answer
    }));
    assert!(matches!(breach, Breach::NoState { .. }));
}
