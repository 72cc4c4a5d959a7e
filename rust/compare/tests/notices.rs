//! Boards that are wrong in one small thing: the comparison notices.

use compare::{run_case, run_cases, Difference, Failure, Kind};
use model::packed::{number, Board, Model};
use model::{layout, scan, section, MovementState, Site, Stage, TimedState, STATE_LEN};
use variant::{AsBoard, Variant};

/// Spoils an answer, and the state and colours that go with it.
type SpoilStep = fn(u64, &mut [u8], &mut [u8]) -> u64;

/// The model with its answers and buffers spoilt.
#[derive(Default)]
struct Wrong {
    read: Option<fn(u64) -> u64>,
    wait_bound: Option<fn(u64) -> u64>,
    fresh: Option<fn(u64, &mut [u8]) -> u64>,
    step: Option<SpoilStep>,
    section: Option<fn(u64, u16) -> u64>,
}

impl Variant for Wrong {
    fn read(&self, personality: &[u8]) -> u64 {
        let answer = Model.read(personality);
        self.read.map_or(answer, |spoil| spoil(answer))
    }

    fn wait_bound(&self, personality: &[u8]) -> u64 {
        let answer = Model.wait_bound(personality);
        self.wait_bound.map_or(answer, |spoil| spoil(answer))
    }

    fn fresh(&self, personality: &[u8], state: &mut [u8]) -> u64 {
        let answer = Model.fresh(personality, state);
        self.fresh.map_or(answer, |spoil| spoil(answer, state))
    }

    fn step(&self, personality: &[u8], state: &mut [u8], inputs: u64, colours: &mut [u8]) -> u64 {
        let answer = Model.step(personality, state, inputs, colours);
        self.step
            .map_or(answer, |spoil| spoil(answer, state, colours))
    }

    fn section(&self, personality: &[u8], kind: u16) -> u64 {
        let answer = Model.section(personality, kind);
        self.section.map_or(answer, |spoil| spoil(answer, kind))
    }
}

/// The failure that the comparison must find.
fn failure(board: &dyn Board) -> Failure {
    *run_cases(board, 5, 0..600).expect_err("the comparison notices nothing")
}

/// What differs in a variant of the model.
fn what(variant: impl Variant) -> String {
    match failure(&AsBoard(variant)).difference {
        Difference::Call { what, .. } => what.to_string(),
        Difference::Breach { breach, .. } => breach.to_string(),
    }
}

#[test]
fn a_right_board_differs_nowhere() {
    assert!(run_cases(&AsBoard(Wrong::default()), 5, 0..600).is_ok());
}

/// The model with no call replaced.
struct Unchanged;

impl Variant for Unchanged {}

#[test]
fn calls_that_are_not_replaced_are_the_models() {
    assert!(run_cases(&AsBoard(Unchanged), 5, 0..600).is_ok());
}

#[test]
fn a_wrong_place() {
    let board = Wrong {
        read: Some(|answer| {
            if number(answer) == 10 {
                answer + 0x400
            } else {
                answer
            }
        }),
        ..Wrong::default()
    };
    assert_eq!(what(board), "read: the answer");
}

#[test]
fn a_personality_accepted_too_many() {
    let board = Wrong {
        read: Some(|answer| if number(answer) == 7 { 0 } else { answer }),
        ..Wrong::default()
    };
    assert_eq!(what(board), "read: the answer");
}

#[test]
fn a_wait_bound_one_too_long() {
    let board = Wrong {
        wait_bound: Some(|answer| {
            if number(answer) == 0 {
                answer + 0x100
            } else {
                answer
            }
        }),
        ..Wrong::default()
    };
    assert_eq!(what(board), "wait bound: the answer");
}

#[test]
fn a_section_for_a_kind_not_held() {
    let board = Wrong {
        section: Some(|answer, kind| if kind == 257 { 0 } else { answer }),
        ..Wrong::default()
    };
    assert_eq!(what(board), "section: the answer");
}

#[test]
fn a_section_of_early_cut_off_times_not_found() {
    let board = Wrong {
        section: Some(|answer, kind| {
            if kind == 7 && number(answer) == 0 {
                2
            } else {
                answer
            }
        }),
        ..Wrong::default()
    };
    assert_eq!(what(board), "section: the answer");
}

#[test]
fn a_section_with_the_order_not_found() {
    let board = Wrong {
        section: Some(|answer, kind| {
            if kind == 9 && number(answer) == 0 {
                2
            } else {
                answer
            }
        }),
        ..Wrong::default()
    };
    assert_eq!(what(board), "section: the answer");
}

#[test]
fn a_phase_nobody_can_call() {
    let board = Wrong {
        read: Some(|answer| if number(answer) == 21 { 0 } else { answer }),
        ..Wrong::default()
    };
    assert_eq!(what(board), "read: the answer");
}

#[test]
fn any_order_accepted() {
    let board = Wrong {
        read: Some(|answer| if number(answer) == 18 { 0 } else { answer }),
        ..Wrong::default()
    };
    assert_eq!(what(board), "read: the answer");
}

#[test]
fn bytes_left_over_before_early_cut_off_times_not_there() {
    let board = Wrong {
        read: Some(|answer| if number(answer) == 17 { 12 } else { answer }),
        ..Wrong::default()
    };
    assert_eq!(what(board), "read: the answer");
}

#[test]
fn an_arrow_that_stays_green_in_early_cut_off() {
    let board = Wrong {
        step: Some(|answer, state, colours| {
            let interval = state.get(layout::INTERVAL);
            if number(answer) == 0 && interval == Some(&4) {
                let yellow = colours.iter_mut().filter(|colour| **colour == 1);
                yellow.for_each(|colour| *colour = 2);
            }
            answer
        }),
        ..Wrong::default()
    };
    assert_eq!(what(board), "step: the colours");
}

#[test]
fn a_phase_kept_that_is_not_demanded() {
    let board = Wrong {
        step: Some(|answer, state, _| {
            if number(answer) == 0 {
                state[layout::DEMANDED] |= 1;
            }
            answer
        }),
        ..Wrong::default()
    };
    assert_eq!(what(board), "step: the state");
}

/// The model, but the demanded phases handed in are not looked at.
struct ScansAnew;

impl Variant for ScansAnew {
    fn step(&self, personality: &[u8], state: &mut [u8], inputs: u64, colours: &mut [u8]) -> u64 {
        let site = Site::read(personality);
        if let (Ok(site), Some(mut handed)) = (site, TimedState::from_bytes(state)) {
            handed.state.demanded = scan(&site, &handed.state);
            let mut bytes = handed.to_bytes();
            let answer = Model.step(personality, &mut bytes, inputs, colours);
            if number(answer) == 0 {
                state.copy_from_slice(&bytes);
            }
            return answer;
        }
        Model.step(personality, state, inputs, colours)
    }
}

#[test]
fn kept_phases_that_are_not_looked_at() {
    assert_eq!(what(ScansAnew), "step: the answer");
}

/// The model, but it steps by letters whatever the order.
struct GoesByLetters;

impl Variant for GoesByLetters {
    fn step(&self, personality: &[u8], state: &mut [u8], inputs: u64, colours: &mut [u8]) -> u64 {
        // The order, a head of four bytes and its body, is the last section.
        let unordered = match section(personality, 9) {
            Ok(part) => &personality[..part.offset as usize - 4],
            Err(_) => personality,
        };
        Model.step(unordered, state, inputs, colours)
    }
}

#[test]
fn phases_in_letter_order_where_there_is_another() {
    assert_eq!(what(GoesByLetters), "step: the state");
}

/// Whether the first head has a kind below 256.
fn first_kind(personality: &[u8], kind: u8) -> bool {
    personality.get(2..4) == Some(&[kind, 0])
}

/// The model, but it reads bytes with one first kind as if they had another.
struct Reads {
    kind: u8,
    other: u8,
}

impl Variant for Reads {
    fn read(&self, personality: &[u8]) -> u64 {
        let mut bytes = personality.to_vec();
        if first_kind(personality, self.kind) {
            bytes[2] = self.other;
        }
        Model.read(&bytes)
    }
}

#[test]
fn edition_two_held_to_the_limits_of_edition_one() {
    assert_eq!(what(Reads { kind: 8, other: 1 }), "read: the answer");
}

#[test]
fn edition_one_held_to_the_limits_of_edition_two() {
    assert_eq!(what(Reads { kind: 1, other: 8 }), "read: the answer");
}

#[test]
fn edition_two_refused() {
    assert_eq!(what(Reads { kind: 8, other: 0 }), "read: the answer");
}

#[test]
fn another_first_kind_taken_for_edition_two() {
    for kind in [0, 2, 9] {
        let board = AsBoard(Reads { kind, other: 8 });
        let cases = (0..20_000).filter(|&index| Kind::of(index) == Kind::Damaged(2));
        let found = run_cases(&board, 5, cases);
        assert!(found.is_err(), "nothing is noticed");
    }
}

/// The model, but it looks sections up in another way.
struct LooksUp(fn(&[u8], u16) -> u64);

impl Variant for LooksUp {
    fn section(&self, personality: &[u8], kind: u16) -> u64 {
        (self.0)(personality, kind)
    }
}

#[test]
fn kind_1_found_in_edition_two() {
    let board = LooksUp(|personality, kind| match kind {
        1 if first_kind(personality, 8) => Model.section(personality, 8),
        _ => Model.section(personality, kind),
    });
    assert_eq!(what(board), "section: the answer");
}

#[test]
fn kind_8_found_in_edition_one() {
    let board = LooksUp(|personality, kind| match kind {
        8 if first_kind(personality, 1) => Model.section(personality, 1),
        _ => Model.section(personality, kind),
    });
    assert_eq!(what(board), "section: the answer");
}

#[test]
fn kind_8_not_found() {
    let board = LooksUp(|personality, kind| match Model.section(personality, kind) {
        answer if kind == 8 && number(answer) == 0 => 2,
        answer => answer,
    });
    assert_eq!(what(board), "section: the answer");
}

#[test]
fn a_walk_that_does_not_rest() {
    let board = Wrong {
        step: Some(|answer, state, _| {
            if number(answer) == 0 {
                let mut next = TimedState::from_bytes(state).unwrap();
                let walks = next.state.movements.iter_mut();
                // No walk of a fixed time lasts longer.
                let too_long = walks.filter(|m| m.stage == Stage::Walk && m.age > 400);
                too_long.for_each(|m| *m = MovementState::begin(Stage::ClearanceOne));
                state.copy_from_slice(&next.to_bytes());
            }
            answer
        }),
        ..Wrong::default()
    };
    assert_eq!(what(board), "step: the state");
}

#[test]
fn a_fresh_state_in_a_longer_buffer() {
    let board = Wrong {
        fresh: Some(|answer, state| {
            if state.len() > STATE_LEN {
                state[0] = !state[0];
            }
            answer
        }),
        ..Wrong::default()
    };
    assert_eq!(what(board), "fresh: the state");
}

#[test]
fn a_state_changed_by_a_refusal() {
    let board = Wrong {
        step: Some(|answer, state, _| {
            if number(answer) == 14 {
                state[layout::AGE] ^= 1;
            }
            answer
        }),
        ..Wrong::default()
    };
    assert_eq!(what(board), "step: the state");
}

#[test]
fn colours_past_the_groups() {
    let board = Wrong {
        step: Some(|answer, _, colours| {
            if number(answer) == 0 && colours.len() > 32 {
                colours[32] ^= 1;
            }
            answer
        }),
        ..Wrong::default()
    };
    assert_eq!(what(board), "step: the colours");
}

#[test]
fn unknown_inputs_before_an_invalid_state() {
    let board = Wrong {
        step: Some(|answer, _, _| if number(answer) == 13 { 15 } else { answer }),
        ..Wrong::default()
    };
    assert_eq!(what(board), "step: the answer");
}

#[test]
fn a_failing_case_fails_again_alone_and_says_how() {
    let board = AsBoard(Wrong {
        read: Some(|answer| if number(answer) == 9 { 0 } else { answer }),
        ..Wrong::default()
    });
    let first = failure(&board);
    let again = run_case(&board, first.seed, first.index, &mut Default::default());
    assert_eq!(*again.unwrap_err(), first);
    let text = first.to_string();
    assert!(
        text.contains(&format!("compare 5 case {}", first.index)),
        "{text}"
    );
    let personality = ["personality 04000100", "personality 04000800"];
    assert!(personality.iter().any(|one| text.contains(one)), "{text}");
}
