//! Step calls: what is refused, in which order, and what is left as it was.

use generate::Plan;
use model::packed;
use model::{fresh, step, Number, Site, State, TimedState, STATE_LEN};

const CANARY: u8 = 0xA5;

/// The number of a step call on the fresh state, changed; nothing may be
/// written when it is refused.
fn number(plan: &Plan, change: impl FnOnce(&mut State), inputs: u64, length: usize) -> u8 {
    let mut state = fresh();
    change(&mut state);
    let mut colours = vec![CANARY; length];
    let answer = step(&plan.bytes(), &state, inputs, &mut colours);
    match answer.wait_bound {
        Ok(_) => 0,
        Err(refusal) => {
            assert_eq!(answer.state, state);
            assert!(colours.iter().all(|&byte| byte == CANARY));
            refusal.number as u8
        }
    }
}

#[test]
fn personality_then_state_then_inputs_then_buffer() {
    let plan = Plan::junction();
    let mut bad_plan = Plan::junction();
    bad_plan.phases[0][4] = 29;
    let bad = |state: &mut State| state.age = 0;
    assert_eq!(number(&bad_plan, bad, 4, 1), 5);
    assert_eq!(number(&plan, bad, 4, 1), 13);
    assert_eq!(number(&plan, |_| {}, 4, 1), 15);
    assert_eq!(number(&plan, |_| {}, 3, 1), 14);
    assert_eq!(number(&plan, |_| {}, 3, 2), 0);
}

#[test]
fn bits_without_a_detector_or_button() {
    let plan = Plan::junction();
    for bit in 0..64 {
        let expected = if bit < 2 { 0 } else { 15 };
        assert_eq!(number(&plan, |_| {}, 1 << bit, 2), expected, "bit {bit}");
    }
    let largest = Plan::largest();
    for bit in 0..64 {
        let expected = if bit < 56 { 0 } else { 15 };
        assert_eq!(
            number(&largest, |_| {}, 1 << bit, 32),
            expected,
            "bit {bit}"
        );
    }
}

#[test]
fn the_bit_of_a_detector_without_call_may_be_set() {
    let plan = Plan {
        detectors: vec![[0, 0], [0, 6], [1, 6]],
        ..Plan::junction()
    };
    assert_eq!(number(&plan, |_| {}, 1, 2), 0);
}

#[test]
fn bytes_past_the_groups_stay() {
    let mut colours = [CANARY; 40];
    let answer = step(&Plan::largest().bytes(), &fresh(), 0, &mut colours);
    assert!(answer.wait_bound.is_ok());
    assert_eq!(colours[..32], [0; 32]);
    assert_eq!(colours[32..], [CANARY; 8]);
    assert_eq!(
        number(&Plan::largest(), |_| {}, 0, 31),
        Number::ShortBuffer as u8
    );
}

#[test]
fn the_packed_calls_of_the_junction() {
    let bytes = Plan::junction().bytes();
    assert_eq!(packed::read(&bytes), 0);
    assert_eq!(packed::read(&bytes[..20]), 8 << 8 | 1);
    assert_eq!(packed::wait_bound(&bytes), 270 << 8);
    assert_eq!(packed::wait_bound(&bytes[..20]), 8 << 8 | 1);
    assert_eq!(packed::section(&bytes, 2), 12 << 8 | 24 << 40);
    assert_eq!(packed::section(&bytes, 7), 2);
    assert_eq!(packed::section(&bytes[..20], 7), 8 << 8 | 1);
}

#[test]
fn packed_steps() {
    let bytes = Plan::junction().bytes();
    let mut state = [0; STATE_LEN];
    assert_eq!(packed::fresh(&bytes, &mut state), 0);
    let site = Site::read(&bytes).unwrap();
    assert_eq!(state, TimedState::fresh(&site).to_bytes());
    let mut colours = [CANARY; 3];
    assert_eq!(packed::step(&bytes, &mut state, 0, &mut colours), 270 << 8);
    assert_eq!(colours, [0, 0, CANARY]);
    assert_eq!(TimedState::from_bytes(&state).unwrap().state.age, 2);
    assert_eq!(packed::step(&bytes, &mut state, 4, &mut colours), 15);
    assert_eq!(packed::step(&bytes, &mut state, 0, &mut colours[..1]), 14);
    assert_eq!(packed::step(&bytes[1..], &mut state, 0, &mut colours), 2);
    assert_eq!(TimedState::from_bytes(&state).unwrap().state.age, 2);
}

#[test]
fn a_fresh_state_that_is_refused_is_not_written() {
    let mut bad_plan = Plan::junction();
    bad_plan.phases[0][4] = 29;
    let mut state = [CANARY; STATE_LEN];
    assert_eq!(packed::fresh(&bad_plan.bytes(), &mut state), 20 << 8 | 5);
    assert_eq!(packed::fresh(&[], &mut state), 1);
    assert_eq!(state, [CANARY; STATE_LEN]);
}

#[test]
fn states_of_another_length() {
    let bytes = Plan::junction().bytes();
    for length in (0..700).filter(|&length| length != STATE_LEN) {
        let mut state = vec![CANARY; length];
        assert_eq!(packed::fresh(&bytes, &mut state), 13);
        assert_eq!(packed::fresh(&bytes[..1], &mut state), 1);
        assert_eq!(packed::step(&bytes, &mut state, 4, &mut []), 13);
        assert_eq!(packed::step(&bytes[..1], &mut state, 4, &mut []), 1);
        assert_eq!(packed::retime(&bytes, &mut state, &[]), 13);
        assert_eq!(packed::retime(&bytes[..1], &mut state, &[]), 1);
        assert!(state.iter().all(|&byte| byte == CANARY));
    }
}
