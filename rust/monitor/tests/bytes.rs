//! What the monitor takes for a state and for a fresh one, and what it says a call must answer.

use generate::{Plan, Rng};
use model::{layout, Site, TimedState, Times, FIRST_BUTTON, STATE_LEN};
use monitor::{Breach, Monitor, Seen};

/// What the monitor says of a step of the junction with a crossing that changes nothing, from and
/// to these bytes.
fn said(state: &[u8]) -> Result<(), Breach> {
    let personality = Plan::long_clearance().bytes();
    let seen = Seen {
        before: state,
        inputs: 0,
        after: state,
        colours: &[0; 3],
        wait: 920,
    };
    Monitor::new(&personality).accepted_step(&seen)
}

fn fresh() -> [u8; STATE_LEN] {
    let personality = Plan::long_clearance().bytes();
    TimedState::fresh(&Site::read(&personality).unwrap()).to_bytes()
}

#[test]
fn bytes_that_are_no_state() {
    let no_state = Err(Breach::NoState { step: 1 });
    assert_eq!(said(&fresh()), Ok(()));
    assert_eq!(said(&fresh()[1..]), no_state);
    assert_eq!(said(&[&fresh()[..], &[0]].concat()), no_state);
    let with = |at: usize, byte: u8| {
        let mut state = fresh();
        state[at] = byte;
        said(&state)
    };
    let (last_stage, last_waiting) = (14 + 3 * 7, STATE_LEN - 1);
    for (at, byte) in [
        (layout::INTERVAL, 7),
        (0, 2),
        (4, 2),
        (5, 1),
        (6, 2),
        (7, 1),
        (14, 4),
        (last_stage, 4),
        (layout::FLAG, 2),
        (layout::FLAG + 1, 1),
        (last_waiting, 1),
    ] {
        assert_eq!(with(at, byte), no_state, "byte {at}");
    }
    // Phase B, all-red, came from A, a target and the stages are states.
    for (at, byte) in [
        (0, 1),
        (layout::INTERVAL, 6),
        (4, 1),
        (6, 1),
        (14, 3),
        (last_stage, 3),
    ] {
        assert_eq!(with(at, byte), Ok(()), "byte {at}");
    }
    // A target that the site does not have.
    let mut state = fresh();
    (state[6], state[7]) = (1, 2);
    assert_eq!(said(&state), no_state);
}

#[test]
fn a_run_begins_with_the_fresh_state() {
    let mut rng = Rng::new(5);
    for _ in 0..200 {
        let personality = Plan::random(&mut rng).bytes();
        let monitor = Monitor::new(&personality);
        let fresh = TimedState::fresh(&Site::read(&personality).unwrap()).to_bytes();
        assert_eq!(monitor.begins_with(&fresh), Ok(()));
        let mut other = fresh;
        other[rng.below(STATE_LEN)] ^= 1;
        assert_eq!(monitor.begins_with(&other), Err(Breach::NotFresh));
    }
}

#[test]
fn a_retiming_leaves_all_but_the_waiting_times() {
    let personality = Plan::long_clearance().bytes();
    let other = Plan {
        start_red: 70,
        movements: vec![[11, 12, 13]],
        ..Plan::long_clearance()
    };
    let other = other.bytes();
    let site = Site::read(&personality).unwrap();
    let mut timed = TimedState::fresh(&site);
    let before = timed.to_bytes();
    timed.waiting = Some(Times::of(&Site::read(&other).unwrap()));
    let after = timed.to_bytes();
    let monitor = Monitor::new(&personality);
    let wrong = Err(Breach::WrongTimes { step: 0 });
    assert_eq!(monitor.accepted_retiming(&before, &after, &other), Ok(()));
    assert_eq!(monitor.accepted_retiming(&after, &after, &other), Ok(()));
    assert_eq!(monitor.accepted_retiming(&before, &before, &other), wrong);
    for at in 0..STATE_LEN {
        let mut wrong_byte = after;
        wrong_byte[at] ^= 1;
        let said = monitor.accepted_retiming(&before, &wrong_byte, &other);
        assert_eq!(said, wrong, "byte {at}");
    }
}

#[test]
fn what_a_step_must_answer() {
    // Two detectors, one button, three groups.
    let monitor = Monitor::new(&Plan::long_clearance().bytes());
    for bit in 0..64 {
        let known = bit < 2 || bit == FIRST_BUTTON;
        let expected = (!known).then_some(15);
        assert_eq!(monitor.step_refusal(1 << bit, 3), expected, "bit {bit}");
        // 15 comes before 14.
        let expected = if known { 14 } else { 15 };
        assert_eq!(monitor.step_refusal(1 << bit, 2), Some(expected));
    }
    assert_eq!(monitor.step_refusal(0, 3), None);
    assert_eq!(monitor.step_refusal(0, 40), None);
    // 48 detectors and 8 buttons.
    let largest = Monitor::new(&Plan::largest().bytes());
    assert_eq!(largest.step_refusal((1 << 56) - 1, 32), None);
    assert_eq!(largest.step_refusal(1 << 56, 32), Some(15));
}

#[test]
fn what_a_retiming_must_answer() {
    for plan in [Plan::long_clearance(), Plan::largest(), Plan::junction()] {
        let personality = plan.bytes();
        let monitor = Monitor::new(&personality);
        let times: Vec<usize> = generate::time_fields(&personality)
            .into_iter()
            .flat_map(|(at, _)| [at, at + 1])
            .collect();
        assert_eq!(monitor.retiming_answer(&personality, 0), 0);
        for at in 0..personality.len() {
            let mut new = personality.clone();
            new[at] ^= 1;
            let expected = if times.contains(&at) { 0 } else { 26 };
            assert_eq!(monitor.retiming_answer(&new, 0), expected, "byte {at}");
            // What the new personality is refused with comes first.
            assert_eq!(monitor.retiming_answer(&new, 5 | 20 << 8), 5 | 20 << 8);
        }
        let longer = [&personality[..], &[0]].concat();
        assert_eq!(monitor.retiming_answer(&longer, 0), 26);
    }
}
