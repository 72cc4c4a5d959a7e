//! States sealed for the time without power.

use generate::{
    broken_times, changed_beyond_times, invalid_timed_state, known_inputs, retimed,
    valid_timed_state, Breakage, Plan, Rng, TimesBreakage,
};
use model::packed::{self, number};
use model::sealed::{CHECK, LENGTH, PERSONALITY, STATE};
use model::{
    crc32, resume, seal, step_timed, Number, Refusal, Site, TimedState, SEALED_LEN, STATE_LEN,
};

const SEED: u64 = 21;
const CANARY: u8 = 0xA5;

/// The junction of two phases with a time outside its limits: refused with 5 at 20.
fn refused() -> Vec<u8> {
    let mut plan = Plan::junction();
    plan.phases[0][4] = 29;
    plan.bytes()
}
const REFUSED: u64 = 20 << 8 | 5;

/// The junction of two phases, a state of it in which times wait, and its record.
fn sealed_junction() -> (Vec<u8>, [u8; STATE_LEN], [u8; SEALED_LEN]) {
    let personality = Plan::junction().bytes();
    let mut state = [0; STATE_LEN];
    assert_eq!(packed::fresh(&personality, &mut state), 0);
    for step in 1..=40 {
        let inputs = if step == 12 { 2 } else { 0 };
        assert_eq!(
            number(packed::step(&personality, &mut state, inputs, &mut [0; 2])),
            0
        );
    }
    let new = retimed(&mut Rng::new(SEED), &personality);
    assert_eq!(packed::retime(&personality, &mut state, &new), 0);
    let mut record = [CANARY; SEALED_LEN];
    assert_eq!(packed::seal(&personality, &state, &mut record), 0);
    (personality, state, record)
}

/// A resuming that must be refused, and then writes nothing.
fn refusal(personality: &[u8], record: &[u8]) -> u64 {
    let mut state = [CANARY; STATE_LEN];
    let answer = packed::resume(personality, record, &mut state);
    assert_ne!(number(answer), 0);
    assert_eq!(state, [CANARY; STATE_LEN]);
    answer
}

/// The record with a byte put in and the check value made right again.
fn with_byte(record: &[u8; SEALED_LEN], at: usize, byte: u8) -> [u8; SEALED_LEN] {
    let mut record = *record;
    record[at] = byte;
    let check = crc32(&record[..CHECK]);
    record[CHECK..].copy_from_slice(&check.to_le_bytes());
    record
}

#[test]
fn every_part_has_its_place() {
    let (personality, state, record) = sealed_junction();
    assert_eq!(record.len(), 347);
    // Version 6; 68 bytes; their check value; the state; the check value of all that.
    assert_eq!(record[..3], [6, 68, 0]);
    assert_eq!(record[3..7], crc32(&personality).to_le_bytes());
    assert_eq!(record[7..343], state);
    assert_eq!(record[343..], crc32(&record[..343]).to_le_bytes());
}

#[test]
fn a_length_above_255_has_two_bytes() {
    let personality = Plan::largest().bytes();
    let site = Site::read(&personality).unwrap();
    let record = seal(&personality, &TimedState::fresh(&site)).unwrap();
    assert_eq!(record[1..3], [221, 1]);
    assert_eq!(usize::from(u16::from_le_bytes([221, 1])), personality.len());
}

#[test]
fn what_is_sealed_comes_back() {
    let mut rng = Rng::new(SEED);
    for _ in 0..300 {
        let personality = Plan::random(&mut rng).bytes();
        let site = Site::read(&personality).unwrap();
        let timed = valid_timed_state(&mut rng, &personality, &site);
        let record = seal(&personality, &timed).unwrap();
        assert_eq!(resume(&personality, &record), Ok(timed));
        let mut packed_record = [CANARY; SEALED_LEN];
        assert_eq!(
            packed::seal(&personality, &timed.to_bytes(), &mut packed_record),
            0
        );
        assert_eq!(packed_record, record);
        let mut state = [CANARY; STATE_LEN];
        assert_eq!(packed::resume(&personality, &record, &mut state), 0);
        assert_eq!(state, timed.to_bytes());
    }
}

#[test]
fn a_run_goes_on_as_without_the_time_without_power() {
    let mut rng = Rng::new(SEED);
    for _ in 0..40 {
        let personality = Plan::random(&mut rng).bytes();
        let site = Site::read(&personality).unwrap();
        let mut without = TimedState::fresh(&site);
        let mut resumed = without;
        let down = rng.below(300);
        for step in 0..400 {
            if step == down {
                resumed = resume(&personality, &seal(&personality, &resumed).unwrap()).unwrap();
            }
            let inputs = known_inputs(&mut rng, &site);
            let (mut colours, mut others) = ([CANARY; 32], [CANARY; 32]);
            let answer = step_timed(&personality, &without, inputs, &mut colours);
            let other = step_timed(&personality, &resumed, inputs, &mut others);
            assert_eq!((answer, colours), (other, others), "step {step}");
            (without, resumed) = (answer.state, other.state);
        }
    }
}

#[test]
fn sealing_checks_the_personality_then_the_state_then_the_buffer() {
    let (personality, state, record) = sealed_junction();
    let mut wrong_state = state;
    wrong_state[model::layout::AGE] = 0;
    wrong_state[model::layout::AGE + 1] = 0;
    for (personality, state, length, expected) in [
        (&refused(), &wrong_state[..], SEALED_LEN - 1, REFUSED),
        (&refused(), &state[..], SEALED_LEN, REFUSED),
        (&vec![], &state[..], SEALED_LEN, 1),
        (&personality, &wrong_state[..], SEALED_LEN - 1, 13),
        (&personality, &state[..STATE_LEN - 1], SEALED_LEN, 13),
        (&personality, &[], SEALED_LEN, 13),
        (&personality, &state[..], SEALED_LEN - 1, 14),
        (&personality, &state[..], SEALED_LEN + 1, 14),
        (&personality, &state[..], 0, 14),
    ] {
        let mut sealed = vec![CANARY; length];
        assert_eq!(packed::seal(personality, state, &mut sealed), expected);
        assert!(sealed.iter().all(|&byte| byte == CANARY));
    }
    for length in (0..2 * SEALED_LEN).filter(|&length| length != SEALED_LEN) {
        let mut sealed = vec![CANARY; length];
        assert_eq!(
            packed::seal(&personality, &state, &mut sealed),
            14,
            "{length}"
        );
        assert!(sealed.iter().all(|&byte| byte == CANARY));
    }
    let mut sealed = [CANARY; SEALED_LEN];
    assert_eq!(packed::seal(&personality, &state, &mut sealed), 0);
    assert_eq!(sealed, record);
}

#[test]
fn no_invalid_state_is_sealed() {
    let mut rng = Rng::new(SEED);
    let refused = Err(Refusal {
        number: Number::InvalidState,
        place: 0,
    });
    for _ in 0..30 {
        let personality = Plan::random(&mut rng).bytes();
        let site = Site::read(&personality).unwrap();
        for breakage in Breakage::ALL {
            if let Some(timed) = invalid_timed_state(&mut rng, &personality, &site, breakage) {
                assert_eq!(seal(&personality, &timed), refused, "{breakage:?}");
            }
        }
        for breakage in TimesBreakage::ALL {
            let Some(state) = broken_times(&mut rng, &personality, &site, breakage) else {
                continue;
            };
            let mut sealed = [CANARY; SEALED_LEN];
            assert_eq!(
                packed::seal(&personality, &state, &mut sealed),
                13,
                "{breakage:?}"
            );
            assert_eq!(sealed, [CANARY; SEALED_LEN]);
        }
    }
}

#[test]
fn resuming_checks_one_thing_after_the_other() {
    let (personality, state, record) = sealed_junction();
    let other = Plan::largest().bytes();
    let invalid = with_byte(&record, STATE + model::layout::PHASE, 2);
    let mut damaged = invalid;
    damaged[CHECK] ^= 1;
    let mut old = damaged;
    old[0] = 5;
    // Wrong in all, then right in one thing more each time.
    for (personality, record, length, expected) in [
        (&refused(), old, STATE_LEN - 1, REFUSED),
        (&vec![], old, STATE_LEN - 1, 1),
        (&other, old, STATE_LEN - 1, 13),
        (&other, old, STATE_LEN + 1, 13),
        (&other, old, 0, 13),
        (&other, old, STATE_LEN, 27),
        (&other, damaged, STATE_LEN, 28),
        (&other, invalid, STATE_LEN, 29),
        (&personality, invalid, STATE_LEN, 13),
    ] {
        let mut state = vec![CANARY; length];
        assert_eq!(packed::resume(personality, &record, &mut state), expected);
        assert!(state.iter().all(|&byte| byte == CANARY));
    }
    let mut found = [CANARY; STATE_LEN];
    assert_eq!(packed::resume(&personality, &record, &mut found), 0);
    assert_eq!(found, state);
}

#[test]
fn buffers_of_another_length_than_a_state() {
    let (personality, _, record) = sealed_junction();
    for length in (0..700).filter(|&length| length != STATE_LEN) {
        let mut state = vec![CANARY; length];
        for record in [&record[..], &record[..20], &[]] {
            assert_eq!(packed::resume(&personality, record, &mut state), 13);
        }
        assert!(state.iter().all(|&byte| byte == CANARY));
    }
}

#[test]
fn another_version_is_named_whatever_else_is_wrong() {
    let (personality, _, record) = sealed_junction();
    for version in (0..=255).filter(|&version| version != 6) {
        let whole = with_byte(&record, 0, version);
        for length in [1, 2, 7, 343, 346, 347] {
            assert_eq!(refusal(&personality, &whole[..length]), 27);
        }
        let longer = [&whole[..], &[0; 50]].concat();
        assert_eq!(refusal(&personality, &longer), 27);
        let mut damaged = record;
        (damaged[0], damaged[200]) = (version, !record[200]);
        assert_eq!(refusal(&personality, &damaged), 27);
    }
}

#[test]
fn records_of_another_length_are_damaged() {
    let (personality, _, record) = sealed_junction();
    for length in 0..SEALED_LEN {
        assert_eq!(refusal(&personality, &record[..length]), 28, "{length}");
    }
    for more in 1..400 {
        let longer = [&record[..], &vec![0; more]].concat();
        assert_eq!(refusal(&personality, &longer), 28, "{more} more");
    }
}

#[test]
fn every_bit_and_every_run_of_four_bytes_counts() {
    let (personality, _, record) = sealed_junction();
    let expected = |at: usize| if at == 0 { 27 } else { 28 };
    for at in 0..SEALED_LEN {
        for bit in 0..8 {
            let mut damaged = record;
            damaged[at] ^= 1 << bit;
            assert_eq!(
                refusal(&personality, &damaged),
                expected(at),
                "byte {at}, bit {bit}"
            );
        }
    }
    let mut rng = Rng::new(SEED);
    for at in 0..=SEALED_LEN - 4 {
        for _ in 0..20 {
            let mut damaged = record;
            for byte in &mut damaged[at..at + 4] {
                *byte = rng.byte();
            }
            if damaged != record {
                let version = if damaged[0] == 6 { 28 } else { 27 };
                assert_eq!(refusal(&personality, &damaged), version, "bytes from {at}");
            }
        }
    }
}

#[test]
fn a_record_of_another_personality() {
    let mut rng = Rng::new(SEED);
    for _ in 0..200 {
        let personality = Plan::random(&mut rng).bytes();
        let site = Site::read(&personality).unwrap();
        let timed = valid_timed_state(&mut rng, &personality, &site);
        let record = seal(&personality, &timed).unwrap();
        let retimed = retimed(&mut rng, &personality);
        if retimed != personality {
            assert_eq!(refusal(&retimed, &record), 29);
        }
        let other = changed_beyond_times(&mut rng, &personality);
        assert_eq!(refusal(&other, &record), 29);
    }
}

#[test]
fn each_byte_that_names_the_personality_counts() {
    let (personality, _, record) = sealed_junction();
    for at in LENGTH..STATE {
        for bit in 0..8 {
            let other = with_byte(&record, at, record[at] ^ 1 << bit);
            assert_eq!(refusal(&personality, &other), 29, "byte {at}, bit {bit}");
        }
    }
    assert_eq!([LENGTH, PERSONALITY, STATE, CHECK], [1, 3, 7, 343]);
}

#[test]
fn a_whole_record_with_a_state_that_is_not_valid() {
    let (personality, state, record) = sealed_junction();
    let mut refusals = 0;
    for at in 0..STATE_LEN {
        for bit in 0..8 {
            let byte = state[at] ^ 1 << bit;
            let mut changed = state;
            changed[at] = byte;
            let other = with_byte(&record, STATE + at, byte);
            let timed = TimedState::from_bytes(&changed);
            let site = Site::read(&personality).unwrap();
            if timed.is_some_and(|timed| model::valid_timed(&site, &timed)) {
                assert_eq!(resume(&personality, &other), Ok(timed.unwrap()));
            } else {
                assert_eq!(refusal(&personality, &other), 13, "byte {at}, bit {bit}");
                refusals += 1;
            }
        }
    }
    assert!(refusals > 2_000, "{refusals}");
}

#[test]
fn the_groups_of_a_personality() {
    assert_eq!(packed::groups(&Plan::junction().bytes()), 2 << 8);
    assert_eq!(packed::groups(&Plan::largest().bytes()), 32 << 8);
    assert_eq!(packed::groups(&refused()), REFUSED);
    assert_eq!(packed::groups(&[]), 1);
    let mut rng = Rng::new(SEED);
    for _ in 0..100 {
        let plan = Plan::random(&mut rng);
        assert_eq!(
            packed::groups(&plan.bytes()),
            (plan.groups.len() as u64) << 8
        );
    }
}
