//! The wait of each phase and each movement.

use generate::{Plan, Rng};
use model::packed::{self, number, rest};
use model::{waits, Number, Site, MOST_WAIT_BYTES};
use std::path::Path;

const CANARY: u8 = 0xA5;

/// The waits of a personality that is accepted.
fn all(personality: &[u8]) -> Vec<u16> {
    let mut buffer = [CANARY; MOST_WAIT_BYTES];
    let length = waits(personality, &mut buffer).expect("an accepted personality");
    let (waits, _) = buffer[..length as usize].as_chunks();
    waits.iter().copied().map(u16::from_le_bytes).collect()
}

#[test]
fn the_junction_by_hand() {
    // A clears for 30 + 10 steps and is called again at once. Then B has its whole turn:
    // 20 + 30 steps of green, and 30 + 10 to clear.
    assert_eq!(all(&Plan::junction().bytes()), [40 + 90, 40 + 90]);
}

#[test]
fn the_late_start_is_that_of_the_demanded_phase_and_of_the_turns() {
    let mut plan = Plan::junction();
    plan.phases[0][0] = 7;
    assert_eq!(all(&plan.bytes()), [7 + 40 + 90, 40 + 97]);
}

#[test]
fn start_red_counts_if_it_is_longer_than_every_clearance() {
    let mut plan = Plan::junction();
    plan.start_red = 41;
    assert_eq!(all(&plan.bytes()), [41 + 90; 2]);
    plan.start_red = 39;
    assert_eq!(all(&plan.bytes()), [40 + 90; 2]);
}

#[test]
fn an_early_cut_off_lengthens_every_clearance() {
    let plan = Plan::turning_arrow(Some(vec![20, 7]));
    assert_eq!(all(&plan.bytes()), [60 + 97, 47 + 110]);
}

#[test]
fn the_clearance_of_the_phase_after_does_not_come_first() {
    // Of three phases B has the longest all-red. It is after A: if it clears, A does not
    // wait for the turn of B. It comes first for B and for C.
    let mut plan = Plan {
        phases: vec![[0, 20, 30, 5, 30, 10]; 3],
        groups: vec![[1, 0], [2, 0], [4, 0]],
        conflicts: vec![6, 5, 3],
        detectors: vec![[0, 6], [1, 6], [2, 6]],
        ..Plan::junction()
    };
    plan.phases[1][5] = 100;
    let rests = [180 + 90, 90 + 90, 90 + 180];
    let firsts = [40, 130, 130];
    let sums = |firsts: [u16; 3]| [0, 1, 2].map(|phase| firsts[phase] + rests[phase]);
    assert_eq!(all(&plan.bytes()), sums(firsts));
    // In the order A, C, B the phase after C is B.
    plan.order = Some(vec![0, 2, 1]);
    assert_eq!(all(&plan.bytes()), sums([130, 130, 40]));
}

#[test]
fn the_crossing_with_long_clearances_by_hand() {
    // A: 10 + 100 steps of green, then one step in which the walk ends, C1, C2.
    let turn_a = 111 + 200 + 100;
    let turn_b = 10 + 10 + 40;
    // Of A the second clearance is longer than yellow and all-red.
    let (lock_a, lock_b) = (100 + turn_b, 40 + turn_a);
    // A press while the own movement clears: C1 and C2, then yellow and all-red.
    let button = 200 + 100 + 40 + turn_b;
    assert_eq!(button, 400);
    assert_eq!(
        all(&Plan::long_clearance().bytes()),
        [lock_a, lock_b, button]
    );
}

#[test]
fn another_walk_may_begin_when_the_own_clearance_ends() {
    let mut plan = Plan::long_clearance();
    plan.groups.push([1, 2]);
    plan.conflicts[1] = 0b1101;
    plan.conflicts.push(0b0010);
    plan.movements.push([60, 5, 20]);
    let turn_a = 111 + 200 + 100;
    let turn_b = 10 + 10 + 40;
    // Both clearances of the first, in whose last step the walk of the second begins:
    // W, C1, then yellow and all-red, which are longer than its C2.
    let first = 300 + 60 + 5 + 40 + turn_b;
    // For the second the walk of the first may last as long as the green.
    let second = 111 + 200 + 100 + turn_b;
    assert_eq!(
        all(&plan.bytes()),
        [100 + turn_b, 40 + turn_a, first, second]
    );
    // W of the second above the green makes the turn longer: W, C1, yellow, all-red.
    plan.movements[1] = [400, 5, 20];
    let turn_a = 400 + 5 + 40;
    assert_eq!(all(&plan.bytes())[1], 40 + turn_a);
    assert_eq!(all(&plan.bytes())[2], 300 + 400 + 5 + 40 + turn_b);
}

/// What `NOTE.md` of the example sites states.
const EXAMPLES: [(&str, &[u16]); 8] = [
    ("two_phases", &[130, 130]),
    ("edition_two", &[140, 140]),
    ("t_junction", &[465, 600, 500]),
    ("t_junction_leading", &[465, 600, 500]),
    ("four_phases", &[1_013, 821, 1_052, 876]),
    ("staggered", &[557, 598, 755, 792]),
    (
        "crossings",
        &[
            1_594, 1_855, 1_855, 1_558, 1_773, 2_030, 2_009, 1_949, 2_210, 2_178,
        ],
    ),
    (
        "largest",
        &[
            5_830, 7_481, 7_266, 6_560, 7_348, 4_980, 6_341, 7_141, 7_115, 6_953, 7_141, 6_880,
            7_470, 7_143, 7_235,
        ],
    ),
];

#[test]
fn the_example_sites() {
    let examples = Path::new(env!("CARGO_MANIFEST_DIR")).join("../../examples");
    for (name, expected) in EXAMPLES {
        let file = examples.join(name).join("personality.bin");
        let personality = std::fs::read(file).expect("an example site");
        assert_eq!(all(&personality), expected, "{name}");
    }
}

#[test]
fn no_wait_is_above_the_wait_bound() {
    let mut rng = Rng::new(33);
    for _ in 0..20_000 {
        let personality = Plan::random(&mut rng).bytes();
        let bound = Site::read(&personality).unwrap().wait_bound();
        for wait in all(&personality) {
            assert!(u32::from(wait) <= bound, "{personality:02x?}");
        }
    }
}

#[test]
fn the_packed_call() {
    let personality = Plan::long_clearance().bytes();
    for length in 0..40 {
        let mut buffer = vec![CANARY; length];
        let answer = packed::waits(&personality, &mut buffer);
        if length < 6 {
            assert_eq!(answer, Number::ShortBuffer as u64, "{length}");
            assert!(buffer.iter().all(|&byte| byte == CANARY));
        } else {
            assert_eq!((number(answer), rest(answer)), (0, 6));
            assert_eq!(buffer[..6], [160, 0, 0xC3, 1, 144, 1]);
            assert!(buffer[6..].iter().all(|&byte| byte == CANARY));
        }
    }
}

#[test]
fn a_refused_personality_is_refused_before_the_buffer() {
    let mut plan = Plan::long_clearance();
    plan.phases[0][4] = 29;
    for length in [0, 5, 6, 30] {
        let mut buffer = vec![CANARY; length];
        let answer = packed::waits(&plan.bytes(), &mut buffer);
        assert_eq!((number(answer), rest(answer)), (5, 20));
        assert!(buffer.iter().all(|&byte| byte == CANARY));
    }
}
