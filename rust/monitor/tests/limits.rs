//! The limits that the monitor works out by itself, beside numbers that stand elsewhere: those
//! worked out by hand in `docs/RULES.md`, those of the example sites, and those of the model on
//! random sites, by the times of the personality and by others.

use generate::{retimed, Plan, Rng};
use model::packed;
use model::TimedState;
use monitor::{Monitor, Seen};

/// The wait bound and the waits that the model tells of a personality.
fn told(personality: &[u8]) -> (u64, Vec<u64>) {
    let mut bytes = [0; 30];
    let length = packed::waits(personality, &mut bytes) >> 8;
    let (waits, _) = bytes[..length as usize].as_chunks();
    let waits = waits.iter().map(|&wait| u16::from_le_bytes(wait).into());
    (packed::wait_bound(personality) >> 8, waits.collect())
}

fn found(personality: &[u8]) -> (u64, Vec<u64>) {
    let monitor = Monitor::new(personality);
    (monitor.bound(), monitor.waits())
}

#[test]
fn worked_by_hand() {
    // R10.5.
    assert_eq!(found(&Plan::junction().bytes()), (270, vec![130, 130]));
    // 10 + 0 + 10 + 100 + 2 x (210 + 40 + 100) + 0 + 10 + 10 + 2 x 40 is the bound. The turn of A
    // is 111 + 200 + 100, that of B 60; B is left in 40 and A in 100, but A comes after B. A press
    // in the first clearance waits for 200 + 100 + 40 of A, then for the turn of B.
    let clearance = found(&Plan::long_clearance().bytes());
    assert_eq!(clearance, (920, vec![160, 451, 400]));
    // R10.4: every setting at its highest, and a movement in each phase.
    let greatest = Plan {
        start_red: 150,
        phases: vec![[200, 400, 1_500, 100, 100, 150]; 7],
        movements: vec![[400; 3]; 8],
        early_cut_offs: Some(vec![200; 7]),
        ..Plan::largest()
    };
    assert_eq!(found(&greatest.bytes()).0, 37_950);
}

#[test]
fn the_example_sites() {
    let staggered = include_bytes!("../../../examples/staggered/personality.bin");
    assert_eq!(found(staggered).1, [557, 598, 755, 792]);
    let crossings = include_bytes!("../../../examples/crossings/personality.bin");
    assert_eq!(
        found(crossings).1,
        [1_594, 1_855, 1_855, 1_558, 1_773, 2_030, 2_009, 1_949, 2_210, 2_178]
    );
    let order = include_bytes!("../../../examples/t_junction_leading/personality.bin");
    assert_eq!(found(order).1, [465, 600, 500]);
}

#[test]
fn random_sites() {
    let mut rng = Rng::new(22);
    for _ in 0..5_000 {
        let plan = Plan::random(&mut rng);
        let personality = plan.bytes();
        assert_eq!(found(&personality), told(&personality), "{plan:?}");
    }
}

#[test]
fn other_times_that_rule() {
    let mut rng = Rng::new(23);
    for _ in 0..500 {
        let personality = Plan::random(&mut rng).bytes();
        let other = retimed(&mut rng, &personality);
        let (bound, waits) = told(&other);
        let site = model::Site::read(&personality).unwrap();
        let mut ruled = TimedState::fresh(&site);
        ruled.ruling = model::Times::of(&model::Site::read(&other).unwrap());
        let mut monitor = Monitor::new(&personality);
        let seen = Seen {
            before: &ruled.to_bytes(),
            inputs: 0,
            after: &ruled.to_bytes(),
            colours: &vec![0; site.group_count()],
            wait: bound,
        };
        monitor.accepted_step(&seen).unwrap();
        assert_eq!(monitor.waits(), waits);
    }
}
