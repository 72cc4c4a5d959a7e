//! Edition two of the limits: a site section of kind 8.

use generate::{known_inputs, Plan, Rng};
use model::packed;
use model::{
    fresh, layout, read, section, step, Edition, Number, Part, Refusal, Setting, Site, TimedState,
};

const SEED: u64 = 8;

/// The number and place of a refusal, 0 at 0 where it is accepted.
fn verdict(bytes: &[u8]) -> (u8, u32) {
    match read(bytes) {
        Ok(()) => (0, 0),
        Err(Refusal { number, place }) => (number as u8, place),
    }
}

/// The verdict on the junction of edition two with times put in.
fn junction_with(start_red: u16, all_reds: [u16; 2]) -> (u8, u32) {
    let mut plan = Plan::junction_two();
    plan.start_red = start_red;
    plan.phases[0][5] = all_reds[0];
    plan.phases[1][5] = all_reds[1];
    verdict(&plan.bytes())
}

#[test]
fn the_worked_cases() {
    assert_eq!(junction_with(30, [15, 15]), (0, 0));
    assert_eq!(junction_with(29, [15, 15]), (5, 6));
    assert_eq!(junction_with(30, [14, 15]), (5, 22));
    assert_eq!(junction_with(30, [15, 14]), (5, 34));
    assert_eq!(junction_with(29, [14, 14]), (5, 6));
    let mut bytes = Plan::junction_two().bytes();
    bytes[2] = 1;
    assert_eq!(verdict(&bytes), (0, 0));
    for kind in [0, 2, 9] {
        bytes[2] = kind;
        assert_eq!(verdict(&bytes), (2, 0));
    }
}

#[test]
fn the_highest_values_stay() {
    assert_eq!(junction_with(150, [150, 150]), (0, 0));
    assert_eq!(junction_with(151, [150, 150]), (5, 6));
    assert_eq!(junction_with(150, [151, 150]), (5, 22));
    assert_eq!(junction_with(u16::MAX, [150, 150]), (5, 6));
}

#[test]
fn only_two_lowest_values_differ() {
    let all = [
        Setting::StartRed,
        Setting::LateStart,
        Setting::MinimumGreen,
        Setting::MaximumGreen,
        Setting::Gap,
        Setting::Yellow,
        Setting::AllRed,
        Setting::Walk,
        Setting::ClearanceOne,
        Setting::ClearanceTwo,
        Setting::EarlyCutOff,
    ];
    for setting in all {
        let [one, two] = Edition::ALL.map(|edition| setting.limits(edition));
        let raised = match setting {
            Setting::StartRed => (10, 30),
            Setting::AllRed => (10, 15),
            _ => (one.low, one.low),
        };
        assert_eq!((one.low, two.low), raised, "{setting:?}");
        assert_eq!(one.high, two.high, "{setting:?}");
    }
}

#[test]
fn every_time_of_a_site_is_held_to_its_edition() {
    let mut rng = Rng::new(SEED);
    for _ in 0..200 {
        let plan = Plan::random(&mut rng);
        let bytes = plan.bytes();
        let phases = plan.phases.len();
        let all_red = |phase: usize| 12 + 12 * phase + 10;
        let fields = (0..phases).map(all_red).chain([6]);
        for at in fields {
            let with = |time: u16| {
                let mut bytes = bytes.clone();
                bytes[at..at + 2].copy_from_slice(&time.to_le_bytes());
                verdict(&bytes)
            };
            let low = match (plan.edition, at) {
                (Edition::One, _) => 10,
                (Edition::Two, 6) => 30,
                (Edition::Two, _) => 15,
            };
            assert_eq!(with(low - 1), (5, at as u32));
            assert_eq!((with(low), with(150)), ((0, 0), (0, 0)));
            assert_eq!(with(151), (5, at as u32));
        }
    }
}

#[test]
fn kind_then_length_then_end_then_counts() {
    assert_eq!(verdict(&[4, 0, 8]), (1, 0));
    assert_eq!(verdict(&[4, 0, 8, 0]), (1, 0));
    assert_eq!(verdict(&[9, 0, 8, 0]), (3, 0));
    assert_eq!(verdict(&[3, 0, 8, 0, 2, 2, 30]), (3, 0));
    assert_eq!(verdict(&[9, 0, 8, 1]), (2, 0));
    assert_eq!(verdict(&[4, 0, 0, 8]), (2, 0));
    assert_eq!(verdict(&[4, 0, 8, 0, 2, 2, 30]), (1, 0));
    assert_eq!(verdict(&[4, 0, 8, 0, 8, 33, 29, 0]), (4, 4));
    assert_eq!(verdict(&[4, 0, 8, 0, 7, 33, 29, 0]), (4, 5));
    assert_eq!(verdict(&[4, 0, 8, 0, 7, 32, 29, 0]), (5, 6));
    assert_eq!(verdict(&[4, 0, 8, 0, 7, 32, 30, 0]), (1, 8));
    assert_eq!(verdict(&[4, 0, 1, 0, 7, 32, 29, 0]), (1, 8));
}

#[test]
fn every_first_kind() {
    for kind in 0..=u16::MAX {
        let mut bytes = Plan::junction_two().bytes();
        bytes[2..4].copy_from_slice(&kind.to_le_bytes());
        let expected = if kind == 1 || kind == 8 {
            (0, 0)
        } else {
            (2, 0)
        };
        assert_eq!(verdict(&bytes), expected, "kind {kind}");
    }
}

#[test]
fn kind_8_in_a_later_place() {
    for bytes in [Plan::junction().bytes(), Plan::junction_two().bytes()] {
        for head in [8, 36, 44, 56, 64] {
            let mut bytes = bytes.clone();
            bytes[head + 2] = 8;
            assert_eq!(verdict(&bytes), (2, head as u32));
        }
        // After the site section, and after the last section.
        let site = [4, 0, 8, 0, 2, 2, 30, 0];
        let twice = [&bytes[..8], &site, &bytes[8..]].concat();
        assert_eq!(verdict(&twice), (2, 8));
        let behind = [&bytes[..], &site].concat();
        assert_eq!(verdict(&behind), (12, 68));
        let after_times = [&bytes[..], &[4, 0, 7, 0, 1, 0, 1, 0], &site].concat();
        assert_eq!(verdict(&after_times), (12, 76));
        let after_order = [&bytes[..], &[2, 0, 9, 0, 1, 0], &site].concat();
        assert_eq!(verdict(&after_order), (12, 74));
    }
}

#[test]
fn kind_8_is_held_where_it_was_read_and_kind_1_is_not() {
    let none = Refusal {
        number: Number::UnexpectedKind,
        place: 0,
    };
    let site = Part {
        offset: 4,
        length: 4,
    };
    let two = Plan::junction_two().bytes();
    assert_eq!(section(&two, 8), Ok(site));
    assert_eq!(section(&two, 1), Err(none));
    let one = Plan::junction().bytes();
    assert_eq!(section(&one, 1), Ok(site));
    assert_eq!(section(&one, 8), Err(none));
    for kind in 2..=6 {
        assert_eq!(section(&two, kind), section(&one, kind));
    }
    for kind in [0, 7, 9, 10, 257, 264, 2_048, u16::MAX] {
        assert_eq!(section(&two, kind), Err(none));
    }
    let cut = Refusal {
        number: Number::CutShort,
        place: 64,
    };
    for kind in 0..10 {
        assert_eq!(section(&two[..67], kind), Err(cut));
    }
}

#[test]
fn a_site_keeps_its_edition() {
    for (plan, edition) in [
        (Plan::junction(), Edition::One),
        (Plan::junction_two(), Edition::Two),
    ] {
        let bytes = plan.bytes();
        assert_eq!(Site::read(&bytes).unwrap().edition(), edition);
    }
}

#[test]
fn every_call_but_the_lookup_does_the_same_for_both_editions() {
    let mut rng = Rng::new(SEED);
    let mut found = 0;
    for _ in 0..400 {
        let plan = Plan::random(&mut rng);
        if plan.edition == Edition::One {
            continue;
        }
        found += 1;
        let two = plan.bytes();
        let mut one = two.clone();
        one[2] = 1;
        assert_eq!(packed::read(&one), 0);
        assert_eq!(packed::wait_bound(&one), packed::wait_bound(&two));
        let site = Site::read(&two).unwrap();
        let mut state = fresh();
        for _ in 0..200 {
            let inputs = known_inputs(&mut rng, &site);
            let mut colours = [[9; 32]; 2];
            let by_one = step(&one, &state, inputs, &mut colours[0]);
            let by_two = step(&two, &state, inputs, &mut colours[1]);
            assert_eq!(by_one, by_two);
            assert_eq!(colours[0], colours[1]);
            state = by_two.state;
        }
    }
    assert!(found >= 100, "{found}");
}

/// The junction of an edition with this start red, and all-reds of 20.
fn junction_of(edition: Edition, start_red: u16) -> Vec<u8> {
    let plan = Plan {
        edition,
        start_red,
        phases: vec![[0, 20, 30, 5, 30, 20]; 2],
        ..Plan::junction()
    };
    plan.bytes()
}

#[test]
fn a_retiming_does_not_change_the_edition() {
    let answer = |first: &[u8], second: &[u8]| {
        let site = Site::read(first).unwrap();
        let mut state = TimedState::fresh(&site).to_bytes();
        packed::retime(first, &mut state, second)
    };
    for edition in Edition::ALL {
        let first = junction_of(edition, 40);
        assert_eq!(answer(&first, &junction_of(edition, 50)), 0);
        for other in Edition::ALL.into_iter().filter(|&other| other != edition) {
            // Both are accepted; the kinds differ, with and without other times.
            assert_eq!(answer(&first, &junction_of(other, 40)), 26);
            assert_eq!(answer(&first, &junction_of(other, 50)), 26);
        }
    }
    // The new personality is read by its own edition first.
    let (one, two) = (junction_of(Edition::One, 40), junction_of(Edition::Two, 40));
    assert_eq!(answer(&one, &junction_of(Edition::Two, 29)), 6 << 8 | 5);
    assert_eq!(answer(&two, &junction_of(Edition::Two, 29)), 6 << 8 | 5);
    assert_eq!(answer(&two, &junction_of(Edition::One, 29)), 26);
    assert_eq!(answer(&one, &junction_of(Edition::One, 29)), 0);
}

#[test]
fn the_times_of_a_state_are_held_to_the_edition_of_the_site() {
    // Start red, the all-red of A and that of B, in a set of times.
    for (at, low) in [(0, [10, 30]), (12, [10, 15]), (24, [10, 15])] {
        for (edition, low) in Edition::ALL.into_iter().zip(low) {
            let personality = junction_of(edition, 40);
            let site = Site::read(&personality).unwrap();
            let mut timed = TimedState::fresh(&site);
            timed.waiting = Some(timed.ruling);
            for times in [layout::RULING, layout::WAITING] {
                let with = |time: u16| {
                    let mut state = timed.to_bytes();
                    let place = times + at;
                    state[place..place + 2].copy_from_slice(&time.to_le_bytes());
                    packed::number(packed::step(&personality, &mut state, 0, &mut [0; 2]))
                };
                assert_eq!((with(low - 1), with(low)), (13, 0), "{edition:?}, {at}");
                assert_eq!((with(150), with(151)), (0, 13), "{edition:?}, {at}");
            }
        }
    }
}
