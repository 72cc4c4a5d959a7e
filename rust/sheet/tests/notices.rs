//! The worked cases, a plain binary64 program that agrees with exact arithmetic,
//! and programs that are wrong in one small thing: the comparison notices.

use sheet::compare;
use sheet::model::{settings, unrounded, Answer, ADVANCE, STOP_LINE};

fn given(minimum: u64, passage: u64) -> Answer {
    Answer::Settings { minimum, passage }
}

fn advance(speed: u32, metres: f64) -> Answer {
    settings(speed, ADVANCE, metres.to_bits())
}

#[test]
fn the_rows_of_document_002() {
    let rows = [
        (24, 12.0, 80, 18),
        (32, 18.0, 100, 21),
        (40, 24.0, 120, 22),
        (48, 30.0, 140, 23),
        (56, 41.0, 160, 27),
        (64, 52.0, 200, 30),
    ];
    for (speed, metres, minimum, passage) in rows {
        assert_eq!(advance(speed, metres), given(minimum, passage));
    }
}

#[test]
fn the_ends_of_the_ranges() {
    assert_eq!(advance(50, 0.0), given(40, 0));
    assert_eq!(advance(50, -0.0), given(40, 0));
    assert_eq!(advance(50, f64::from_bits(1)), given(40, 1));
    assert_eq!(advance(50, 6f64.next_down()), given(40, 5));
    assert_eq!(advance(50, 6.0), given(60, 5));
    assert_eq!(advance(110, 114f64.next_down()), given(400, 38));
    assert_eq!(advance(110, 114.0), Answer::Refused(20));
    assert_eq!(advance(110, 300.0), Answer::Refused(20));
    assert_eq!(advance(110, 300f64.next_up()), Answer::Refused(19));
    for metres in [f64::NAN, f64::INFINITY, f64::NEG_INFINITY, -1e-300] {
        assert_eq!(advance(50, metres), Answer::Refused(19));
    }
    assert_eq!(settings(50, STOP_LINE, 18f64.to_bits()), given(100, 0));
    assert_eq!(settings(50, 2, 18f64.to_bits()), Answer::Refused(19));
    assert_eq!(
        settings(111, STOP_LINE, 300f64.to_bits()),
        Answer::Refused(19)
    );
}

#[test]
fn rounding_decides() {
    let bits = 0x404B_C71C_71C7_1C72;
    assert_eq!(settings(20, ADVANCE, bits), given(220, 100));
    assert_eq!(unrounded(20, ADVANCE, bits), Answer::Refused(20));
}

/// The points in which a plain program may go wrong.
#[derive(Clone, Copy, Default)]
struct Wrong {
    divides: bool,
    rounds_twice: bool,
    floor: bool,
    vehicle_more: bool,
    takes_no_number: bool,
    exchanged: bool,
    limits_first: bool,
}

/// Request six with the machine's own binary64 numbers.
fn plain(wrong: Wrong, speed: u32, detector: u32, metres: f64) -> u64 {
    let inside = (0.0..=300.0).contains(&metres) || (wrong.takes_no_number && metres.is_nan());
    let in_range = (20..=110).contains(&speed) && inside && detector <= 1;
    let limits_checked = wrong.limits_first && metres > 114.0;
    if !(in_range || limits_checked) {
        return 19;
    }
    let minimum = 40 + 20 * ((metres / 6.0).floor() as u64 + u64::from(wrong.vehicle_more));
    let reaches = |t: u64| {
        let way = (t * u64::from(speed)) as f64;
        if wrong.divides {
            metres <= way / 36.0
        } else if wrong.rounds_twice {
            metres * 3.6 * 10.0 <= way
        } else {
            metres * 36.0 <= way
        }
    };
    let mut passage = 0;
    if (detector == 0) != wrong.exchanged {
        passage = (0..=540).find(|&t| reaches(t)).unwrap_or(541);
        if wrong.floor && (passage * u64::from(speed)) as f64 > metres * 36.0 {
            passage -= 1;
        }
    }
    if minimum > 400 || passage > 100 {
        return 20;
    }
    minimum << 8 | passage << 24
}

fn noticed(wrong: Wrong) -> bool {
    compare(&move |s, d, m| plain(wrong, s, d, m), 7, 100_000).is_err()
}

#[test]
fn a_plain_program_agrees() {
    assert!(!noticed(Wrong::default()));
}

#[test]
fn wrong_programs_are_noticed() {
    let right = Wrong::default();
    assert!(noticed(Wrong {
        divides: true,
        ..right
    }));
    assert!(noticed(Wrong {
        rounds_twice: true,
        ..right
    }));
    assert!(noticed(Wrong {
        floor: true,
        ..right
    }));
    assert!(noticed(Wrong {
        vehicle_more: true,
        ..right
    }));
    assert!(noticed(Wrong {
        takes_no_number: true,
        ..right
    }));
    assert!(noticed(Wrong {
        exchanged: true,
        ..right
    }));
    assert!(noticed(Wrong {
        limits_first: true,
        ..right
    }));
    let unrounded = |s, d, m: f64| unrounded(s, d, m.to_bits()).packed();
    assert!(compare(&unrounded, 7, 100_000).is_err());
}
