//! The worked cases, a plain program that agrees, and programs that are wrong in
//! one small thing: the comparison notices.

use yellow::compare;
use yellow::model::{table, yellow, Answer};

#[test]
fn the_worked_cases() {
    assert_eq!(yellow(72, 0), Answer::Yellow(44));
    assert_eq!(yellow(40, 10), Answer::Yellow(30));
    assert_eq!(yellow(110, -10), Answer::Yellow(86));
}

#[test]
fn the_ends_of_the_table() {
    // 4,000,000 / 145,440 is 27.5 and a little more.
    assert_eq!(yellow(40, -10), Answer::Yellow(38));
    // 11,000,000 / 286,560 is 38.4 and a little less.
    assert_eq!(yellow(110, 10), Answer::Yellow(49));
    for (speed, grade) in [(39, 0), (111, 0), (40, -11), (110, 11), (0, 0)] {
        assert_eq!(yellow(speed, grade), Answer::Refused(23));
    }
    for grade in [i32::MIN, i32::MAX] {
        assert_eq!(yellow(72, grade), Answer::Refused(23));
        assert_eq!(yellow(u32::MAX, grade), Answer::Refused(23));
    }
}

#[test]
fn a_whole_fraction_is_not_rounded() {
    // 100,000 × 54 / (36 × 6,000) is 25.
    assert_eq!(yellow(54, 0), Answer::Yellow(35));
    assert_eq!(yellow(55, 0), Answer::Yellow(36));
}

#[test]
fn the_table_has_its_entries_in_order() {
    let table = table();
    assert_eq!(table.len(), 1_491);
    // By speed, then by grade: 72 at 0 is in row 32, tenth after the first.
    assert_eq!(table[32 * 21 + 10], 44);
    assert_eq!((table[20], table[70 * 21]), (30, 86));
    assert_eq!(table.iter().min(), Some(&30));
    assert_eq!(table.iter().max(), Some(&86));
    for row in table.chunks(21) {
        assert!(row.is_sorted_by(|flatter, steeper| flatter >= steeper));
    }
    for entry in 21..1_491 {
        assert!(table[entry - 21] <= table[entry]);
    }
}

/// The points in which a plain program may go wrong.
#[derive(Clone, Copy, Default)]
struct Wrong {
    rounds_down: bool,
    rounds_to_nearest: bool,
    rounds_up_always: bool,
    no_shortest: bool,
    downhill_positive: bool,
    no_reaction: bool,
    coarse_gravity: bool,
    narrow_speed: bool,
    narrow_grade: bool,
    by_place: bool,
    grade_first: bool,
    open_end: bool,
}

/// Request nine with the machine's division.
fn plain(wrong: Wrong, speed: u32, grade: i32) -> u64 {
    let speed = if wrong.narrow_speed {
        speed & 0xFF
    } else {
        speed
    };
    let grade = if wrong.narrow_grade {
        i32::from(grade as i8)
    } else {
        grade
    };
    if wrong.by_place {
        // The place in the table alone is looked at.
        let place = (i64::from(speed) - 40) * 21 + i64::from(grade) + 10;
        let entry = usize::try_from(place)
            .ok()
            .and_then(|place| table().get(place).copied());
        return entry.map_or(23, |entry| entry << 8);
    }
    let last = if wrong.open_end { 109 } else { 110 };
    if !(40..=last).contains(&speed) || !(-10..=10).contains(&grade) {
        return 23;
    }
    if wrong.grade_first {
        let place = (grade + 10) as usize * 71 + (speed - 40) as usize;
        return table()[place] << 8;
    }
    let uphill = if wrong.downhill_positive {
        -grade
    } else {
        grade
    };
    let gravity = if wrong.coarse_gravity { 200 } else { 196 };
    let divisor = (36 * (6_000 + gravity * uphill)) as u64;
    let dividend = 100_000 * u64::from(speed);
    let braking = if wrong.rounds_down {
        dividend / divisor
    } else if wrong.rounds_to_nearest {
        (2 * dividend + divisor) / (2 * divisor)
    } else if wrong.rounds_up_always {
        dividend / divisor + 1
    } else {
        dividend.div_ceil(divisor)
    };
    let reaction = if wrong.no_reaction { 0 } else { 10 };
    let shortest = if wrong.no_shortest { 0 } else { 30 };
    (reaction + braking).max(shortest) << 8
}

fn noticed(wrong: Wrong) -> bool {
    compare(&move |speed, grade| plain(wrong, speed, grade)).is_err()
}

#[cfg(feature = "linked")]
#[test]
fn the_library_differs_nowhere() {
    let library = yellow::library().expect("it is linked");
    if let Err(difference) = compare(library) {
        panic!("{difference}");
    }
}

#[test]
fn a_plain_program_agrees() {
    let tally = compare(&|speed, grade| plain(Wrong::default(), speed, grade)).unwrap();
    // Each entry is met twice.
    assert_eq!(tally.yellows, 2 * 1_491);
}

#[test]
fn wrong_programs_are_noticed() {
    let right = Wrong::default();
    let wrongs = [
        Wrong {
            rounds_down: true,
            ..right
        },
        Wrong {
            rounds_to_nearest: true,
            ..right
        },
        Wrong {
            rounds_up_always: true,
            ..right
        },
        Wrong {
            no_shortest: true,
            ..right
        },
        Wrong {
            downhill_positive: true,
            ..right
        },
        Wrong {
            no_reaction: true,
            ..right
        },
        Wrong {
            coarse_gravity: true,
            ..right
        },
        Wrong {
            narrow_speed: true,
            ..right
        },
        Wrong {
            narrow_grade: true,
            ..right
        },
        Wrong {
            by_place: true,
            ..right
        },
        Wrong {
            grade_first: true,
            ..right
        },
        Wrong {
            open_end: true,
            ..right
        },
    ];
    for (index, wrong) in wrongs.into_iter().enumerate() {
        assert!(noticed(wrong), "wrong program {index}");
    }
}
