//! Request nine of document 02 in whole numbers, written from the paper.

use std::ops::RangeInclusive;

/// The speeds of the table, in km/h.
pub const SPEEDS: RangeInclusive<u32> = 40..=110;
/// The grades of the table, in percent; uphill is positive.
pub const GRADES: RangeInclusive<i32> = -10..=10;

/// The shortest yellow, the limit of Y.
const SHORTEST: u64 = 30;
/// The driver's reaction, one second.
const REACTION: u64 = 10;

/// A yellow time in steps, or the number of the refusal.
#[derive(Clone, Copy, Debug, PartialEq, Eq)]
pub enum Answer {
    Yellow(u64),
    Refused(u8),
}

impl Answer {
    /// The answer as the library packs it.
    pub fn packed(self) -> u64 {
        match self {
            Answer::Yellow(steps) => steps << 8,
            Answer::Refused(number) => u64::from(number),
        }
    }
}

/// The yellow at a speed and a grade.
pub fn yellow(speed: u32, grade: i32) -> Answer {
    if !SPEEDS.contains(&speed) || !GRADES.contains(&grade) {
        return Answer::Refused(23);
    }
    let divisor = 36 * (6_000 + 196 * i64::from(grade));
    let braking = rounded_up(100_000 * i64::from(speed), divisor);
    Answer::Yellow(SHORTEST.max(REACTION + braking))
}

/// The smallest whole number that is not below a fraction, whose divisor is above
/// 0. It is found by trying, so that no division rounds.
fn rounded_up(dividend: i64, divisor: i64) -> u64 {
    let mut whole = 0;
    while whole * divisor < dividend {
        whole += 1;
    }
    whole as u64
}

/// The table: by speed, then by grade, both rising.
pub fn table() -> Vec<u64> {
    let pairs = SPEEDS.flat_map(|speed| GRADES.map(move |grade| (speed, grade)));
    pairs
        .map(|(speed, grade)| match yellow(speed, grade) {
            Answer::Yellow(steps) => steps,
            Answer::Refused(_) => unreachable!("a pair of the table"),
        })
        .collect()
}
