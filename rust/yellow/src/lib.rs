//! Yellow times by speed and grade, call by call, against whole numbers.

#![forbid(unsafe_code)]

pub mod model;

use model::{Answer, GRADES, SPEEDS};
use std::fmt;

/// What answers a speed and a grade.
pub type Yellow = dyn Fn(u32, i32) -> u64;

/// The yellow times that are compared: those of the library, if it is linked. The model does
/// not stand in for it, as it would agree with itself.
pub fn library() -> Option<&'static Yellow> {
    #[cfg(feature = "linked")]
    return Some(&willowera::packed::yellow);
    #[cfg(not(feature = "linked"))]
    return None;
}

/// What was compared, counted.
#[derive(Clone, Copy, Debug, Default, PartialEq, Eq)]
pub struct Tally {
    pub yellows: u64,
    pub refused: u64,
}

impl fmt::Display for Tally {
    fn fmt(&self, f: &mut fmt::Formatter<'_>) -> fmt::Result {
        writeln!(f, "{:>9}  yellow times", self.yellows)?;
        write!(f, "{:>9}  refused with 23", self.refused)
    }
}

/// A call whose answer is not the model's.
#[derive(Clone, Copy, Debug, PartialEq, Eq)]
pub struct Difference {
    pub speed: u32,
    pub grade: i32,
    pub expected: u64,
    pub found: u64,
}

impl fmt::Display for Difference {
    fn fmt(&self, f: &mut fmt::Formatter<'_>) -> fmt::Result {
        let Difference {
            speed,
            grade,
            expected,
            found,
        } = self;
        write!(
            f,
            "speed {speed}, grade {grade}: expected {expected:#x}, found {found:#x}"
        )
    }
}

/// Compares every entry of the table, every pair of small numbers beside it, and
/// the pairs of far numbers with all others.
pub fn compare(yellow: &Yellow) -> Result<Tally, Box<Difference>> {
    let mut tally = Tally::default();
    let small = (0..=400).flat_map(|speed| (-300..=300).map(move |grade| (speed, grade)));
    let (speeds, grades) = (far_speeds(), far_grades());
    let far = speeds
        .iter()
        .flat_map(|&speed| grades.iter().map(move |&grade| (speed, grade)));
    for (speed, grade) in small.chain(far) {
        let answer = model::yellow(speed, grade);
        let (expected, found) = (answer.packed(), yellow(speed, grade));
        if found != expected {
            return Err(Box::new(Difference {
                speed,
                grade,
                expected,
                found,
            }));
        }
        match answer {
            Answer::Yellow(_) => tally.yellows += 1,
            Answer::Refused(_) => tally.refused += 1,
        }
    }
    Ok(tally)
}

/// The speeds of the table, the ends of all numbers, and numbers that fewer bits
/// would take for a speed of the table.
fn far_speeds() -> Vec<u32> {
    let mut speeds = vec![0, 39, 111, i32::MAX as u32, 1 << 31, u32::MAX - 1, u32::MAX];
    for speed in SPEEDS {
        speeds.extend([speed, speed.wrapping_neg()]);
        speeds.extend([8, 16, 24, 31].map(|bit| speed + (1 << bit)));
    }
    speeds
}

/// The grades of the table, the ends of all numbers, and numbers that fewer bits
/// would take for a grade of the table.
fn far_grades() -> Vec<i32> {
    let mut grades = vec![-11, 11, i32::MIN, i32::MIN + 1, i32::MAX - 1, i32::MAX];
    for grade in GRADES {
        grades.push(grade);
        for bit in [8, 16, 24, 31] {
            let far = 1_i32.wrapping_shl(bit);
            grades.extend([grade.wrapping_add(far), grade.wrapping_sub(far)]);
        }
    }
    grades
}
