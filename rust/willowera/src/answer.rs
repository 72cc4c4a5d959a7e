//! The packed answers of the library.

use crate::refusal;
use std::fmt;

/// A refusal: its number, one of [`crate::refusal`], and the byte of the personality it
/// is about.
#[derive(Clone, Copy, Debug, PartialEq, Eq)]
pub struct Refusal {
    pub number: u8,
    pub place: u64,
}

impl Refusal {
    /// What the number means, without a full stop. It names no group and no phase: for
    /// that see `willowera_explain` of include/willowera_words.h.
    pub fn words(&self) -> &'static str {
        refusal::words(self.number)
    }
}

/// The number, the place and the words: `refused 12 68: bytes follow the last section`.
impl fmt::Display for Refusal {
    fn fmt(&self, f: &mut fmt::Formatter<'_>) -> fmt::Result {
        let Refusal { number, place } = self;
        write!(f, "refused {number} {place}: {}", self.words())
    }
}

impl std::error::Error for Refusal {}

/// The body of a section: its first byte in the personality, and its length.
#[derive(Clone, Copy, Debug, PartialEq, Eq)]
pub struct Part {
    pub offset: usize,
    pub length: usize,
}

/// The settings of a site sheet, in steps.
#[derive(Clone, Copy, Debug, PartialEq, Eq)]
pub struct Settings {
    pub minimum_green: u16,
    pub passage_time: u16,
}

/// What an answer carries where its number is 0 (the wait bound), or the refusal.
pub fn wait_bound_or_refusal(answer: u64) -> Result<u64, Refusal> {
    let number = answer as u8;
    let rest = answer >> 8;
    if number == 0 {
        Ok(rest)
    } else {
        Err(Refusal {
            number,
            place: rest,
        })
    }
}

/// The part in the answer to a lookup: the offset in bits 8 to 39, the length in
/// bits 40 to 63.
pub fn part(answer: u64) -> Result<Part, Refusal> {
    let rest = wait_bound_or_refusal(answer)?;
    Ok(Part {
        offset: (rest & 0xFFFF_FFFF) as usize,
        length: (rest >> 32) as usize,
    })
}

/// The settings in the answer to a site sheet: minimum green in bits 8 to 23,
/// the passage time in bits 24 to 39.
pub fn sheet_settings(answer: u64) -> Result<Settings, Refusal> {
    let rest = wait_bound_or_refusal(answer)?;
    Ok(Settings {
        minimum_green: rest as u16,
        passage_time: (rest >> 16) as u16,
    })
}

#[cfg(test)]
mod tests {
    use super::*;

    #[test]
    fn an_accepted_answer_has_the_wait_bound() {
        assert_eq!(wait_bound_or_refusal(0), Ok(0));
        assert_eq!(wait_bound_or_refusal(270 << 8), Ok(270));
        assert_eq!(wait_bound_or_refusal(37_950 << 8), Ok(37_950));
    }

    #[test]
    fn a_refusal_has_a_number_and_a_place() {
        let refusal = wait_bound_or_refusal(68 << 8 | 12).unwrap_err();
        assert_eq!((refusal.number, refusal.place), (12, 68));
        let words = "refused 12 68: bytes follow the last section";
        assert_eq!(refusal.to_string(), words);
        let without_place = wait_bound_or_refusal(15).unwrap_err();
        assert_eq!((without_place.number, without_place.place), (15, 0));
    }

    #[test]
    fn a_part_has_an_offset_and_a_length() {
        let found = Part {
            offset: 12,
            length: 24,
        };
        assert_eq!(part(12 << 8 | 24 << 40), Ok(found));
        let farthest = Part {
            offset: 0xFFFF_FFFF,
            length: 0xFF_FFFF,
        };
        assert_eq!(part(0xFFFF_FFFF_FFFF_FF00), Ok(farthest));
        assert_eq!(part(2).unwrap_err().number, 2);
    }

    #[test]
    fn settings_have_a_minimum_green_and_a_passage_time() {
        let settings = Settings {
            minimum_green: 400,
            passage_time: 36,
        };
        assert_eq!(sheet_settings(400 << 8 | 36 << 24), Ok(settings));
        assert_eq!(sheet_settings(19).unwrap_err().number, 19);
    }
}
