//! The line that says why a phase holds its green, taken apart.

use std::iter::Peekable;
use std::str;

/// The length of the longest line in bytes.
pub const LONGEST_LINE: usize = 107;

/// What a line says of a phase in running. A count that is not told is 0.
#[derive(Clone, Copy, Debug, PartialEq, Eq)]
pub struct Why {
    /// The phase; 0 is A.
    pub phase: u8,
    /// No other phase is demanded.
    pub no_other_demand: bool,
    /// The gap count.
    pub gap: u16,
    /// The steps left to the maximum green.
    pub max: u16,
    /// The movements in walk or their first clearance; bit 0 is the first movement,
    /// which the line calls 1.
    pub walks: u8,
}

impl Why {
    /// What a line says. None for bytes that no list of reasons reads as, and for the
    /// empty line of a phase that is not running.
    pub fn parse(line: &[u8]) -> Option<Why> {
        let mut parts = str::from_utf8(line).ok()?.split(", ").peekable();
        Some(Why {
            phase: letter(parts.next()?.strip_suffix(" holds")?)?,
            no_other_demand: parts.next_if_eq(&"no other demand").is_some(),
            gap: told_count(&mut parts, "gap ")?,
            max: told_count(&mut parts, "max ")?,
            walks: walks(parts)?,
        })
    }
}

/// The phase of a letter, A to G.
fn letter(text: &str) -> Option<u8> {
    match text.as_bytes() {
        [letter @ b'A'..=b'G'] => Some(letter - b'A'),
        _ => None,
    }
}

/// The count behind a word, where the next part begins with it, else 0. None if it
/// is not told as a count is.
fn told_count<'a>(parts: &mut Peekable<impl Iterator<Item = &'a str>>, word: &str) -> Option<u16> {
    match parts.next_if(|part| part.starts_with(word)) {
        Some(part) => count(part, word),
        None => Some(0),
    }
}

/// The count behind a word: above 0, decimal, and without leading zeros.
fn count(part: &str, word: &str) -> Option<u16> {
    let digits = part.strip_prefix(word)?;
    let count: u16 = digits.parse().ok()?;
    (count > 0 && count.to_string() == digits).then_some(count)
}

/// The movements of the last parts. Their numbers are 1 to 8 and rise.
fn walks<'a>(parts: impl Iterator<Item = &'a str>) -> Option<u8> {
    let mut set = 0_u8;
    for part in parts {
        let bit = 1_u8.checked_shl(u32::from(count(part, "walk ")?) - 1)?;
        if bit <= set {
            return None;
        }
        set |= bit;
    }
    Some(set)
}

#[cfg(test)]
mod tests {
    use super::*;

    #[test]
    fn the_longest_line_and_the_shortest() {
        let line = b"C holds, no other demand, gap 100, max 1500, walk 1, walk 2, walk 3, walk 4, \
                     walk 5, walk 6, walk 7, walk 8";
        assert_eq!(line.len(), LONGEST_LINE);
        let all = Why {
            phase: 2,
            no_other_demand: true,
            gap: 100,
            max: 1500,
            walks: 0xFF,
        };
        assert_eq!(Why::parse(line), Some(all));
        let none = Why {
            phase: 0,
            no_other_demand: false,
            gap: 0,
            max: 0,
            walks: 0,
        };
        assert_eq!(Why::parse(b"A holds"), Some(none));
        let some = Why {
            max: 30,
            walks: 0b1000_0010,
            ..none
        };
        assert_eq!(Why::parse(b"A holds, max 30, walk 2, walk 8"), Some(some));
    }

    #[test]
    fn bytes_that_are_no_line() {
        for text in [
            "",
            "A",
            "A hold",
            "A holds ",
            "A holds,",
            "A holds, ",
            "a holds",
            "H holds",
            "@ holds",
            "AB holds",
            " holds",
            "A  holds",
            "A holds\0",
            "A holds\n",
            "A holds, gap",
            "A holds, gap ",
            "A holds, gap 0",
            "A holds, gap 05",
            "A holds, gap +5",
            "A holds, gap -5",
            "A holds, gap 5 ",
            "A holds, gap 65536",
            "A holds, gap 5, gap 5",
            "A holds, max 5, gap 5",
            "A holds, gap 5, no other demand",
            "A holds, no other demand, no other demand",
            "A holds, No other demand",
            "A holds, no other demands",
            "A holds,gap 5",
            "A holds, , gap 5",
            "A holds; gap 5",
            "A holds, walk 1, max 5",
            "A holds, walk 0",
            "A holds, walk 9",
            "A holds, walk 10",
            "A holds, walk 17",
            "A holds, walk 1, walk 1",
            "A holds, walk 2, walk 1",
            "A holds, walk",
            "A holds, stop 1",
        ] {
            assert_eq!(Why::parse(text.as_bytes()), None, "{text:?}");
        }
        assert_eq!(Why::parse(b"A holds\xff"), None);
    }
}
