//! Looking up a section of a personality.

use crate::refusal::{Number, Refusal};
use crate::site::Site;

/// The body of a section: its first byte in the personality, and its length.
#[derive(Clone, Copy, Debug, PartialEq, Eq)]
pub struct Part {
    pub offset: u32,
    pub length: u32,
}

/// The body of the section of a kind, or why there is none.
pub fn section(personality: &[u8], kind: u16) -> Result<Part, Refusal> {
    let site = Site::read(personality)?;
    let early_cut_offs = site.has_early_cut_offs().then(|| 2 * site.phase_count());
    let order = site.has_order().then(|| site.phase_count());
    let sections = [
        (site.edition().site_kind(), Some(4)),
        (2, Some(12 * site.phase_count())),
        (3, Some(2 * site.group_count())),
        (4, Some(4 * site.group_count())),
        (5, Some(2 * site.detector_count())),
        (6, Some(6 * site.movement_count())),
        (7, early_cut_offs),
        (9, order),
    ];
    let mut head = 0;
    for (held, length) in sections {
        if let Some(length) = length {
            if held == kind {
                return Ok(Part {
                    offset: head + 4,
                    length: length as u32,
                });
            }
            head += 4 + length as u32;
        }
    }
    Err(Refusal::without_place(Number::UnexpectedKind))
}
