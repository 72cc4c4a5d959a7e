//! New times while running: a second personality that differs from the first in
//! time settings alone.

use crate::refusal::{Number, Refusal};
use crate::site::Site;
use crate::timed::{valid_timed, TimedState};
use crate::times::Times;

/// A full retiming call: the first personality is read and checked, then the state,
/// then the new personality, then that they differ in times alone. The new times
/// wait, in place of any that waited.
pub fn retime(
    personality: &[u8],
    timed: &TimedState,
    new_personality: &[u8],
) -> Result<TimedState, Refusal> {
    let site = Site::read(personality)?;
    retime_on(&site, personality, timed, new_personality)
}

/// A retiming on a site already read from its personality.
pub fn retime_on(
    site: &Site,
    personality: &[u8],
    timed: &TimedState,
    new_personality: &[u8],
) -> Result<TimedState, Refusal> {
    if !valid_timed(site, timed) {
        return Err(Refusal::without_place(Number::InvalidState));
    }
    let new_site = Site::read(new_personality)?;
    if !times_alone_differ(personality, new_personality) {
        return Err(Refusal::without_place(Number::NotTimesAlone));
    }
    Ok(TimedState {
        waiting: Some(Times::of(&new_site)),
        ..*timed
    })
}

/// Whether bytes differ from an accepted personality at most in its time settings.
pub fn times_alone_differ(personality: &[u8], other: &[u8]) -> bool {
    if personality.len() != other.len() {
        return false;
    }
    let (mut old, mut new) = (personality, other);
    while let Some(section) = Section::take(&mut old) {
        let (other, rest) = new.split_at(section.head.len() + section.body.len());
        let (head, body) = other.split_at(section.head.len());
        let kept = ..section.times_from();
        if section.head != head || section.body[kept] != body[kept] {
            return false;
        }
        new = rest;
    }
    true
}

/// A section of an accepted personality.
struct Section<'a> {
    head: &'a [u8; 4],
    body: &'a [u8],
}

impl<'a> Section<'a> {
    fn take(bytes: &mut &'a [u8]) -> Option<Section<'a>> {
        let (head, rest) = bytes.split_first_chunk()?;
        let length = u16::from_le_bytes([head[0], head[1]]);
        let (body, rest) = rest.split_at_checked(length.into())?;
        *bytes = rest;
        Some(Section { head, body })
    }

    /// Where the times in the body begin; they go on to its end. A section of a kind
    /// that has none ends before they begin.
    fn times_from(&self) -> usize {
        match u16::from_le_bytes([self.head[2], self.head[3]]) {
            // Behind the counts of a site section, of either edition.
            1 | 8 => 2,
            2 | 6 | 7 => 0,
            _ => self.body.len(),
        }
    }
}
