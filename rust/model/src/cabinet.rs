//! Four sites in one cabinet, request ten. Each record of the cabinet is free or
//! holds a site, whose groups have outputs in a row. Only the placing of a site
//! depends on the others.

use crate::colours::Colour;
use crate::record::{Record, ROOM};
use crate::refusal::{Number, Refusal, Verdict};
use crate::site::Site;
use crate::timed::{step_timed_on, TimedState};
use core::ops::Range;

/// The outputs of a cabinet.
pub const OUTPUTS: usize = 32;

/// Places a site at a first output. It begins fresh, with its outputs red.
pub fn place(
    records: &mut [Record],
    record: usize,
    personality: &[u8],
    first: usize,
    outputs: &mut [u8],
) -> Verdict {
    let site = Site::read(personality)?;
    let free = records.get(record).is_some_and(Record::is_free);
    if !free {
        return Err(Refusal::without_place(Number::WrongRecord));
    }
    let own = outputs_of(&site, first)?;
    if records
        .iter()
        .filter_map(Record::taken)
        .any(|taken| meet(&taken, &own))
    {
        return Err(Refusal::without_place(Number::WrongOutputs));
    }
    whole(outputs)?[own].fill(Colour::Red as u8);
    records[record] = begun(&site, personality, first);
    Ok(())
}

/// Steps the site of a record as if it were alone: its outputs are its colours.
/// Answers the wait bound of the times that rule after it.
pub fn step_held(
    records: &mut [Record],
    record: usize,
    inputs: u64,
    outputs: &mut [u8],
) -> Result<u32, Refusal> {
    let held = held_record(records, record)?;
    let site = Site::read(held.personality())?;
    let own = outputs_of(&site, held.first.into())?;
    let Some(before) = TimedState::from_bytes(&held.state) else {
        return Err(Refusal::without_place(Number::InvalidState));
    };
    // A short buffer has none of the outputs, and is refused in its turn.
    let colours = whole(outputs).map_or(&mut [][..], |all| &mut all[own]);
    let next = step_timed_on(&site, &before, inputs, colours)?;
    let bound = next.wait_bound(&site);
    held.state = next.to_bytes();
    Ok(bound)
}

/// Takes the site out of a record, which is then free, and turns its outputs
/// dark. The state is of no account.
pub fn take_out(records: &mut [Record], record: usize, outputs: &mut [u8]) -> Verdict {
    let held = held_record(records, record)?;
    let site = Site::read(held.personality())?;
    let own = outputs_of(&site, held.first.into())?;
    whole(outputs)?[own].fill(Colour::Dark as u8);
    *held = Record::FREE;
    Ok(())
}

/// A record that is not free.
fn held_record(records: &mut [Record], record: usize) -> Result<&mut Record, Refusal> {
    match records.get_mut(record) {
        Some(record) if !record.is_free() => Ok(record),
        _ => Err(Refusal::without_place(Number::WrongRecord)),
    }
}

/// The record of a site just placed. An accepted personality is not longer than
/// the room, and a first output is below their number.
fn begun(site: &Site, personality: &[u8], first: usize) -> Record {
    let mut room = [0; ROOM];
    room[..personality.len()].copy_from_slice(personality);
    Record {
        held: 1,
        first: first as u8,
        length: personality.len() as u16,
        room,
        state: TimedState::fresh(site).to_bytes(),
    }
}

/// The outputs of a site, one for each group: none may be past the last.
fn outputs_of(site: &Site, first: usize) -> Result<Range<usize>, Refusal> {
    match first.checked_add(site.group_count()) {
        Some(end) if end <= OUTPUTS => Ok(first..end),
        _ => Err(Refusal::without_place(Number::WrongOutputs)),
    }
}

impl Record {
    /// The outputs that the record takes away from others: one for each group,
    /// past the last output too, and none if its personality would be refused.
    pub fn taken(&self) -> Option<Range<usize>> {
        if self.is_free() {
            return None;
        }
        let site = Site::read(self.personality()).ok()?;
        let first = usize::from(self.first);
        Some(first..first + site.group_count())
    }
}

/// Whether two rows of outputs have one in common.
fn meet(one: &Range<usize>, other: &Range<usize>) -> bool {
    one.start < other.end && other.start < one.end
}

/// All outputs of a buffer, which may be longer.
fn whole(outputs: &mut [u8]) -> Result<&mut [u8; OUTPUTS], Refusal> {
    outputs
        .first_chunk_mut()
        .ok_or(Refusal::without_place(Number::ShortBuffer))
}
