//! The model in the shape of the board library: a state is bytes that a step
//! replaces, and an answer is one number. Its low 8 bits are 0 where the call is
//! accepted, else the number of the refusal; the rest is the wait bound, the length
//! of a line, the number of groups or of bytes, or the place.

use crate::cabinet;
use crate::record::{records_in, Record, RecordBytes};
use crate::refusal::{Number, Refusal};
use crate::road::{Road, RESULT_LEN};
use crate::sealed::{resume_on, seal_on, SEALED_LEN};
use crate::site::Site;
use crate::timed::{step_timed_on, TimedState};
use crate::why::{why_on, Reasons};
use crate::STATE_LEN;

/// A board: the calls of the library, over buffers of any content and length, and over rows
/// of any number of records.
pub trait Board {
    fn read(&self, personality: &[u8]) -> u64;
    fn wait_bound(&self, personality: &[u8]) -> u64;
    fn waits(&self, personality: &[u8], waits: &mut [u8]) -> u64;
    fn fresh(&self, personality: &[u8], state: &mut [u8]) -> u64;
    fn step(&self, personality: &[u8], state: &mut [u8], inputs: u64, colours: &mut [u8]) -> u64;
    fn retime(&self, personality: &[u8], state: &mut [u8], new_personality: &[u8]) -> u64;
    fn section(&self, personality: &[u8], kind: u16) -> u64;
    fn groups(&self, personality: &[u8]) -> u64;
    fn seal(&self, personality: &[u8], state: &[u8], sealed: &mut [u8]) -> u64;
    fn resume(&self, personality: &[u8], sealed: &[u8], state: &mut [u8]) -> u64;
    fn why_length(&self, personality: &[u8], state: &[u8], inputs: u64) -> u64;
    fn why(&self, personality: &[u8], state: &[u8], inputs: u64, line: &mut [u8]) -> u64;
    fn road(
        &self,
        personality: &[u8],
        streams: &[u8],
        steps: u32,
        state: &mut [u8],
        results: &mut [u8],
    ) -> u64;
    fn cabinet_place(
        &self,
        row: &mut [RecordBytes],
        record: usize,
        personality: &[u8],
        first: usize,
        outputs: &mut [u8],
    ) -> u64;
    fn cabinet_step(
        &self,
        row: &mut [RecordBytes],
        record: usize,
        inputs: u64,
        outputs: &mut [u8],
    ) -> u64;
    fn cabinet_take_out(&self, row: &mut [RecordBytes], record: usize, outputs: &mut [u8]) -> u64;
}

/// The model as a board.
#[derive(Clone, Copy, Debug, Default)]
pub struct Model;

impl Board for Model {
    fn read(&self, personality: &[u8]) -> u64 {
        read(personality)
    }

    fn wait_bound(&self, personality: &[u8]) -> u64 {
        wait_bound(personality)
    }

    fn waits(&self, personality: &[u8], waits: &mut [u8]) -> u64 {
        self::waits(personality, waits)
    }

    fn fresh(&self, personality: &[u8], state: &mut [u8]) -> u64 {
        fresh(personality, state)
    }

    fn step(&self, personality: &[u8], state: &mut [u8], inputs: u64, colours: &mut [u8]) -> u64 {
        step(personality, state, inputs, colours)
    }

    fn retime(&self, personality: &[u8], state: &mut [u8], new_personality: &[u8]) -> u64 {
        retime(personality, state, new_personality)
    }

    fn section(&self, personality: &[u8], kind: u16) -> u64 {
        section(personality, kind)
    }

    fn groups(&self, personality: &[u8]) -> u64 {
        groups(personality)
    }

    fn seal(&self, personality: &[u8], state: &[u8], sealed: &mut [u8]) -> u64 {
        seal(personality, state, sealed)
    }

    fn resume(&self, personality: &[u8], sealed: &[u8], state: &mut [u8]) -> u64 {
        resume(personality, sealed, state)
    }

    fn why_length(&self, personality: &[u8], state: &[u8], inputs: u64) -> u64 {
        why_length(personality, state, inputs)
    }

    fn why(&self, personality: &[u8], state: &[u8], inputs: u64, line: &mut [u8]) -> u64 {
        why(personality, state, inputs, line)
    }

    fn road(
        &self,
        personality: &[u8],
        streams: &[u8],
        steps: u32,
        state: &mut [u8],
        results: &mut [u8],
    ) -> u64 {
        road(personality, streams, steps, state, results)
    }

    fn cabinet_place(
        &self,
        row: &mut [RecordBytes],
        record: usize,
        personality: &[u8],
        first: usize,
        outputs: &mut [u8],
    ) -> u64 {
        cabinet_place(row, record, personality, first, outputs)
    }

    fn cabinet_step(
        &self,
        row: &mut [RecordBytes],
        record: usize,
        inputs: u64,
        outputs: &mut [u8],
    ) -> u64 {
        cabinet_step(row, record, inputs, outputs)
    }

    fn cabinet_take_out(&self, row: &mut [RecordBytes], record: usize, outputs: &mut [u8]) -> u64 {
        cabinet_take_out(row, record, outputs)
    }
}

/// The number of an answer, 0 where the call is accepted.
pub fn number(answer: u64) -> u8 {
    answer as u8
}

/// The wait bound, the length of a line, the number of groups or of bytes, or the place in
/// an answer.
pub fn rest(answer: u64) -> u64 {
    answer >> 8
}

/// Reads a personality: 0 where it is accepted.
pub fn read(personality: &[u8]) -> u64 {
    crate::read(personality).map_or_else(refuse, |()| 0)
}

/// The wait bound of a personality.
pub fn wait_bound(personality: &[u8]) -> u64 {
    crate::wait_bound(personality).map_or_else(refuse, accept)
}

/// Writes the waits of each phase and each movement, and answers the number of bytes.
pub fn waits(personality: &[u8], waits: &mut [u8]) -> u64 {
    crate::waits(personality, waits).map_or_else(refuse, accept)
}

/// Writes the fresh state: 13 where the buffer is not as long as a state.
pub fn fresh(personality: &[u8], state: &mut [u8]) -> u64 {
    let site = match Site::read(personality) {
        Ok(site) => site,
        Err(refusal) => return refuse(refusal),
    };
    if state.len() != STATE_LEN {
        return Number::InvalidState as u64;
    }
    state.copy_from_slice(&TimedState::fresh(&site).to_bytes());
    0
}

/// A full step call.
pub fn step(personality: &[u8], state: &mut [u8], inputs: u64, colours: &mut [u8]) -> u64 {
    let site = match Site::read(personality) {
        Ok(site) => site,
        Err(refusal) => return refuse(refusal),
    };
    let Some(before) = TimedState::from_bytes(state) else {
        return Number::InvalidState as u64;
    };
    match step_timed_on(&site, &before, inputs, colours) {
        Ok(next) => {
            state.copy_from_slice(&next.to_bytes());
            accept(next.wait_bound(&site))
        }
        Err(refusal) => refuse(refusal),
    }
}

/// A full retiming call: the new times wait in the state.
pub fn retime(personality: &[u8], state: &mut [u8], new_personality: &[u8]) -> u64 {
    let site = match Site::read(personality) {
        Ok(site) => site,
        Err(refusal) => return refuse(refusal),
    };
    let Some(before) = TimedState::from_bytes(state) else {
        return Number::InvalidState as u64;
    };
    match crate::retime_on(&site, personality, &before, new_personality) {
        Ok(next) => {
            state.copy_from_slice(&next.to_bytes());
            0
        }
        Err(refusal) => refuse(refusal),
    }
}

/// The section of a kind: the offset in bits 8 to 39 and the length in bits 40
/// to 63.
pub fn section(personality: &[u8], kind: u16) -> u64 {
    crate::section(personality, kind).map_or_else(refuse, |part| {
        u64::from(part.offset) << 8 | u64::from(part.length) << 40
    })
}

/// The number of signal groups of a personality.
pub fn groups(personality: &[u8]) -> u64 {
    Site::read(personality).map_or_else(refuse, |site| accept(site.group_count() as u32))
}

/// Seals a state: writes a record into a buffer that is exactly as long.
pub fn seal(personality: &[u8], state: &[u8], sealed: &mut [u8]) -> u64 {
    let record = Site::read(personality).and_then(|site| {
        let timed = TimedState::from_bytes(state);
        let timed = timed.ok_or(Refusal::without_place(Number::InvalidState))?;
        seal_on(&site, personality, &timed)
    });
    match record {
        Ok(_) if sealed.len() != SEALED_LEN => Number::ShortBuffer as u64,
        Ok(record) => {
            sealed.copy_from_slice(&record);
            0
        }
        Err(refusal) => refuse(refusal),
    }
}

/// Gives back the state of a sealed record: 13 where the buffer is not as long as a
/// state, before the record is looked at.
pub fn resume(personality: &[u8], sealed: &[u8], state: &mut [u8]) -> u64 {
    let site = match Site::read(personality) {
        Ok(site) => site,
        Err(refusal) => return refuse(refusal),
    };
    if state.len() != STATE_LEN {
        return Number::InvalidState as u64;
    }
    match resume_on(&site, personality, sealed) {
        Ok(timed) => {
            state.copy_from_slice(&timed.to_bytes());
            0
        }
        Err(refusal) => refuse(refusal),
    }
}

/// The length of the line that says why a phase holds; 0 outside running.
pub fn why_length(personality: &[u8], state: &[u8], inputs: u64) -> u64 {
    told(personality, state, inputs, |reasons| Ok(reasons.length()))
}

/// Writes the line that says why a phase holds, and answers its length. Outside
/// running no byte is written, and no buffer is too short.
pub fn why(personality: &[u8], state: &[u8], inputs: u64, line: &mut [u8]) -> u64 {
    told(personality, state, inputs, |reasons| reasons.write(line))
}

/// What is told of the reasons of a state in its bytes: a length.
fn told(
    personality: &[u8],
    state: &[u8],
    inputs: u64,
    tell: impl FnOnce(Reasons) -> Result<usize, Refusal>,
) -> u64 {
    let site = match Site::read(personality) {
        Ok(site) => site,
        Err(refusal) => return refuse(refusal),
    };
    let Some(timed) = TimedState::from_bytes(state) else {
        return Number::InvalidState as u64;
    };
    let length = why_on(&site, &timed, inputs).and_then(|reasons| reasons.map_or(Ok(0), tell));
    length.map_or_else(refuse, |length| accept(length as u32))
}

/// Runs a simulated road: writes the last state, and for each stream the vehicles
/// queued and gone.
pub fn road(
    personality: &[u8],
    streams: &[u8],
    steps: u32,
    state: &mut [u8],
    results: &mut [u8],
) -> u64 {
    let opened = Site::read(personality)
        .and_then(|site| Road::new(site, streams, steps).map(|road| (site, road)));
    let (site, mut road) = match opened {
        Ok(opened) => opened,
        Err(refusal) => return refuse(refusal),
    };
    if state.len() != STATE_LEN {
        return Number::InvalidState as u64;
    }
    let (slots, _) = results.as_chunks_mut::<RESULT_LEN>();
    let Some(slots) = slots.get_mut(..road.vehicles().count()) else {
        return Number::ShortBuffer as u64;
    };
    road.run();
    state.copy_from_slice(&TimedState::by_own_times(&site, *road.state()).to_bytes());
    for (slot, vehicles) in slots.iter_mut().zip(road.vehicles()) {
        *slot = vehicles.to_bytes();
    }
    0
}

/// Places a site in a record of a row.
pub fn cabinet_place(
    row: &mut [RecordBytes],
    record: usize,
    personality: &[u8],
    first: usize,
    outputs: &mut [u8],
) -> u64 {
    on_records(row, |records| {
        cabinet::place(records, record, personality, first, outputs).map(|()| 0)
    })
}

/// Steps the site of a record of a row.
pub fn cabinet_step(
    row: &mut [RecordBytes],
    record: usize,
    inputs: u64,
    outputs: &mut [u8],
) -> u64 {
    on_records(row, |records| {
        cabinet::step_held(records, record, inputs, outputs)
    })
}

/// Takes the site out of a record of a row.
pub fn cabinet_take_out(row: &mut [RecordBytes], record: usize, outputs: &mut [u8]) -> u64 {
    on_records(row, |records| {
        cabinet::take_out(records, record, outputs).map(|()| 0)
    })
}

/// A call on the records of a row. If they are not as many as a cabinet has, there is no
/// record.
fn on_records(
    row: &mut [RecordBytes],
    call: impl FnOnce(&mut [Record]) -> Result<u32, Refusal>,
) -> u64 {
    let Some(mut records) = records_in(row) else {
        return call(&mut []).map_or_else(refuse, accept);
    };
    match call(&mut records) {
        Ok(bound) => {
            row.copy_from_slice(&records.each_ref().map(Record::to_bytes));
            accept(bound)
        }
        Err(refusal) => refuse(refusal),
    }
}

fn accept(rest: u32) -> u64 {
    u64::from(rest) << 8
}

fn refuse(refusal: Refusal) -> u64 {
    u64::from(refusal.place) << 8 | refusal.number as u64
}
