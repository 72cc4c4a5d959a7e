//! The board library as a board.

use model::packed::Board;
use model::RecordBytes;
use willowera::{packed, Record};

// The model's states, records of a cabinet and sealed records have the library's layout.
const _: () = assert!(model::STATE_LEN == willowera::STATE_LEN);
const _: () = assert!(model::RECORD_LEN == willowera::RECORD_LEN);
const _: () = assert!(model::RECORDS == willowera::RECORDS);
const _: () = assert!(model::SEALED_LEN == willowera::SEALED_LEN);
const _: () = assert!(model::sealed::VERSION as u32 == willowera::VERSION);

/// The linked library.
#[derive(Clone, Copy, Debug, Default)]
pub struct Library;

impl Board for Library {
    fn read(&self, personality: &[u8]) -> u64 {
        packed::read(personality)
    }

    fn wait_bound(&self, personality: &[u8]) -> u64 {
        packed::wait_bound(personality)
    }

    fn waits(&self, personality: &[u8], waits: &mut [u8]) -> u64 {
        packed::waits(personality, waits)
    }

    fn fresh(&self, personality: &[u8], state: &mut [u8]) -> u64 {
        packed::fresh(personality, state)
    }

    fn step(&self, personality: &[u8], state: &mut [u8], inputs: u64, colours: &mut [u8]) -> u64 {
        packed::step(personality, state, inputs, colours)
    }

    fn retime(&self, personality: &[u8], state: &mut [u8], new_personality: &[u8]) -> u64 {
        packed::retime(personality, state, new_personality)
    }

    fn section(&self, personality: &[u8], kind: u16) -> u64 {
        packed::section(personality, kind)
    }

    fn groups(&self, personality: &[u8]) -> u64 {
        packed::groups(personality)
    }

    fn seal(&self, personality: &[u8], state: &[u8], sealed: &mut [u8]) -> u64 {
        packed::seal(personality, state, sealed)
    }

    fn resume(&self, personality: &[u8], sealed: &[u8], state: &mut [u8]) -> u64 {
        packed::resume(personality, sealed, state)
    }

    fn why_length(&self, personality: &[u8], state: &[u8], inputs: u64) -> u64 {
        packed::why_length(personality, state, inputs)
    }

    fn why(&self, personality: &[u8], state: &[u8], inputs: u64, line: &mut [u8]) -> u64 {
        packed::why(personality, state, inputs, line)
    }

    fn road(
        &self,
        personality: &[u8],
        streams: &[u8],
        steps: u32,
        state: &mut [u8],
        results: &mut [u8],
    ) -> u64 {
        packed::road(personality, streams, steps, state, results)
    }

    fn cabinet_place(
        &self,
        row: &mut [RecordBytes],
        record: usize,
        personality: &[u8],
        first: usize,
        outputs: &mut [u8],
    ) -> u64 {
        let row = Record::in_bytes_mut(row);
        packed::cabinet_place(row, record, personality, first, outputs)
    }

    fn cabinet_step(
        &self,
        row: &mut [RecordBytes],
        record: usize,
        inputs: u64,
        outputs: &mut [u8],
    ) -> u64 {
        packed::cabinet_step(Record::in_bytes_mut(row), record, inputs, outputs)
    }

    fn cabinet_take_out(&self, row: &mut [RecordBytes], record: usize, outputs: &mut [u8]) -> u64 {
        packed::cabinet_take_out(Record::in_bytes_mut(row), record, outputs)
    }
}
