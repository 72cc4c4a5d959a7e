//! Four sites in one cabinet.

use crate::answer::{wait_bound_or_refusal, Refusal};
use crate::board::{line_length, line_of};
use crate::{packed, refusal, Fields, Record, RECORDS, ROW_LEN};

/// A cabinet of [`crate::RECORDS`] records, each free or with a site. The outputs
/// belong to the caller: [`crate::OUTPUTS`] bytes or more, which go on from call
/// to call. A refused call changes nothing.
#[derive(Clone, Debug, Default, PartialEq, Eq)]
pub struct Cabinet {
    row: [Record; RECORDS],
}

impl Cabinet {
    /// A cabinet whose records are free.
    pub const fn new() -> Cabinet {
        Cabinet {
            row: [Record::FREE; RECORDS],
        }
    }

    /// The cabinet of a row.
    pub const fn of_row(row: [Record; RECORDS]) -> Cabinet {
        Cabinet { row }
    }

    /// The cabinet of a stored row. Any bytes are a row.
    pub fn of_bytes(bytes: &[u8; ROW_LEN]) -> Cabinet {
        let mut cabinet = Cabinet::new();
        for (record, bytes) in cabinet.row.iter_mut().zip(bytes.as_chunks().0) {
            *record = Record::of_bytes(bytes);
        }
        cabinet
    }

    /// Places a site in a free record: it begins in the fresh state, and its
    /// outputs, from the first one on, turn red.
    pub fn place(
        &mut self,
        record: usize,
        personality: &[u8],
        first: usize,
        outputs: &mut [u8],
    ) -> Result<(), Refusal> {
        let answer = packed::cabinet_place(&mut self.row, record, personality, first, outputs);
        wait_bound_or_refusal(answer).map(|_| ())
    }

    /// One step of 0.1 s of the site of a record: its outputs are written, and the wait
    /// bound of the times that rule after it is the answer.
    pub fn step(&mut self, record: usize, inputs: u64, outputs: &mut [u8]) -> Result<u64, Refusal> {
        let answer = packed::cabinet_step(&mut self.row, record, inputs, outputs);
        wait_bound_or_refusal(answer)
    }

    /// New times for the site of a record: a personality that differs from its own in
    /// time settings alone. They wait until a phase starts, in place of any that wait,
    /// and rule from that start on. A record that is free, or that the cabinet lacks, is
    /// refused with 24 as in a step.
    pub fn retime(&mut self, record: usize, new_personality: &[u8]) -> Result<(), Refusal> {
        let record = self.row.get_mut(record).filter(|record| !record.is_free());
        let record = record.ok_or(NO_SITE)?;
        let personality = &record.personality[..record.personality_length()];
        let answer = packed::retime(personality, &mut record.state, new_personality);
        wait_bound_or_refusal(answer).map(|_| ())
    }

    /// The length of the line that [`Cabinet::why`] writes.
    pub fn why_length(&self, record: usize, inputs: u64) -> Result<usize, Refusal> {
        let record = self.held(record)?;
        let answer = packed::why_length(record.held_personality(), &record.state, inputs);
        line_length(answer)
    }

    /// Writes a line to the beginning of a buffer: why the phase of the site of a
    /// record holds its green after a step with these inputs. A record that is free, or
    /// that the cabinet lacks, is refused with 24 as in a step.
    pub fn why<'b>(
        &self,
        record: usize,
        inputs: u64,
        buffer: &'b mut [u8],
    ) -> Result<&'b [u8], Refusal> {
        let record = self.held(record)?;
        line_of(record.held_personality(), &record.state, inputs, buffer)
    }

    /// Takes the site out of a record, which is then free; its outputs turn dark.
    pub fn take_out(&mut self, record: usize, outputs: &mut [u8]) -> Result<(), Refusal> {
        let answer = packed::cabinet_take_out(&mut self.row, record, outputs);
        wait_bound_or_refusal(answer).map(|_| ())
    }

    /// The fields of the state of a record. A record that is free, or that the cabinet
    /// lacks, is refused with 24 as in a step.
    pub fn fields(&self, record: usize) -> Result<Fields<'_>, Refusal> {
        self.held(record).map(Record::fields)
    }

    /// The records of the row.
    pub const fn row(&self) -> &[Record; RECORDS] {
        &self.row
    }

    /// The bytes of the row, which may be stored: those of its records, one after the other.
    pub fn to_bytes(&self) -> [u8; ROW_LEN] {
        let mut bytes = [0; ROW_LEN];
        for (bytes, record) in bytes.as_chunks_mut().0.iter_mut().zip(&self.row) {
            *bytes = record.to_bytes();
        }
        bytes
    }

    /// A record that is not free.
    fn held(&self, record: usize) -> Result<&Record, Refusal> {
        let record = self.row.get(record).filter(|record| !record.is_free());
        record.ok_or(NO_SITE)
    }
}

const NO_SITE: Refusal = Refusal {
    number: refusal::WRONG_RECORD,
    place: 0,
};
