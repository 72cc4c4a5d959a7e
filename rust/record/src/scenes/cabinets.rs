//! Cabinets: lists of calls from free records on, and single calls on rows of any
//! content.

use super::MOST_PERSONALITY;
use crate::recorder::{Buffer, Recorder};
use generate::{any_records, CabinetCall};
use model::{records_of, row_of, Record, OUTPUTS, RECORDS, RECORD_LEN, ROOM, ROW_LEN, STATE_LEN};

/// The calls of a list.
const LIST: usize = 80;

/// The most records of a row; a cabinet has fewer.
const MOST_RECORDS: usize = RECORDS + 1;

/// The longest output buffer.
const MOST_OUTPUTS: usize = 2 * OUTPUTS;

/// The buffers of a cabinet. The row is in bytes, and is handed over with its number of
/// records.
struct Buffers {
    row: Buffer,
    records: usize,
    personality: Buffer,
    outputs: Buffer,
}

impl Recorder {
    pub(super) fn cabinet_list(&mut self) {
        let buffers = self.begin_cabinet(RECORDS, 0);
        for _ in 0..LIST {
            let records = self.records(buffers.row);
            let call = CabinetCall::random(&mut self.rng, &records);
            let length = match self.rng.percent(3) {
                true => self.rng.below(OUTPUTS),
                false => OUTPUTS,
            };
            let outputs = buffers.outputs.with_length(length);
            self.cabinet(&Buffers { outputs, ..buffers }, &call);
        }
    }

    /// Calls on a row of any content, each on the row as it was.
    pub(super) fn cabinet_rows(&mut self) {
        let byte = self.rng.byte();
        let buffers = self.begin_cabinet(RECORDS, byte);
        let records = any_records(&mut self.rng);
        for _ in 0..10 {
            self.put(buffers.row, &row_of(&records));
            let call = CabinetCall::random(&mut self.rng, &records);
            let anywhere = self.rng.below(MOST_OUTPUTS);
            let length = self.rng.pick(&[OUTPUTS, OUTPUTS, OUTPUTS + 1, anywhere]);
            let outputs = buffers.outputs.with_length(length);
            self.cabinet(&Buffers { outputs, ..buffers }, &call);
        }
    }

    /// Calls on rows of other numbers of records, and on outputs of other lengths. One
    /// number is that of the bytes of a row: no call reads or writes a record of such a
    /// row, so that those behind the arena's do no harm.
    pub(super) fn cabinet_buffers(&mut self) {
        let buffers = self.begin_cabinet(MOST_RECORDS, 0);
        let records = any_records(&mut self.rng);
        for _ in 0..10 {
            self.put(buffers.row, &row_of(&records));
            let call = CabinetCall::random_of_cabinet(&mut self.rng, &records);
            let any = self.rng.below(MOST_RECORDS + 1);
            let numbers = [RECORDS, RECORDS - 1, RECORDS + 1, ROW_LEN, any];
            let number = self.rng.pick(&numbers);
            let anywhere = self.rng.below(MOST_OUTPUTS);
            let lengths = [0, OUTPUTS - 1, OUTPUTS, OUTPUTS + 1, anywhere];
            let outputs = buffers.outputs.with_length(self.rng.pick(&lengths));
            self.cabinet(
                &Buffers {
                    records: number,
                    outputs,
                    ..buffers
                },
                &call,
            );
        }
    }

    fn begin_cabinet(&mut self, records: usize, byte: u8) -> Buffers {
        self.begin_with(byte);
        Buffers {
            row: self.room(records * RECORD_LEN),
            records,
            personality: self.room(MOST_PERSONALITY),
            outputs: self.room(MOST_OUTPUTS),
        }
    }

    fn records(&self, row: Buffer) -> [Record; RECORDS] {
        records_of(self.bytes(row)).expect("a whole row")
    }

    /// Makes a call that has room. A retiming is that of a site alone, on the
    /// personality and the state in the row.
    fn cabinet(&mut self, buffers: &Buffers, call: &CabinetCall) {
        let Buffers {
            row: bytes,
            records,
            personality,
            outputs,
        } = *buffers;
        let row = bytes.with_length(records);
        let handed = call.personality();
        if handed.len() > MOST_PERSONALITY {
            return;
        }
        self.put(personality, handed);
        let personality = personality.with_length(handed.len());
        let record = call.record();
        let number = (record as u64).into();
        match *call {
            CabinetCall::Place { first, .. } => {
                let first = (first as u64).into();
                let words = [
                    row.into(),
                    number,
                    personality.into(),
                    first,
                    outputs.into(),
                ];
                self.call("cabinet_place", &words);
            }
            CabinetCall::Step { inputs, .. } => {
                let words = [row.into(), number, inputs.into(), outputs.into()];
                self.call("cabinet_step", &words);
            }
            CabinetCall::TakeOut { .. } => {
                self.call("cabinet_take_out", &[row.into(), number, outputs.into()]);
            }
            CabinetCall::Retime { .. } => {
                let length = self.records(bytes)[record].personality().len();
                let at = record * RECORD_LEN + RECORD_LEN - STATE_LEN;
                let own = bytes.part(at - ROOM, length);
                let state = bytes.part(at, STATE_LEN);
                self.call("retime", &[own.into(), state.into(), personality.into()]);
                self.call("section", &[own.into(), 2.into()]);
                self.call("why_length", &[own.into(), state.into(), 0.into()]);
            }
        }
    }
}
