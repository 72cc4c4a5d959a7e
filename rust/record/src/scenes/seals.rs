//! Sealed records: whole ones, damaged ones, of other versions, personalities and
//! lengths, and with states that are not valid.

use super::states::any_state;
use crate::recorder::{Buffer, Recorder};
use generate::{valid_timed_state, Plan};
use model::sealed::{CHECK, STATE};
use model::{crc32, Site, SEALED_LEN, STATE_LEN};

/// The records of a scene.
const RECORDS: usize = 20;

/// The longest buffer of a record.
const MOST_SEALED: usize = SEALED_LEN + 20;

impl Recorder {
    pub(super) fn seals(&mut self) {
        let [personality, other] = [(); 2].map(|()| Plan::random(&mut self.rng).bytes());
        let site = Site::read(&personality).expect("an accepted plan");
        self.begin();
        let first = self.laid(&personality);
        let second = self.laid(&other);
        let state = self.room(STATE_LEN + 1);
        let sealed = self.room(MOST_SEALED);
        for index in 0..RECORDS {
            let valid = valid_timed_state(&mut self.rng, &personality, &site);
            self.put(state, &valid.to_bytes());
            let length = self
                .rng
                .pick(&[SEALED_LEN, SEALED_LEN - 1, SEALED_LEN + 1, 0]);
            self.seal(first, state, sealed.with_length(length));
            self.seal(first, state, sealed.with_length(SEALED_LEN));
            let mut record = self.bytes(sealed.with_length(SEALED_LEN)).to_vec();
            let mut length = SEALED_LEN;
            match index % 8 {
                0 => record[self.rng.below(SEALED_LEN)] ^= 1 << self.rng.below(8),
                1 => length = self.rng.below(MOST_SEALED),
                2 => {
                    let drawn = any_state(&mut self.rng, &personality, &site);
                    record[STATE..CHECK].copy_from_slice(&drawn);
                    make_whole(&mut record);
                }
                3 => {
                    record[self.rng.below(STATE)] = self.rng.byte();
                    make_whole(&mut record);
                }
                4 => record = self.rng.bytes(SEALED_LEN),
                5 => record[0] = self.rng.byte(),
                _ => {}
            }
            self.put(sealed, &record);
            let sealed = sealed.with_length(length);
            self.resume(second, sealed, state.with_length(STATE_LEN));
            let length = self
                .rng
                .pick(&[STATE_LEN, STATE_LEN, STATE_LEN + 1, STATE_LEN - 1, 0]);
            let noise = self.rng.bytes(STATE_LEN);
            self.put(state, &noise);
            self.resume(first, sealed, state.with_length(length));
        }
    }

    fn seal(&mut self, personality: Buffer, state: Buffer, sealed: Buffer) {
        let state = state.with_length(STATE_LEN);
        self.call("seal", &[personality.into(), state.into(), sealed.into()]);
    }

    fn resume(&mut self, personality: Buffer, sealed: Buffer, state: Buffer) {
        self.call("resume", &[personality.into(), sealed.into(), state.into()]);
    }
}

/// Gives a record the check value of its bytes.
fn make_whole(record: &mut [u8]) {
    let check = crc32(&record[..CHECK]);
    record[CHECK..].copy_from_slice(&check.to_le_bytes());
}
