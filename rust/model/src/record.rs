//! A record of a cabinet, and the row of records as bytes. This file alone knows
//! where each field lies.

use crate::STATE_LEN;

/// The records of a cabinet.
pub const RECORDS: usize = 4;

/// The bytes that a record has for a personality: the longest that is accepted
/// needs them all.
pub const ROOM: usize = 477;

/// Where each field begins.
const HELD: usize = 0;
const FIRST: usize = 1;
const LENGTH: usize = 2;
const PERSONALITY: usize = 4;
const STATE: usize = PERSONALITY + ROOM;

/// The length of a record in bytes.
pub const RECORD_LEN: usize = STATE + STATE_LEN;
/// The length of a row of records in bytes.
pub const ROW_LEN: usize = RECORDS * RECORD_LEN;

/// The bytes of a record. A call is handed a row as a slice of these.
pub type RecordBytes = [u8; RECORD_LEN];

/// A record is free, or holds a site. It is made of numbers only, and any
/// numbers are a record.
#[derive(Clone, Copy, Debug, PartialEq, Eq)]
pub struct Record {
    /// 0 if the record is free.
    pub held: u8,
    /// The output of the first group.
    pub first: u8,
    /// How many bytes of the room are the personality.
    pub length: u16,
    pub room: [u8; ROOM],
    /// The bytes of the state.
    pub state: [u8; STATE_LEN],
}

impl Record {
    /// A free record of zeros.
    pub const FREE: Record = Record {
        held: 0,
        first: 0,
        length: 0,
        room: [0; ROOM],
        state: [0; STATE_LEN],
    };

    /// The record in its bytes.
    pub fn from_bytes(bytes: &RecordBytes) -> Record {
        let mut record = Record {
            held: bytes[HELD],
            first: bytes[FIRST],
            length: u16::from_le_bytes([bytes[LENGTH], bytes[LENGTH + 1]]),
            ..Record::FREE
        };
        record.room.copy_from_slice(&bytes[PERSONALITY..STATE]);
        record.state.copy_from_slice(&bytes[STATE..]);
        record
    }

    /// The bytes of the record.
    pub fn to_bytes(&self) -> RecordBytes {
        let mut bytes = [0; RECORD_LEN];
        bytes[HELD] = self.held;
        bytes[FIRST] = self.first;
        bytes[LENGTH..PERSONALITY].copy_from_slice(&self.length.to_le_bytes());
        bytes[PERSONALITY..STATE].copy_from_slice(&self.room);
        bytes[STATE..].copy_from_slice(&self.state);
        bytes
    }

    pub fn is_free(&self) -> bool {
        self.held == 0
    }

    /// The bytes of the personality. A length above the room counts as the room.
    pub fn personality(&self) -> &[u8] {
        &self.room[..usize::from(self.length).min(ROOM)]
    }
}

/// The records in the bytes of a row, or none of them if they are not a whole row.
pub fn records_of(row: &[u8]) -> Option<[Record; RECORDS]> {
    match row.as_chunks() {
        (row, []) => records_in(row),
        _ => None,
    }
}

/// The records of a row, or none of them if there are not as many as a cabinet has.
pub fn records_in(row: &[RecordBytes]) -> Option<[Record; RECORDS]> {
    let row: &[RecordBytes; RECORDS] = row.try_into().ok()?;
    Some(row.each_ref().map(Record::from_bytes))
}

/// The personality and the state of a record, where they lie in a row: what a call on
/// its site alone takes. None if the row has no such record.
pub fn parts_in(row: &mut [RecordBytes], record: usize) -> Option<(&[u8], &mut [u8])> {
    let row: &mut [RecordBytes; RECORDS] = row.try_into().ok()?;
    let (head, state) = row.get_mut(record)?.split_at_mut(STATE);
    let length = u16::from_le_bytes([head[LENGTH], head[LENGTH + 1]]);
    let room = &head[PERSONALITY..];
    Some((&room[..usize::from(length).min(ROOM)], state))
}

/// The bytes of the row of these records.
pub fn row_of(records: &[Record; RECORDS]) -> [u8; ROW_LEN] {
    let mut row = [0; ROW_LEN];
    for (bytes, record) in row.as_chunks_mut().0.iter_mut().zip(records) {
        *bytes = record.to_bytes();
    }
    row
}

#[cfg(test)]
mod tests {
    use super::*;

    #[test]
    fn every_field_has_its_own_bytes() {
        let record = Record {
            held: 1,
            first: 2,
            length: 0x0304,
            room: [5; ROOM],
            state: [6; STATE_LEN],
        };
        let bytes = record.to_bytes();
        assert_eq!(bytes.len(), 817);
        assert_eq!(bytes[..4], [1, 2, 4, 3]);
        assert_eq!(bytes[4..481], [5; 477]);
        assert_eq!(bytes[481..], [6; 336]);
        assert_eq!(Record::from_bytes(&bytes), record);
    }

    #[test]
    fn any_bytes_are_a_row_and_nothing_of_them_is_lost() {
        let mut row = [0; ROW_LEN];
        for (at, byte) in row.iter_mut().enumerate() {
            *byte = (at * at / 7) as u8;
        }
        let records = records_of(&row).unwrap();
        assert_eq!(row_of(&records), row);
        assert_eq!(records_of(&[0; ROW_LEN]), Some([Record::FREE; RECORDS]));
    }

    #[test]
    fn a_row_is_four_whole_records() {
        let bytes = [0; ROW_LEN + RECORD_LEN];
        for length in 0..bytes.len() {
            let whole = length == 3_268;
            assert_eq!(records_of(&bytes[..length]).is_some(), whole, "{length}");
        }
        let row = [[0; RECORD_LEN]; RECORDS + 1];
        for count in 0..=row.len() {
            assert_eq!(records_in(&row[..count]).is_some(), count == 4, "{count}");
        }
    }

    #[test]
    fn a_length_above_the_room_counts_as_the_room() {
        for (length, counts) in [(0, 0), (68, 68), (477, 477), (478, 477), (u16::MAX, 477)] {
            let record = Record {
                length,
                ..Record::FREE
            };
            assert_eq!(record.personality().len(), counts, "{length}");
            let mut row = [record.to_bytes(); RECORDS];
            let (personality, _) = parts_in(&mut row, 3).unwrap();
            assert_eq!(personality.len(), counts, "{length}");
        }
    }

    #[test]
    fn the_parts_of_a_record_lie_in_the_row() {
        let mut row = [[0; RECORD_LEN]; RECORDS];
        for (at, byte) in row.as_flattened_mut().iter_mut().enumerate() {
            *byte = (at * at / 7) as u8;
        }
        for record in 0..RECORDS {
            let mut changed = records_in(&row).unwrap();
            let (personality, state) = parts_in(&mut row, record).unwrap();
            assert_eq!(personality, changed[record].personality());
            assert_eq!(state, changed[record].state);
            state.fill(record as u8);
            changed[record].state = [record as u8; STATE_LEN];
            assert_eq!(records_in(&row), Some(changed));
        }
        assert_eq!(parts_in(&mut row, RECORDS), None);
        assert_eq!(parts_in(&mut row, usize::MAX), None);
        assert_eq!(parts_in(&mut row[1..], 0), None);
        assert_eq!(parts_in(&mut [[0; RECORD_LEN]; RECORDS + 1], 0), None);
    }
}
