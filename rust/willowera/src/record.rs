//! A record of a cabinet as it lies in memory. The library is handed a row of them.

use crate::{Fields, MOST_PERSONALITY_BYTES, RECORD_LEN, STATE_LEN};
use std::mem::{align_of, offset_of, size_of};

/// A record of a cabinet: free, or with a site. Any bytes are a record.
#[repr(C)]
#[derive(Clone, Copy, Debug, PartialEq, Eq)]
pub struct Record {
    /// 0 if the record is free.
    pub held: u8,
    /// The first output of the site.
    pub first: u8,
    /// The length of the personality, the low byte first.
    pub length: [u8; 2],
    /// Room for the personality, which begins with the first byte.
    pub personality: [u8; MOST_PERSONALITY_BYTES],
    /// The bytes of the state.
    pub state: [u8; STATE_LEN],
}

// The fields lie one after the other with nothing between them, and a record may begin at any
// address. So a record is RECORD_LEN bytes, and as many bytes anywhere are a record.
const _: () = {
    assert!(size_of::<Record>() == 817 && RECORD_LEN == 817);
    assert!(align_of::<Record>() == 1);
    assert!(offset_of!(Record, held) == 0);
    assert!(offset_of!(Record, first) == 1);
    assert!(offset_of!(Record, length) == 2);
    assert!(offset_of!(Record, personality) == 4);
    assert!(offset_of!(Record, state) == 481);
};

impl Record {
    /// A free record of zeros.
    pub const FREE: Record = Record {
        held: 0,
        first: 0,
        length: [0; 2],
        personality: [0; MOST_PERSONALITY_BYTES],
        state: [0; STATE_LEN],
    };

    /// The records in bytes, where they lie.
    pub fn in_bytes_mut(bytes: &mut [[u8; RECORD_LEN]]) -> &mut [Record] {
        let records = bytes.as_mut_ptr().cast();
        // SAFETY: the pointer and the number are those of one slice. Its elements have the size
        // and the alignment of a record, any bytes are a record, and a record is bytes alone.
        unsafe { std::slice::from_raw_parts_mut(records, bytes.len()) }
    }

    /// The record in its bytes.
    pub fn of_bytes(bytes: &[u8; RECORD_LEN]) -> Record {
        Record::in_bytes_mut(&mut [*bytes])[0]
    }

    /// The bytes of the record.
    pub fn to_bytes(&self) -> [u8; RECORD_LEN] {
        let mut bytes = [[0; RECORD_LEN]];
        Record::in_bytes_mut(&mut bytes)[0] = *self;
        bytes[0]
    }

    /// Whether the record is free.
    pub const fn is_free(&self) -> bool {
        self.held == 0
    }

    /// The first output of the site.
    pub const fn first_output(&self) -> usize {
        self.first as usize
    }

    /// The length of the personality. One above the room counts as the room.
    pub fn personality_length(&self) -> usize {
        usize::from(u16::from_le_bytes(self.length)).min(MOST_PERSONALITY_BYTES)
    }

    /// The bytes of the personality, without the room behind it.
    pub fn held_personality(&self) -> &[u8] {
        &self.personality[..self.personality_length()]
    }

    /// The fields of the state.
    pub const fn fields(&self) -> Fields<'_> {
        Fields::of(&self.state)
    }
}

impl Default for Record {
    fn default() -> Record {
        Record::FREE
    }
}

#[cfg(test)]
mod tests {
    use super::*;

    fn any_bytes() -> [u8; RECORD_LEN] {
        std::array::from_fn(|at| (at * at / 7) as u8)
    }

    #[test]
    fn every_field_has_its_own_bytes() {
        let record = Record {
            held: 1,
            first: 2,
            length: [4, 1],
            personality: [5; MOST_PERSONALITY_BYTES],
            state: [6; STATE_LEN],
        };
        let bytes = record.to_bytes();
        assert_eq!(bytes[..4], [1, 2, 4, 1]);
        assert_eq!(bytes[4..481], [5; 477]);
        assert_eq!(bytes[481..], [6; 336]);
        assert_eq!(Record::of_bytes(&bytes), record);
        assert_eq!((record.is_free(), record.first_output()), (false, 2));
        assert_eq!(record.held_personality(), [5; 260]);
        assert_eq!(record.fields().phase(), 6);
    }

    #[test]
    fn any_bytes_are_a_record_and_nothing_of_them_is_lost() {
        let bytes = any_bytes();
        assert_eq!(Record::of_bytes(&bytes).to_bytes(), bytes);
        assert_eq!(Record::of_bytes(&[0; RECORD_LEN]), Record::default());
        assert!(Record::FREE.is_free() && Record::FREE.held_personality().is_empty());
    }

    #[test]
    fn records_lie_where_their_bytes_are() {
        // At every alignment.
        for start in 0..16 {
            let mut room = [0; 2 * RECORD_LEN + 16];
            let (bytes, _) = room[start..].as_chunks_mut();
            let records = Record::in_bytes_mut(bytes);
            assert_eq!(records.len(), 2);
            records[1] = Record::of_bytes(&any_bytes());
            assert_eq!(records[0], Record::FREE);
            assert_eq!(room[start + RECORD_LEN..][..RECORD_LEN], any_bytes());
        }
        assert!(Record::in_bytes_mut(&mut []).is_empty());
    }

    #[test]
    fn a_length_above_the_room_counts_as_the_room() {
        for (length, counts) in [(0, 0), (68, 68), (477, 477), (478, 477), (u16::MAX, 477)] {
            let record = Record {
                length: length.to_le_bytes(),
                ..Record::FREE
            };
            assert_eq!(record.personality_length(), counts, "{length}");
            assert_eq!(record.held_personality().len(), counts, "{length}");
        }
    }
}
