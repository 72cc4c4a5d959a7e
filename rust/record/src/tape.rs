//! The bytes of a recording. `targets/replay/README.md` has the format in words.

use model::crc32;

pub const MAGIC: [u8; 8] = *b"WILLPLAY";
pub const FORMAT: u32 = 1;

/// Where the header has the number of calls, and the length of all that lies between
/// the header and the check value.
const CALLS: usize = 16;
const LENGTH: usize = 24;
const HEADER: usize = 32;

/// The first byte of an entry. A call has the number of its export behind the others.
const FILL: u8 = 0;
const PUT: u8 = 1;
const FIRST_CALL: u8 = 2;

/// A recording while it is written.
pub struct Tape {
    bytes: Vec<u8>,
    calls: u64,
}

impl Tape {
    /// A recording without calls, for an arena of so many bytes and for exports by
    /// their names and the letters of their arguments.
    pub fn new<'a>(
        arena: usize,
        exports: impl ExactSizeIterator<Item = (&'a str, &'a str)>,
    ) -> Tape {
        let mut bytes = MAGIC.to_vec();
        bytes.extend(FORMAT.to_le_bytes());
        bytes.extend((arena as u32).to_le_bytes());
        bytes.resize(HEADER, 0);
        bytes.push(exports.len() as u8);
        for (name, letters) in exports {
            for word in [name, letters] {
                bytes.push(word.len() as u8);
                bytes.extend(word.as_bytes());
            }
        }
        Tape { bytes, calls: 0 }
    }

    /// Every byte of the arena becomes this one.
    pub fn fill(&mut self, byte: u8) {
        self.bytes.extend([FILL, byte]);
    }

    /// Bytes go to a place of the arena.
    pub fn put(&mut self, at: usize, bytes: &[u8]) {
        self.bytes.push(PUT);
        self.number(at as u64);
        self.number(bytes.len() as u64);
        self.bytes.extend(bytes);
    }

    /// A call of an export, its answer, and the sum of the arena after it.
    pub fn call(&mut self, export: usize, words: &[u64], answer: u64, sum: u32) {
        self.bytes.push(FIRST_CALL + export as u8);
        for &word in words {
            self.number(word);
        }
        self.number(answer);
        self.bytes.extend(sum.to_le_bytes());
        self.calls += 1;
    }

    pub fn calls(&self) -> u64 {
        self.calls
    }

    /// The whole recording, with its check value.
    pub fn finish(mut self) -> Vec<u8> {
        let length = (self.bytes.len() - HEADER) as u64;
        self.bytes[CALLS..CALLS + 8].copy_from_slice(&self.calls.to_le_bytes());
        self.bytes[LENGTH..LENGTH + 8].copy_from_slice(&length.to_le_bytes());
        let check = crc32(&self.bytes);
        self.bytes.extend(check.to_le_bytes());
        self.bytes
    }

    /// Seven bits a byte, the lowest first; the last byte is below 128.
    fn number(&mut self, mut number: u64) {
        while number >= 128 {
            self.bytes.push(number as u8 | 128);
            number >>= 7;
        }
        self.bytes.push(number as u8);
    }
}

/// The sum of an arena, whose length is a multiple of 4. A change of one word always
/// changes it.
pub fn sum(arena: &[u8]) -> u32 {
    let (words, _) = arena.as_chunks::<4>();
    words.iter().fold(0, |sum, &word| {
        let mixed = sum ^ u32::from_le_bytes(word);
        mixed.rotate_left(13).wrapping_mul(0x9E37_79B1)
    })
}

#[cfg(test)]
mod tests {
    use super::*;

    #[test]
    fn a_recording_has_its_parts_in_order() {
        let mut tape = Tape::new(64, [("f", "pl"), ("g", "")].into_iter());
        tape.fill(7);
        tape.put(300, &[1, 2]);
        tape.call(1, &[], 5, 0x0102_0304);
        tape.call(0, &[2, u64::MAX], 128, 0);
        let recording = tape.finish();
        let body = [
            &[2, 1, b'f', 2, b'p', b'l', 1, b'g', 0][..],
            &[0, 7],
            &[1, 0xAC, 0x02, 2, 1, 2],
            &[3, 5, 4, 3, 2, 1],
            &[2, 2, 255, 255, 255, 255, 255, 255, 255, 255, 255, 1],
            &[0x80, 0x01, 0, 0, 0, 0],
        ]
        .concat();
        assert_eq!(&recording[..12], b"WILLPLAY\x01\0\0\0");
        assert_eq!(&recording[12..24], b"\x40\0\0\0\x02\0\0\0\0\0\0\0");
        assert_eq!(recording[24..32], (body.len() as u64).to_le_bytes());
        let (whole, check) = recording.split_at(recording.len() - 4);
        assert_eq!(whole[32..], body);
        assert_eq!(check, crc32(whole).to_le_bytes());
    }

    #[test]
    fn a_change_of_any_bit_changes_the_sum() {
        let mut arena = [0x5A; 64];
        let before = sum(&arena);
        for bit in 0..8 * arena.len() {
            arena[bit / 8] ^= 1 << (bit % 8);
            assert_ne!(sum(&arena), before, "bit {bit}");
            arena[bit / 8] ^= 1 << (bit % 8);
        }
    }

    #[test]
    fn changes_of_the_same_bit_in_two_words_do_not_cancel() {
        let before = sum(&[0; 16]);
        for bit in 0..32 {
            let mut arena = [0; 16];
            arena[bit / 8] = 1 << (bit % 8);
            arena[4 + bit / 8] = 1 << (bit % 8);
            assert_ne!(sum(&arena), before, "bit {bit}");
        }
    }
}
