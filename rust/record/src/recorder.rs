//! Makes calls on buffers in one arena, and records them. After each call the whole
//! arena is summed up, so that every byte beside a buffer guards it.

use crate::exports::{Export, EXPORTS};
use crate::seen::Seen;
use crate::tape::{sum, Tape};
use generate::Rng;

/// The bytes of the arena.
pub const ARENA: usize = 6 << 10;

/// The arena begins at a multiple of this, in every player too.
pub const ALIGNMENT: usize = 16;

/// Bytes left at either end of the arena.
const MARGIN: usize = 32;

/// Where a buffer begins.
#[derive(Clone, Copy, Debug)]
pub enum Place {
    Null,
    /// The address whose bits are all ones. A buffer there has no bytes.
    AllOnes,
    /// An offset in the arena.
    At(usize),
}

impl Place {
    /// The pointer in the recording.
    fn recorded(self) -> u64 {
        match self {
            Place::Null => 0,
            Place::AllOnes => 1,
            Place::At(offset) => 2 + offset as u64,
        }
    }
}

/// A buffer that is handed to a call. The length may be another than that of the bytes;
/// that of a row is its number of records.
#[derive(Clone, Copy, Debug)]
pub struct Buffer {
    pub place: Place,
    pub length: u64,
}

impl Buffer {
    /// The same place with another length.
    pub fn with_length(self, length: impl TryInto<u64>) -> Buffer {
        let length = length.try_into().ok().expect("a length of 64 bits");
        Buffer { length, ..self }
    }

    /// A part of the buffer.
    pub fn part(self, from: usize, length: usize) -> Buffer {
        Buffer {
            place: Place::At(self.offset() + from),
            length: length as u64,
        }
    }

    fn offset(self) -> usize {
        match self.place {
            Place::At(offset) => offset,
            _ => panic!("a buffer outside the arena"),
        }
    }
}

/// What is handed to a call: a buffer is a pointer and a length.
#[derive(Clone, Copy, Debug)]
pub enum Handed {
    Buffer(Buffer),
    Number(u64),
}

impl From<Buffer> for Handed {
    fn from(buffer: Buffer) -> Handed {
        Handed::Buffer(buffer)
    }
}

impl From<u64> for Handed {
    fn from(number: u64) -> Handed {
        Handed::Number(number)
    }
}

/// The arena, the recording, and where randomness comes from.
pub struct Recorder {
    pub rng: Rng,
    pub seen: Seen,
    tape: Tape,
    /// The arena; its type gives it its alignment.
    words: Vec<u128>,
    /// How far the arena is taken.
    taken: usize,
}

impl Recorder {
    pub fn new(seed: u64) -> Recorder {
        let table = EXPORTS.iter().map(|export| (export.name, export.letters));
        Recorder {
            rng: Rng::new(seed),
            seen: Seen::default(),
            tape: Tape::new(ARENA, table),
            words: vec![0; ARENA / ALIGNMENT],
            taken: MARGIN,
        }
    }

    pub fn calls(&self) -> u64 {
        self.tape.calls()
    }

    /// The whole recording.
    pub fn finish(self) -> (Vec<u8>, Seen) {
        (self.tape.finish(), self.seen)
    }

    /// Begins a scene: no buffer is taken, and all bytes of the arena are the same.
    pub fn begin(&mut self) {
        let any = self.rng.byte();
        let byte = self.rng.pick(&[0, 0, 0xC5, 0xFF, any]);
        self.begin_with(byte);
    }

    /// The same with this byte.
    pub fn begin_with(&mut self, byte: u8) {
        self.arena_mut().fill(byte);
        self.tape.fill(byte);
        self.taken = MARGIN;
    }

    /// Takes a buffer at any alignment, next to the one before or a little behind it.
    pub fn room(&mut self, length: usize) -> Buffer {
        let gap = self.rng.below(ALIGNMENT + 8);
        self.take(self.taken + gap, length)
    }

    /// Takes a buffer at this alignment.
    pub fn room_at(&mut self, alignment: usize, length: usize) -> Buffer {
        let gap = (alignment + ALIGNMENT - self.taken % ALIGNMENT) % ALIGNMENT;
        self.take(self.taken + gap, length)
    }

    /// Takes a buffer that has these bytes.
    pub fn laid(&mut self, bytes: &[u8]) -> Buffer {
        let buffer = self.room(bytes.len());
        self.put(buffer, bytes);
        buffer
    }

    fn take(&mut self, offset: usize, length: usize) -> Buffer {
        self.taken = offset + length;
        assert!(self.taken <= ARENA - MARGIN, "the arena is too small");
        Buffer {
            place: Place::At(offset),
            length: length as u64,
        }
    }

    /// Puts bytes at the start of a buffer; records those that change.
    pub fn put(&mut self, buffer: Buffer, bytes: &[u8]) {
        let at = buffer.offset();
        let old = &mut self.arena_mut()[at..at + bytes.len()];
        let differs = |(one, other): (&u8, &u8)| one != other;
        let Some(first) = old.iter().zip(bytes).position(differs) else {
            return;
        };
        let last = old.iter().zip(bytes).rposition(differs).unwrap_or(first);
        old.copy_from_slice(bytes);
        self.tape.put(at + first, &bytes[first..=last]);
    }

    /// The bytes of a buffer.
    pub fn bytes(&self, buffer: Buffer) -> &[u8] {
        &self.arena()[buffer.offset()..][..buffer.length as usize]
    }

    /// Makes a call, records it and gives its answer.
    pub fn call(&mut self, name: &str, handed: &[Handed]) -> u64 {
        let named = |export: &Export| export.name.strip_prefix("willowera_") == Some(name);
        let index = EXPORTS.iter().position(named).expect("the name of a call");
        let export = &EXPORTS[index];
        let recorded: Vec<u64> = handed.iter().flat_map(|&one| words_of(one)).collect();
        self.seek_traps(export, &recorded);
        let answer = self.make(export, &recorded);
        self.seen.count(export, answer);
        self.tape.call(index, &recorded, answer, sum(self.arena()));
        answer
    }

    /// Makes the call of these words on the arena.
    fn make(&mut self, export: &Export, recorded: &[u64]) -> u64 {
        let base = self.words.as_mut_ptr() as u64;
        let words = recorded.iter().zip(export.letters.chars());
        let words: Vec<u64> = words
            .map(|(&word, letter)| match (letter, word) {
                ('p', 1) => u64::MAX,
                ('p', offset) if offset > 1 => base + offset - 2,
                _ => word,
            })
            .collect();
        // SAFETY: a pointer into the arena has its bytes behind it, except where
        // `scenes` says why no call reads or writes the bytes that are missing.
        // Buffers that are written overlap no other.
        unsafe { export.call(&words) }
    }

    /// Notes each 64-bit argument whose upper half decides: cut to 32 bits, it would
    /// give another answer or leave other bytes.
    fn seek_traps(&mut self, export: &Export, recorded: &[u64]) {
        for (argument, letter) in export.letters.chars().enumerate() {
            if !matches!(letter, 'l' | 'q') || recorded[argument] >> 32 == 0 {
                continue;
            }
            let mut cut = recorded.to_vec();
            cut[argument] &= 0xFFFF_FFFF;
            let before = self.words.clone();
            let outcome = (self.make(export, &cut), self.words.clone());
            self.words.clone_from(&before);
            let right = (self.make(export, recorded), self.words.clone());
            self.words = before;
            self.seen.count_trap(export, argument, outcome != right);
        }
    }

    fn arena(&self) -> &[u8] {
        // SAFETY: the words are so many bytes, and any bytes are valid.
        unsafe { std::slice::from_raw_parts(self.words.as_ptr().cast(), ARENA) }
    }

    fn arena_mut(&mut self) -> &mut [u8] {
        // SAFETY: the words are so many bytes, and any bytes are valid, also as words.
        unsafe { std::slice::from_raw_parts_mut(self.words.as_mut_ptr().cast(), ARENA) }
    }
}

fn words_of(handed: Handed) -> Vec<u64> {
    match handed {
        Handed::Buffer(buffer) => vec![buffer.place.recorded(), buffer.length],
        Handed::Number(number) => vec![number],
    }
}
