//! The refusals of documents 01 and 02.

/// What is wrong, by the number the paper gives it.
#[derive(Clone, Copy, Debug, PartialEq, Eq, PartialOrd, Ord, Hash)]
#[repr(u8)]
pub enum Number {
    /// Fewer than four bytes left for a section head, or a body past the end.
    CutShort = 1,
    /// Not the section kind expected.
    UnexpectedKind = 2,
    /// A section length that the counts do not allow.
    WrongLength = 3,
    /// Phase or group count out of range.
    WrongCount = 4,
    /// A time setting outside its limits.
    WrongTime = 5,
    /// A signal group with a phase the site lacks, an unknown mark, or a
    /// pedestrian group without exactly one phase.
    WrongGroup = 6,
    /// A ninth pedestrian group.
    NinthPedestrian = 7,
    /// A phase in no group's set.
    UnservedPhase = 8,
    /// A conflict with itself, with a group the site lacks, or one way only.
    WrongConflict = 9,
    /// Two conflicting groups share a phase.
    SharedPhase = 10,
    /// A detector with a phase the site lacks or an unknown mode.
    WrongDetector = 11,
    /// Bytes after the last section.
    LeftOver = 12,
    /// The state is not valid.
    InvalidState = 13,
    /// The colour buffer is shorter than the group count, the result buffer
    /// shorter than the results, the output buffer shorter than the outputs, or the
    /// line buffer shorter than the line; or the buffer for a sealed record is not
    /// exactly as long as one.
    ShortBuffer = 14,
    /// An input bit is set without a detector or button there.
    UnknownInput = 15,
    /// A group that stops early, without a section of early cut-off times.
    EarlyWithoutTimes = 17,
    /// An order that has not each phase once.
    WrongOrder = 18,
    /// A phase with neither a calling detector nor a pedestrian group.
    UncalledPhase = 21,
    /// Too many streams or steps for a road, a rate that is too high, or a
    /// detector or vehicle group that the site lacks.
    WrongRoad = 22,
    /// A record that is not free for a site to be placed, is free where a site is
    /// to be stepped or taken out, or that the cabinet lacks.
    WrongRecord = 24,
    /// Outputs past the last, or, in placing, outputs of another record.
    WrongOutputs = 25,
    /// A second personality that differs in more than time settings.
    NotTimesAlone = 26,
    /// A sealed record of another version.
    OtherVersion = 27,
    /// A sealed record with another length than it was written with, or whose check
    /// value is not that of its bytes.
    Damaged = 28,
    /// A sealed record of another personality.
    OtherPersonality = 29,
}

/// A refusal: its number, and the byte of the personality it is about (0 where
/// the number names no place).
#[derive(Clone, Copy, Debug, PartialEq, Eq)]
pub struct Refusal {
    pub number: Number,
    pub place: u32,
}

impl Refusal {
    /// A refusal at a byte of the personality.
    pub(crate) fn at(number: Number, place: usize) -> Refusal {
        Refusal {
            number,
            // Everything accepted before a refusal is shorter than 500 bytes.
            place: place as u32,
        }
    }

    /// A refusal that names no place.
    pub(crate) fn without_place(number: Number) -> Refusal {
        Refusal { number, place: 0 }
    }
}

/// Accepted, or refused with a number and a place.
pub type Verdict = Result<(), Refusal>;
