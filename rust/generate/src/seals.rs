//! Sealed records: whole ones of any bytes as a state, and others than the one that was
//! written.

use crate::retimes::{changed_beyond_times, retimed};
use crate::rng::Rng;
use model::sealed::{CHECK, LENGTH, PERSONALITY, STATE, VERSION};
use model::{crc32, SEALED_LEN};

/// The record of any bytes as a state, with its check value right.
pub fn record_of(personality: &[u8], state: &[u8]) -> Vec<u8> {
    let mut record = vec![VERSION];
    record.extend((personality.len() as u16).to_le_bytes());
    record.extend(crc32(personality).to_le_bytes());
    record.extend(state);
    record.extend(crc32(&record).to_le_bytes());
    record
}

/// The ways in which a record can be another than the one that was written. In the last
/// ones its check value is made right.
#[derive(Clone, Copy, Debug, PartialEq, Eq)]
pub enum SealDamage {
    OneBit,
    OneByte,
    /// Up to four neighbouring bytes.
    Neighbours,
    /// Several bytes anywhere.
    Places,
    /// Parts of it, and parts of the record before it.
    Torn,
    Shorter,
    Longer,
    OtherVersion,
    /// Another version, and another length or another byte too.
    OtherVersionAndMore,
    Noise,
    OtherVersionWhole,
    /// Another length of the personality.
    OtherLength,
    /// Another check value of the personality.
    OtherCheck,
    /// The name of another personality.
    OtherPersonality,
    /// Another byte in the state, which may still be valid.
    OtherState,
}

impl SealDamage {
    pub const ALL: [SealDamage; 15] = [
        SealDamage::OneBit,
        SealDamage::OneByte,
        SealDamage::Neighbours,
        SealDamage::Places,
        SealDamage::Torn,
        SealDamage::Shorter,
        SealDamage::Longer,
        SealDamage::OtherVersion,
        SealDamage::OtherVersionAndMore,
        SealDamage::Noise,
        SealDamage::OtherVersionWhole,
        SealDamage::OtherLength,
        SealDamage::OtherCheck,
        SealDamage::OtherPersonality,
        SealDamage::OtherState,
    ];
}

/// A record made another, given the one before it. Some draws leave it as it is.
pub fn damaged_record(
    rng: &mut Rng,
    personality: &[u8],
    record: &[u8],
    before: &[u8],
    damage: SealDamage,
) -> Vec<u8> {
    let mut bytes = record.to_vec();
    match damage {
        SealDamage::OneBit => bytes[rng.below(SEALED_LEN)] ^= 1 << rng.below(8),
        SealDamage::OneByte => bytes[rng.below(SEALED_LEN)] = rng.byte(),
        SealDamage::Neighbours => {
            let count = rng.range(1, 4);
            let at = rng.below(SEALED_LEN - count + 1);
            bytes[at..at + count].fill_with(|| rng.byte());
        }
        SealDamage::Places => {
            for _ in 0..rng.range(2, 12) {
                bytes[rng.below(SEALED_LEN)] = rng.byte();
            }
        }
        SealDamage::Torn => bytes = torn(rng, record, before),
        SealDamage::Shorter => bytes.truncate(shorter(rng)),
        SealDamage::Longer => {
            let more = rng.pick(&[1, 1, 2, 5, 100, SEALED_LEN]);
            let behind = rng.bytes(more);
            bytes.extend(rng.pick(&[&behind[..], &vec![0; more], &record[..more]]));
        }
        SealDamage::OtherVersion => bytes[0] = other_version(rng),
        SealDamage::OtherVersionAndMore => {
            bytes[0] = other_version(rng);
            match rng.below(3) {
                0 => bytes.truncate(shorter(rng).max(1)),
                1 => bytes.extend([0; 9]),
                _ => bytes[rng.range(1, SEALED_LEN - 1)] ^= 1,
            }
        }
        SealDamage::Noise => bytes = rng.bytes(SEALED_LEN),
        SealDamage::OtherVersionWhole => bytes[0] = other_version(rng),
        SealDamage::OtherLength => {
            let length = personality.len() as u16;
            let other = rng.pick(&[length + 1, length - 1, length ^ 256, length.swap_bytes(), 0]);
            bytes[LENGTH..PERSONALITY].copy_from_slice(&other.to_le_bytes());
        }
        SealDamage::OtherCheck => bytes[rng.range(PERSONALITY, STATE - 1)] ^= 1 << rng.below(8),
        SealDamage::OtherPersonality => {
            let other = match rng.below(2) {
                0 => retimed(rng, personality),
                _ => changed_beyond_times(rng, personality),
            };
            return record_of(&other, &record[STATE..CHECK]);
        }
        SealDamage::OtherState => bytes[rng.range(STATE, CHECK - 1)] = rng.byte() & rng.byte(),
    }
    let whole = [
        SealDamage::OtherVersionWhole,
        SealDamage::OtherLength,
        SealDamage::OtherCheck,
        SealDamage::OtherState,
    ];
    if whole.contains(&damage) {
        let check = crc32(&bytes[..CHECK]);
        bytes[CHECK..].copy_from_slice(&check.to_le_bytes());
    }
    bytes
}

/// A writing that was broken off: the new record to some place and the old one behind
/// it, or blocks of one size, each of the one or of the other.
fn torn(rng: &mut Rng, record: &[u8], before: &[u8]) -> Vec<u8> {
    if rng.percent(40) {
        let (new, old) = (&record[..rng.below(SEALED_LEN)], before);
        return [new, &old[new.len()..]].concat();
    }
    let size = rng.pick(&[1, 4, 8, 32, 64, 128]);
    let blocks = record.chunks(size).zip(before.chunks(size));
    let chosen = blocks.flat_map(|(new, old)| rng.pick(&[new, old]));
    chosen.copied().collect()
}

/// A length below that of a record; often 0, or that of a state.
fn shorter(rng: &mut Rng) -> usize {
    let anywhere = rng.below(SEALED_LEN);
    rng.pick(&[0, 1, STATE, CHECK - STATE, CHECK, SEALED_LEN - 1, anywhere])
}

fn other_version(rng: &mut Rng) -> u8 {
    let anything = rng.byte();
    let other = rng.pick(&[VERSION - 1, VERSION + 1, 0, u8::MAX, anything]);
    if other == VERSION {
        !VERSION
    } else {
        other
    }
}
