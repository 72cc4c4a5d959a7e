//! A state sealed for the time without power: a record that names its version and its
//! personality, and has a check value. This file alone knows where each part lies.

use crate::crc::crc32;
use crate::refusal::{Number, Refusal};
use crate::site::Site;
use crate::timed::{valid_timed, TimedState};
use crate::STATE_LEN;

/// The version of the interface, which the first byte names.
pub const VERSION: u8 = 6;

/// Where each part begins: the length of the personality (two bytes), its check value
/// (four), the state, and the check value of all that is before it (four).
pub const LENGTH: usize = 1;
pub const PERSONALITY: usize = LENGTH + 2;
pub const STATE: usize = PERSONALITY + 4;
pub const CHECK: usize = STATE + STATE_LEN;

/// The length of a sealed record in bytes.
pub const SEALED_LEN: usize = CHECK + 4;

/// A full sealing call: the personality is read and checked, then the state.
pub fn seal(personality: &[u8], timed: &TimedState) -> Result<[u8; SEALED_LEN], Refusal> {
    seal_on(&Site::read(personality)?, personality, timed)
}

/// A sealing on a site already read from its personality.
pub fn seal_on(
    site: &Site,
    personality: &[u8],
    timed: &TimedState,
) -> Result<[u8; SEALED_LEN], Refusal> {
    if !valid_timed(site, timed) {
        return Err(Refusal::without_place(Number::InvalidState));
    }
    let mut record = [0; SEALED_LEN];
    record[0] = VERSION;
    record[LENGTH..STATE].copy_from_slice(&name_of(personality));
    record[STATE..CHECK].copy_from_slice(&timed.to_bytes());
    let check = crc32(&record[..CHECK]);
    record[CHECK..].copy_from_slice(&check.to_le_bytes());
    Ok(record)
}

/// A full resuming call: the personality is read and checked, then the record.
pub fn resume(personality: &[u8], sealed: &[u8]) -> Result<TimedState, Refusal> {
    resume_on(&Site::read(personality)?, personality, sealed)
}

/// A resuming on a site already read from its personality. Bytes without a first byte
/// name no version, so they are damaged.
pub fn resume_on(site: &Site, personality: &[u8], sealed: &[u8]) -> Result<TimedState, Refusal> {
    let refuse = |number| Err(Refusal::without_place(number));
    if sealed.first().is_some_and(|&version| version != VERSION) {
        return refuse(Number::OtherVersion);
    }
    let Some(record) = sealed.try_into().ok().filter(is_whole) else {
        return refuse(Number::Damaged);
    };
    if record[LENGTH..STATE] != name_of(personality) {
        return refuse(Number::OtherPersonality);
    }
    let state = TimedState::from_bytes(&record[STATE..CHECK]);
    match state.filter(|timed| valid_timed(site, timed)) {
        Some(timed) => Ok(timed),
        None => refuse(Number::InvalidState),
    }
}

/// Whether a record has the check value of its bytes.
fn is_whole(record: &&[u8; SEALED_LEN]) -> bool {
    record[CHECK..] == crc32(&record[..CHECK]).to_le_bytes()
}

/// What a record has of an accepted personality: its length and its check value.
fn name_of(personality: &[u8]) -> [u8; STATE - LENGTH] {
    // The longest accepted personality has 477 bytes.
    let [low, high] = (personality.len() as u16).to_le_bytes();
    let [first, second, third, fourth] = crc32(personality).to_le_bytes();
    [low, high, first, second, third, fourth]
}
