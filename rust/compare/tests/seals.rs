//! Plain sealing, resuming and counting of groups, with a check value that is reckoned
//! bit by bit, agree with the model's. Those that are wrong in one small thing are
//! noticed.

#[macro_use]
mod faults;

use compare::Kind;
use faults::{assert_agrees, assert_noticed, cases_of};
use model::packed::{number, Board, Model};
use model::{layout, Site, Times, SEALED_LEN, STATE_LEN};
use variant::{AsBoard, Variant};

faults! {
    // The number of groups.
    GroupsNotShifted
    PedestriansNotCounted
    PhasesCounted
    GroupsOfRefused
    GroupsRefusedWithoutPlace
    // The check value.
    CheckFromZeros
    CheckNotInverted
    CheckHighestBitFirst
    CheckOfAnotherGenerator
    CheckHighestByteFirst
    CheckOverOneByteLess
    CheckWithoutTheVersion
    CheckWithoutTheName
    // The parts of a record.
    VersionWithoutRecord
    OlderVersion
    LengthHighestByteFirst
    LengthInOneByte
    LengthOfTheRecord
    PersonalityWithoutItsCheck
    PersonalityCheckedToItsLastByte
    WaitingTimesNotSealed
    FlagNotSealed
    // The checks of a sealing.
    SealsAnyState
    SealsAnyTimes
    SealsStatesOfAnyLength
    SealsForRefused
    BufferBeforeState
    BufferBeforePersonality
    TakesALongerBuffer
    TakesAShorterBuffer
    RefusedSealingWrites
    SealingPlaceGiven
    // The checks of a resuming.
    VersionNotChecked
    OlderVersionsTaken
    NewerVersionsTaken
    VersionBehindDamage
    VersionOfWholeRecordsOnly
    EmptyIsAnotherVersion
    LongerRecordTaken
    CheckNotCompared
    CheckInPart
    PersonalityNotCompared
    LengthNotCompared
    PersonalityCheckNotCompared
    PersonalityBeforeDamage
    StateBeforePersonality
    ResumesAnyState
    ResumesAnyTimes
    ResumesForRefused
    RoomBehindTheRecord
    RoomBehindTheVersion
    TakesALongerStateBuffer
    RefusedResumingPlaceGiven
    // What a resuming writes.
    WritesBeforeTheChecks
    WritesIfDamaged
    WritesIfOfAnotherPersonality
    WritesIfInvalid
    ResumesAfresh
    OwnTimesRule
    WaitingTimesForgotten
    DemandsForgotten
    AgeForgotten
    WritesBehindTheState
}

struct Plain(Fault);

impl Plain {
    fn has(&self, fault: Fault) -> bool {
        self.0 == fault
    }

    fn check(&self, bytes: &[u8]) -> [u8; 4] {
        let generator = match self.0 {
            // The one of CRC-32C.
            Fault::CheckOfAnotherGenerator => 0x82F6_3B78,
            _ => 0xEDB8_8320,
        };
        let mut register = u32::from(!self.has(Fault::CheckFromZeros)).wrapping_neg();
        for &byte in bytes {
            register ^= u32::from(match self.0 {
                Fault::CheckHighestBitFirst => byte.reverse_bits(),
                _ => byte,
            });
            for _ in 0..8 {
                register = match register & 1 {
                    0 => register >> 1,
                    _ => register >> 1 ^ generator,
                };
            }
        }
        if !self.has(Fault::CheckNotInverted) {
            register = !register;
        }
        match self.0 {
            Fault::CheckHighestByteFirst => register.to_be_bytes(),
            _ => register.to_le_bytes(),
        }
    }

    /// What a record has of its personality.
    fn name(&self, personality: &[u8]) -> Vec<u8> {
        let length = match self.0 {
            Fault::LengthOfTheRecord => SEALED_LEN as u16,
            _ => personality.len() as u16,
        };
        let mut name = match self.0 {
            Fault::LengthHighestByteFirst => length.to_be_bytes(),
            Fault::LengthInOneByte => [length as u8, 0],
            _ => length.to_le_bytes(),
        }
        .to_vec();
        name.extend(match self.0 {
            Fault::PersonalityWithoutItsCheck => [0; 4],
            Fault::PersonalityCheckedToItsLastByte => {
                self.check(&personality[..personality.len() - 1])
            }
            _ => self.check(personality),
        });
        name
    }

    /// The check value at the end of a record, by the bytes before it.
    fn end(&self, body: &[u8]) -> [u8; 4] {
        self.check(match self.0 {
            Fault::CheckOverOneByteLess => &body[..body.len() - 1],
            Fault::CheckWithoutTheVersion => &body[1..],
            Fault::CheckWithoutTheName => &body[7..],
            _ => body,
        })
    }

    fn record(&self, personality: &[u8], state: &[u8]) -> Vec<u8> {
        let mut state = state.to_vec();
        state.resize(STATE_LEN, 0);
        match self.0 {
            Fault::WaitingTimesNotSealed => state[layout::FLAG..].fill(0),
            Fault::FlagNotSealed => state[layout::FLAG] = 0,
            _ => {}
        }
        let mut record = vec![match self.0 {
            Fault::OlderVersion => 5,
            Fault::VersionWithoutRecord => 0,
            _ => 6,
        }];
        record.extend(self.name(personality));
        record.extend(state);
        record.extend(self.end(&record));
        record
    }

    /// The answer to a state of an accepted personality.
    fn state_answer(&self, personality: &[u8], state: &[u8], any: Fault, times: Fault) -> u64 {
        let mut looked_at = state.to_vec();
        if self.has(Fault::SealsStatesOfAnyLength) {
            looked_at.resize(STATE_LEN, 0);
        }
        if self.has(times) && state.len() == STATE_LEN {
            let site = Site::read(personality).expect("an accepted personality");
            looked_at[layout::RULING..layout::FLAG].copy_from_slice(&Times::of(&site).to_bytes());
            looked_at[layout::FLAG..].fill(0);
        }
        // A step without inputs and with room enough is refused for its state alone.
        match number(Model.step(personality, &mut looked_at, 0, &mut [0; 32])) {
            _ if self.has(any) => 0,
            0 => 0,
            _ => 13,
        }
    }

    /// The answer to the version that a record names.
    fn version_answer(&self, sealed: &[u8]) -> u64 {
        let Some(&version) = sealed.first() else {
            return if self.has(Fault::EmptyIsAnotherVersion) {
                27
            } else {
                0
            };
        };
        let taken = match self.0 {
            Fault::VersionNotChecked => true,
            Fault::OlderVersionsTaken => version <= 6,
            Fault::NewerVersionsTaken => version >= 6,
            Fault::VersionOfWholeRecordsOnly if sealed.len() != SEALED_LEN => true,
            _ => version == 6,
        };
        if taken {
            0
        } else {
            27
        }
    }

    /// The answer to the length and the check value of a record.
    fn damage_answer(&self, sealed: &[u8]) -> u64 {
        let long = sealed.len() > SEALED_LEN && self.has(Fault::LongerRecordTaken);
        if sealed.len() != SEALED_LEN && !long {
            return 28;
        }
        let (body, check) = sealed[..SEALED_LEN].split_at(SEALED_LEN - 4);
        let expected = self.end(body);
        let compared = match self.0 {
            Fault::CheckNotCompared => 0,
            Fault::CheckInPart => 2,
            _ => 4,
        };
        if check[..compared] == expected[..compared] {
            0
        } else {
            28
        }
    }

    /// The answer to the personality that a record names.
    fn name_answer(&self, personality: &[u8], sealed: &[u8]) -> u64 {
        let name = self.name(personality);
        let compared = match self.0 {
            Fault::PersonalityNotCompared => 0..0,
            Fault::LengthNotCompared => 2..6,
            Fault::PersonalityCheckNotCompared => 0..2,
            _ => 0..6,
        };
        match sealed.get(1..7) {
            Some(found) if found[compared.clone()] == name[compared] => 0,
            _ => 29,
        }
    }

    /// The answer to a resuming on an accepted personality.
    fn resume_answer(&self, personality: &[u8], sealed: &[u8], room: usize) -> u64 {
        let right = room == STATE_LEN || self.has(Fault::TakesALongerStateBuffer) && room > 336;
        let room = if right { 0 } else { 13 };
        let version = self.version_answer(sealed);
        let damage = self.damage_answer(sealed);
        let name = self.name_answer(personality, sealed);
        let state = sealed.get(7..7 + STATE_LEN).unwrap_or_default();
        let (any, times) = (Fault::ResumesAnyState, Fault::ResumesAnyTimes);
        let state = self.state_answer(personality, state, any, times);
        let order = match self.0 {
            Fault::VersionBehindDamage => [room, damage, version, name, state],
            Fault::PersonalityBeforeDamage => [room, version, name, damage, state],
            Fault::StateBeforePersonality => [room, version, damage, state, name],
            Fault::RoomBehindTheRecord => [version, damage, name, state, room],
            Fault::RoomBehindTheVersion => [version, room, damage, name, state],
            _ => [room, version, damage, name, state],
        };
        order.into_iter().find(|&answer| answer != 0).unwrap_or(0)
    }

    /// The state that a resuming writes.
    fn resumed(&self, personality: &[u8], sealed: &[u8]) -> Vec<u8> {
        let mut state = sealed[7..7 + STATE_LEN].to_vec();
        let Ok(site) = Site::read(personality) else {
            return state;
        };
        match self.0 {
            Fault::ResumesAfresh => {
                Model.fresh(personality, &mut state);
            }
            Fault::OwnTimesRule => {
                state[layout::RULING..layout::FLAG].copy_from_slice(&Times::of(&site).to_bytes())
            }
            Fault::WaitingTimesForgotten => state[layout::FLAG..].fill(0),
            Fault::DemandsForgotten => {
                (state[layout::LOCKS], state[layout::DEMANDS]) = (0, 0);
                state[layout::DEMANDED] = 0;
            }
            Fault::AgeForgotten => (state[layout::AGE], state[layout::AGE + 1]) = (1, 0),
            _ => {}
        }
        state
    }
}

impl Variant for Plain {
    fn groups(&self, personality: &[u8]) -> u64 {
        if self.has(Fault::GroupsOfRefused) {
            return personality.get(5).map_or(1, |&count| u64::from(count) << 8);
        }
        let Ok(site) = Site::read(personality) else {
            let answer = Model.read(personality);
            return match self.0 {
                Fault::GroupsRefusedWithoutPlace => number(answer).into(),
                _ => answer,
            };
        };
        let count = match self.0 {
            Fault::PedestriansNotCounted => site.group_count() - site.movement_count(),
            Fault::PhasesCounted => site.phase_count(),
            _ => site.group_count(),
        };
        (count as u64)
            << if self.has(Fault::GroupsNotShifted) {
                0
            } else {
                8
            }
    }

    fn seal(&self, personality: &[u8], state: &[u8], sealed: &mut [u8]) -> u64 {
        let own = match Model.read(personality) {
            _ if self.has(Fault::SealsForRefused) && !personality.is_empty() => 0,
            answer => answer,
        };
        let (any, times) = (Fault::SealsAnyState, Fault::SealsAnyTimes);
        let state_answer = match Model.read(personality) {
            0 => self.state_answer(personality, state, any, times),
            _ => 0,
        };
        let fits = match self.0 {
            Fault::TakesALongerBuffer => sealed.len() >= SEALED_LEN,
            Fault::TakesAShorterBuffer => sealed.len() <= SEALED_LEN,
            _ => sealed.len() == SEALED_LEN,
        };
        let buffer = match fits {
            true => 0,
            false if self.has(Fault::SealingPlaceGiven) => 14 | 1 << 8,
            false => 14,
        };
        let order = match self.0 {
            Fault::BufferBeforeState => [own, buffer, state_answer],
            Fault::BufferBeforePersonality => [buffer, own, state_answer],
            _ => [own, state_answer, buffer],
        };
        let record = self.record(personality, state);
        let length = sealed.len().min(SEALED_LEN);
        let refusal = order.into_iter().find(|&answer| answer != 0);
        if refusal.is_none() || self.has(Fault::RefusedSealingWrites) {
            sealed[..length].copy_from_slice(&record[..length]);
        }
        refusal.unwrap_or(0)
    }

    fn resume(&self, personality: &[u8], sealed: &[u8], state: &mut [u8]) -> u64 {
        let answer = match Model.read(personality) {
            0 => self.resume_answer(personality, sealed, state.len()),
            _ if self.has(Fault::ResumesForRefused) => self.version_answer(sealed),
            own => own,
        };
        let writes = match number(answer) {
            0 => true,
            28 => self.has(Fault::WritesIfDamaged),
            29 => self.has(Fault::WritesIfOfAnotherPersonality),
            13 => self.has(Fault::WritesIfInvalid),
            _ => false,
        };
        let fits = state.len() >= STATE_LEN && sealed.len() >= SEALED_LEN;
        if (writes || self.has(Fault::WritesBeforeTheChecks)) && fits {
            let resumed = self.resumed(personality, sealed);
            state[..STATE_LEN].copy_from_slice(&resumed);
        }
        if self.has(Fault::WritesBehindTheState) && state.len() > STATE_LEN {
            state[STATE_LEN] ^= 1;
        }
        match self.0 {
            Fault::RefusedResumingPlaceGiven if answer == 29 => 29 | 1 << 8,
            _ => answer,
        }
    }
}

const SEED: u64 = 21;

/// The cases with sealed records, and those with the number of groups, accepted and
/// refused.
fn cases() -> Vec<u64> {
    let kinds = [
        Kind::Accepted,
        Kind::Damaged(5),
        Kind::SealedRun,
        Kind::Seals,
        Kind::SealWrongs,
        Kind::DamagedSeals,
        Kind::OtherSeals,
        Kind::InvalidSeals,
        Kind::ResumeWrongs,
    ];
    cases_of(&kinds, 3_000)
}

#[test]
fn plain_seals_agree() {
    assert_agrees(&AsBoard(Plain(Fault::None)), SEED, cases());
}

#[test]
fn wrong_seals_are_noticed() {
    let calls = ["groups: ", "seal: ", "resume: "];
    for &fault in FAULTS {
        let board = AsBoard(Plain(fault));
        assert_noticed(fault, &board, SEED, cases(), &calls);
    }
}
