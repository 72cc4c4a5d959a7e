//! A plain cabinet over read and step calls agrees with the model, and cabinets
//! that are wrong in one small thing are noticed.

mod faults;

use compare::Kind;
use faults::{assert_agrees, assert_noticed, cases_of};
use model::packed::{number, Board, Model};
use model::{layout, RecordBytes, Site, TimedState, Times, PLAIN_LEN, STATE_LEN};
use std::ops::Range;
use variant::{AsBoard, Variant};

/// The points in which a plain cabinet may go wrong.
#[derive(Clone, Copy, Debug, PartialEq, Eq)]
enum Fault {
    None,
    // The row and its records.
    TakesLongerRows,
    TakesShorterRows,
    TakesAllRecordsOfTheRow,
    RecordInTwoBits,
    HeldByOneOnly,
    LengthAboveRefused,
    LengthInNineBits,
    // The outputs.
    RefusesLastOutput,
    TakesOneOutputMore,
    FirstWraps,
    FirstInOneByte,
    NeighboursOverlap,
    OverlapByFirstOnly,
    OverlapWithOneRecordOnly,
    FreeRecordsTakeOutputs,
    RefusedRecordsTakeOutputs,
    RecordsPastTheLastTakeNone,
    BadStatesTakeNone,
    BufferByGroups,
    // The order of refusals.
    RecordBeforePersonality,
    OutputsBeforeRecord,
    BufferBeforeOutputs,
    PersonalityBeforeRecord,
    StateBeforeOutputs,
    BufferBeforeInputs,
    InputsBeforeState,
    TakingOutLooksAtState,
    PlaceGiven,
    // What is written.
    PlacesInHeldRecords,
    KeepsBytesBehind,
    KeepsOldState,
    HeldByItsNumber,
    StaysDark,
    PlacesAllRed,
    PlacingAnswersWait,
    StepsFreeRecords,
    StepWritesFromZero,
    StepWritesRestRed,
    StepHoldsByOne,
    StepClearsBehind,
    StepCutsLength,
    StepAnswersNothing,
    TakesOutFreeRecords,
    TakesOutRefused,
    TakingOutKeepsBytes,
    TakingOutLeavesRed,
    TakesAllDark,
    WritesWhenRefused,
    WritesPastTheLast,
    // The times of a site.
    PlacesWithoutTimes,
    PlacesWithTimesWaiting,
    PlacingKeepsOldTimes,
    StepWritesPlainStateOnly,
    StepForgetsWaitingTimes,
    StepGoesByOwnTimes,
    StepAnswersOwnWait,
    StepLooksAtPlainStateOnly,
    RefusesRetimedSites,
    RetimingRefused,
    RetimingLeavesState,
    RetimingWritesWhenRefused,
}

const FAULTS: [Fault; 61] = [
    Fault::TakesLongerRows,
    Fault::TakesShorterRows,
    Fault::TakesAllRecordsOfTheRow,
    Fault::RecordInTwoBits,
    Fault::HeldByOneOnly,
    Fault::LengthAboveRefused,
    Fault::LengthInNineBits,
    Fault::RefusesLastOutput,
    Fault::TakesOneOutputMore,
    Fault::FirstWraps,
    Fault::FirstInOneByte,
    Fault::NeighboursOverlap,
    Fault::OverlapByFirstOnly,
    Fault::OverlapWithOneRecordOnly,
    Fault::FreeRecordsTakeOutputs,
    Fault::RefusedRecordsTakeOutputs,
    Fault::RecordsPastTheLastTakeNone,
    Fault::BadStatesTakeNone,
    Fault::BufferByGroups,
    Fault::RecordBeforePersonality,
    Fault::OutputsBeforeRecord,
    Fault::BufferBeforeOutputs,
    Fault::PersonalityBeforeRecord,
    Fault::StateBeforeOutputs,
    Fault::BufferBeforeInputs,
    Fault::InputsBeforeState,
    Fault::TakingOutLooksAtState,
    Fault::PlaceGiven,
    Fault::PlacesInHeldRecords,
    Fault::KeepsBytesBehind,
    Fault::KeepsOldState,
    Fault::HeldByItsNumber,
    Fault::StaysDark,
    Fault::PlacesAllRed,
    Fault::PlacingAnswersWait,
    Fault::StepsFreeRecords,
    Fault::StepWritesFromZero,
    Fault::StepWritesRestRed,
    Fault::StepHoldsByOne,
    Fault::StepClearsBehind,
    Fault::StepCutsLength,
    Fault::StepAnswersNothing,
    Fault::TakesOutFreeRecords,
    Fault::TakesOutRefused,
    Fault::TakingOutKeepsBytes,
    Fault::TakingOutLeavesRed,
    Fault::TakesAllDark,
    Fault::WritesWhenRefused,
    Fault::WritesPastTheLast,
    Fault::PlacesWithoutTimes,
    Fault::PlacesWithTimesWaiting,
    Fault::PlacingKeepsOldTimes,
    Fault::StepWritesPlainStateOnly,
    Fault::StepForgetsWaitingTimes,
    Fault::StepGoesByOwnTimes,
    Fault::StepAnswersOwnWait,
    Fault::StepLooksAtPlainStateOnly,
    Fault::RefusesRetimedSites,
    Fault::RetimingRefused,
    Fault::RetimingLeavesState,
    Fault::RetimingWritesWhenRefused,
];

/// The fields of a record of 817 bytes.
const LENGTH: Range<usize> = 2..4;
const ROOM: Range<usize> = 4..481;
const STATE: Range<usize> = 481..817;

/// The model, but its cabinet is a plain one over read and step calls.
struct PlainCabinet(Fault);

/// The first answer that is a refusal, or 0.
fn first_refusal<const CHECKS: usize>(answers: [u64; CHECKS]) -> u64 {
    answers
        .into_iter()
        .find(|&answer| number(answer) != 0)
        .unwrap_or(0)
}

/// A number where something is wrong, or 0.
fn refuse_if(wrong: bool, number: u64) -> u64 {
    if wrong {
        number
    } else {
        0
    }
}

impl PlainCabinet {
    fn has(&self, fault: Fault) -> bool {
        self.0 == fault
    }

    /// Which record of the row is meant, if there is such a record.
    fn index(&self, row: &[RecordBytes], record: usize) -> Option<usize> {
        let record = match self.has(Fault::RecordInTwoBits) {
            true => record & 3,
            false => record,
        };
        let there = match self.0 {
            Fault::TakesLongerRows => row.len() >= 4 && record < 4,
            Fault::TakesShorterRows => row.len() <= 4,
            Fault::TakesAllRecordsOfTheRow => true,
            _ => row.len() == 4,
        };
        (there && record < row.len()).then_some(record)
    }

    fn is_free(&self, record: &RecordBytes) -> bool {
        match self.0 {
            Fault::HeldByOneOnly => record[0] != 1,
            _ => record[0] == 0,
        }
    }

    fn personality<'a>(&self, record: &'a RecordBytes) -> &'a [u8] {
        let length = usize::from(u16::from_le_bytes([record[2], record[3]]));
        let length = match self.0 {
            Fault::LengthAboveRefused if length > 477 => 0,
            Fault::LengthInNineBits => length & 511,
            _ => length,
        };
        &record[ROOM][..length.min(477)]
    }

    /// Whether some of the outputs are past the last.
    fn past(&self, first: usize, groups: usize) -> bool {
        let first = match self.0 {
            Fault::FirstInOneByte => first & 255,
            _ => first,
        };
        let end = match self.0 {
            Fault::FirstWraps => first.wrapping_add(groups),
            _ => first.saturating_add(groups),
        };
        match self.0 {
            Fault::RefusesLastOutput => end > 31,
            Fault::TakesOneOutputMore => end > 33,
            _ => end > 32,
        }
    }

    /// Whether a record takes some of the outputs.
    fn takes(&self, record: &RecordBytes, first: usize, groups: usize) -> bool {
        let personality = self.personality(record);
        let refused = number(Model.read(personality)) != 0;
        if refused && !self.has(Fault::RefusedRecordsTakeOutputs) || personality.len() < 6 {
            return false;
        }
        if self.is_free(record) && !self.has(Fault::FreeRecordsTakeOutputs) {
            return false;
        }
        if self.has(Fault::BadStatesTakeNone) && TimedState::from_bytes(&record[STATE]).is_none() {
            return false;
        }
        let taken = usize::from(record[1])..usize::from(record[1]) + usize::from(personality[5]);
        if self.has(Fault::RecordsPastTheLastTakeNone) && taken.end > 32 {
            return false;
        }
        let last = match self.0 {
            Fault::OverlapByFirstOnly => first,
            Fault::NeighboursOverlap => first + groups,
            _ => first + groups - 1,
        };
        (first..=last).any(|output| taken.contains(&output))
    }

    fn others_take(&self, row: &[RecordBytes], first: usize, groups: usize) -> bool {
        let looked_at = match self.has(Fault::OverlapWithOneRecordOnly) {
            true => 1,
            false => row.len(),
        };
        !self.past(first, groups) && {
            let first = first.min(64);
            row.iter()
                .take(looked_at)
                .any(|record| self.takes(record, first, groups))
        }
    }

    fn short(&self, outputs: &[u8], first: usize, groups: usize) -> u64 {
        let needed = match self.0 {
            Fault::BufferByGroups => first.min(32) + groups,
            _ => 32,
        };
        refuse_if(outputs.len() < needed, 14)
    }

    fn placing(
        &self,
        row: &[RecordBytes],
        record: usize,
        personality: &[u8],
        first: usize,
    ) -> [u64; 3] {
        let read = Model.read(personality);
        let record = match self.index(row, record) {
            Some(index) => {
                let free = self.is_free(&row[index]);
                refuse_if(!free && !self.has(Fault::PlacesInHeldRecords), 24)
            }
            None => 24,
        };
        let groups = match number(read) {
            0 => usize::from(personality[5]),
            _ => return [read, record, 0],
        };
        let wrong = self.past(first, groups) || self.others_take(row, first, groups);
        let place = refuse_if(self.has(Fault::PlaceGiven), 5 << 8);
        [read, record, refuse_if(wrong, 25 | place)]
    }

    /// The record of a step or a taking out, or the refusal.
    fn held(&self, row: &[RecordBytes], record: usize, frees: bool) -> Result<usize, u64> {
        let index = self.index(row, record).ok_or(24_u64)?;
        let held = &row[index];
        let read = Model.read(self.personality(held));
        if self.is_free(held) && !frees {
            let first = self.has(Fault::PersonalityBeforeRecord) && number(read) > 1;
            return Err(if first { read } else { 24 });
        }
        if number(read) != 0 {
            return Err(read);
        }
        Ok(index)
    }

    /// Writes the state of a site just placed over the old one.
    fn begin(&self, personality: &[u8], state: &mut [u8]) {
        let old = state.to_vec();
        Model.fresh(personality, state);
        match self.0 {
            Fault::PlacesWithoutTimes => state[PLAIN_LEN..].fill(0),
            Fault::PlacingKeepsOldTimes => state[PLAIN_LEN..].copy_from_slice(&old[PLAIN_LEN..]),
            Fault::PlacesWithTimesWaiting => {
                Model.retime(personality, state, personality);
            }
            _ => {}
        }
    }

    /// The state that a step goes by.
    fn state_of(&self, personality: &[u8], held: &[u8]) -> [u8; STATE_LEN] {
        let mut state: [u8; STATE_LEN] = held.try_into().expect("336 bytes");
        let site = Site::read(personality).expect("an accepted personality");
        let own = Times::of(&site).to_bytes();
        let ruling = layout::RULING..layout::FLAG;
        match self.0 {
            Fault::StepForgetsWaitingTimes => state[layout::FLAG..].fill(0),
            Fault::StepGoesByOwnTimes => state[ruling].copy_from_slice(&own),
            Fault::StepLooksAtPlainStateOnly => {
                let valid = Model.retime(personality, &mut state.clone(), personality) == 0;
                if !valid {
                    state[ruling].copy_from_slice(&own);
                    state[layout::FLAG..].fill(0);
                }
            }
            Fault::RefusesRetimedSites if state[ruling] != own => state.fill(u8::MAX),
            _ => {}
        }
        state
    }

    /// First output and groups of a held record.
    fn outputs_of(&self, record: &RecordBytes) -> (usize, usize) {
        let groups = self.personality(record)[5];
        (usize::from(record[1]), usize::from(groups))
    }
}

/// The outputs of a buffer from a first one on, as far as there are any.
fn outputs_from(outputs: &mut [u8], first: usize, groups: usize) -> &mut [u8] {
    let end = first.saturating_add(groups).min(outputs.len());
    &mut outputs[first.min(end)..end]
}

impl Variant for PlainCabinet {
    fn retime(&self, personality: &[u8], state: &mut [u8], new_personality: &[u8]) -> u64 {
        match self.0 {
            Fault::RetimingRefused => 24,
            Fault::RetimingLeavesState => {
                Model.retime(personality, &mut state.to_vec(), new_personality)
            }
            Fault::RetimingWritesWhenRefused => {
                let answer = Model.retime(personality, state, new_personality);
                state[0] ^= u8::from(answer == 26);
                answer
            }
            _ => Model.retime(personality, state, new_personality),
        }
    }

    fn cabinet_place(
        &self,
        row: &mut [RecordBytes],
        record: usize,
        personality: &[u8],
        first: usize,
        outputs: &mut [u8],
    ) -> u64 {
        let [read, wrong_record, wrong_outputs] = self.placing(row, record, personality, first);
        let groups = usize::from(personality.get(5).copied().unwrap_or(0));
        let short = self.short(outputs, first, groups);
        let answer = first_refusal(match self.0 {
            Fault::RecordBeforePersonality => [wrong_record, read, wrong_outputs, short],
            Fault::OutputsBeforeRecord => [read, wrong_outputs, wrong_record, short],
            Fault::BufferBeforeOutputs => [read, wrong_record, short, wrong_outputs],
            _ => [read, wrong_record, wrong_outputs, short],
        });
        if answer != 0 {
            if self.has(Fault::WritesWhenRefused) && answer == 14 {
                row[record][1] = first as u8;
            }
            return answer;
        }
        let index = self.index(row, record).expect("there is such a record");
        let placed = &mut row[index];
        placed[0] = match self.0 {
            Fault::HeldByItsNumber => record as u8 + 1,
            _ => 1,
        };
        placed[1] = first as u8;
        placed[LENGTH].copy_from_slice(&(personality.len() as u16).to_le_bytes());
        if !self.has(Fault::KeepsBytesBehind) {
            placed[ROOM].fill(0);
        }
        placed[ROOM][..personality.len()].copy_from_slice(personality);
        if !self.has(Fault::KeepsOldState) {
            self.begin(personality, &mut placed[STATE]);
        }
        match self.0 {
            Fault::StaysDark => {}
            Fault::PlacesAllRed => outputs[..32].fill(0),
            Fault::WritesPastTheLast => {
                outputs_from(outputs, first, groups).fill(0);
                outputs_from(outputs, 32, 1).fill(0);
            }
            _ => outputs_from(outputs, first, groups).fill(0),
        }
        match self.0 {
            Fault::PlacingAnswersWait => Model.wait_bound(personality),
            _ => 0,
        }
    }

    fn cabinet_step(
        &self,
        row: &mut [RecordBytes],
        record: usize,
        inputs: u64,
        outputs: &mut [u8],
    ) -> u64 {
        let held = match self.held(row, record, self.has(Fault::StepsFreeRecords)) {
            Ok(index) => &mut row[index],
            Err(answer) => return answer,
        };
        let (first, groups) = self.outputs_of(held);
        let personality = self.personality(held).to_vec();
        let mut state = self.state_of(&personality, &held[STATE]);
        let mut colours = [0; 32];
        let alone = Model.step(&personality, &mut state, inputs, &mut colours);
        let alone = match self.0 {
            Fault::InputsBeforeState if alone == 13 => {
                let mut fresh = [0; STATE_LEN];
                Model.fresh(&personality, &mut fresh);
                let other = Model.step(&personality, &mut fresh, inputs, &mut [0; 32]);
                if other == 15 {
                    15
                } else {
                    13
                }
            }
            _ => alone,
        };
        let past = refuse_if(self.past(first, groups), 25);
        let short = self.short(outputs, first, groups);
        let answer = first_refusal(match self.0 {
            Fault::StateBeforeOutputs => [alone, past, short],
            Fault::BufferBeforeOutputs => [short, past, alone],
            Fault::BufferBeforeInputs => [past, short, alone],
            _ => [past, alone, short],
        });
        if answer != 0 {
            return answer;
        }
        match self.0 {
            Fault::StepWritesPlainStateOnly => {
                held[STATE][..PLAIN_LEN].copy_from_slice(&state[..PLAIN_LEN]);
            }
            _ => held[STATE].copy_from_slice(&state),
        }
        match self.0 {
            Fault::StepHoldsByOne => held[0] = 1,
            Fault::StepClearsBehind => held[ROOM][personality.len()..].fill(0),
            Fault::StepCutsLength => {
                held[LENGTH].copy_from_slice(&(personality.len() as u16).to_le_bytes());
            }
            Fault::StepWritesRestRed => outputs[..32].fill(0),
            _ => {}
        }
        let from = match self.0 {
            Fault::StepWritesFromZero => 0,
            _ => first,
        };
        let own = outputs_from(outputs, from, groups);
        own.copy_from_slice(&colours[..own.len()]);
        match self.0 {
            Fault::StepAnswersNothing => 0,
            Fault::StepAnswersOwnWait => Model.wait_bound(&personality),
            _ => alone,
        }
    }

    fn cabinet_take_out(&self, row: &mut [RecordBytes], record: usize, outputs: &mut [u8]) -> u64 {
        let held = match self.held(row, record, self.has(Fault::TakesOutFreeRecords)) {
            Ok(index) => &mut row[index],
            Err(answer) => {
                let refused = self.has(Fault::TakesOutRefused) && number(answer) != 24;
                if let Some(index) = self.index(row, record).filter(|_| refused) {
                    row[index].fill(0);
                    return 0;
                }
                return answer;
            }
        };
        let (first, groups) = self.outputs_of(held);
        let past = refuse_if(self.past(first, groups), 25);
        let short = self.short(outputs, first, groups);
        let state = match TimedState::from_bytes(&held[STATE]) {
            None if self.has(Fault::TakingOutLooksAtState) => 13,
            _ => 0,
        };
        let answer = first_refusal(match self.0 {
            Fault::BufferBeforeOutputs => [short, past, state],
            _ => [past, state, short],
        });
        if answer != 0 {
            return answer;
        }
        match self.0 {
            Fault::TakingOutKeepsBytes => held[0] = 0,
            _ => held.fill(0),
        }
        match self.0 {
            Fault::TakesAllDark => outputs[..32].fill(4),
            Fault::TakingOutLeavesRed => outputs_from(outputs, first, groups).fill(0),
            _ => outputs_from(outputs, first, groups).fill(4),
        }
        0
    }
}

const SEED: u64 = 10;

/// The cases of cabinets, but for those that are watched.
fn cases() -> Vec<u64> {
    let kinds = [Kind::Cabinet, Kind::CabinetRows, Kind::CabinetBuffers];
    cases_of(&kinds, 5_000)
}

#[test]
fn a_plain_cabinet_agrees() {
    assert_agrees(&AsBoard(PlainCabinet(Fault::None)), SEED, cases());
}

#[test]
fn wrong_cabinets_are_noticed() {
    let calls = [
        "place: ",
        "cabinet step: ",
        "take out: ",
        "cabinet retime: ",
    ];
    for fault in FAULTS {
        let board = AsBoard(PlainCabinet(fault));
        assert_noticed(fault, &board, SEED, cases(), &calls);
    }
}

#[test]
fn every_fault_is_tried() {
    for (index, fault) in FAULTS.into_iter().enumerate() {
        assert_eq!(fault as usize, index + 1, "{fault:?}");
    }
}
