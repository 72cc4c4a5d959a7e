//! The state as bytes: the plain state, then the times that rule and those that
//! wait. This file alone knows where each field lies and which code an interval and
//! a stage have.

use crate::state::{Interval, MovementState, Stage, State};
use crate::timed::TimedState;
use crate::times::{Times, TIMES_LEN};
use crate::MAX_MOVEMENTS;

/// Where each field begins.
pub const PHASE: usize = 0;
pub const INTERVAL: usize = 1;
pub const AGE: usize = 2;
pub const CAME_FROM: usize = 4;
pub const TARGET: usize = 6;
pub const GAP_COUNT: usize = 8;
pub const MAXIMUM_COUNT: usize = 10;
/// A set of phases, then a set of movements, one byte each; bit 0 is the first.
pub const LOCKS: usize = 12;
pub const DEMANDS: usize = LOCKS + 1;
/// Records of a stage and an age of two bytes.
pub const MOVEMENTS: usize = DEMANDS + 1;
pub const MOVEMENT_LEN: usize = 3;
/// A set of phases.
pub const DEMANDED: usize = MOVEMENTS + MOVEMENT_LEN * MAX_MOVEMENTS;

/// The length of a plain state in bytes.
pub const PLAIN_LEN: usize = DEMANDED + 1;

/// The times that rule, a flag (1 where times wait, else 0), and the times that
/// wait; without any, zeros.
pub const RULING: usize = PLAIN_LEN;
pub const FLAG: usize = RULING + TIMES_LEN;
pub const WAITING: usize = FLAG + 1;

/// The length of a state in bytes.
pub const STATE_LEN: usize = WAITING + TIMES_LEN;

/// The intervals and stages, each at the place of its code.
const INTERVALS: [Interval; 7] = [
    Interval::StartRed,
    Interval::LateStart,
    Interval::MinimumGreen,
    Interval::Running,
    Interval::EarlyCutOff,
    Interval::Yellow,
    Interval::AllRed,
];
const STAGES: [Stage; 4] = [
    Stage::Idle,
    Stage::Walk,
    Stage::ClearanceOne,
    Stage::ClearanceTwo,
];

#[inline]
fn interval_code(interval: Interval) -> u8 {
    match interval {
        Interval::StartRed => 0,
        Interval::LateStart => 1,
        Interval::MinimumGreen => 2,
        Interval::Running => 3,
        Interval::EarlyCutOff => 4,
        Interval::Yellow => 5,
        Interval::AllRed => 6,
    }
}

#[inline]
fn stage_code(stage: Stage) -> u8 {
    match stage {
        Stage::Idle => 0,
        Stage::Walk => 1,
        Stage::ClearanceOne => 2,
        Stage::ClearanceTwo => 3,
    }
}

impl State {
    /// The plain state in its bytes, or none where they are no state.
    #[inline]
    pub fn from_bytes(bytes: &[u8]) -> Option<State> {
        let bytes: &[u8; PLAIN_LEN] = bytes.try_into().ok()?;
        let number = |at: usize| u16::from_le_bytes([bytes[at], bytes[at + 1]]);
        let optional = |at: usize| optional_phase(bytes[at], bytes[at + 1]);
        let mut movements = [MovementState::IDLE; MAX_MOVEMENTS];
        for (index, movement) in movements.iter_mut().enumerate() {
            let at = MOVEMENTS + MOVEMENT_LEN * index;
            movement.stage = *STAGES.get(usize::from(bytes[at]))?;
            movement.age = number(at + 1);
        }
        Some(State {
            phase: bytes[PHASE],
            interval: *INTERVALS.get(usize::from(bytes[INTERVAL]))?,
            age: number(AGE),
            came_from: optional(CAME_FROM)?,
            target: optional(TARGET)?,
            gap_count: number(GAP_COUNT),
            maximum_count: number(MAXIMUM_COUNT),
            locks: bytes[LOCKS],
            demands: bytes[DEMANDS],
            demanded: bytes[DEMANDED],
            movements,
        })
    }

    /// The bytes of the plain state.
    #[inline]
    pub fn to_bytes(&self) -> [u8; PLAIN_LEN] {
        let mut bytes = [0; PLAIN_LEN];
        bytes[PHASE] = self.phase;
        bytes[INTERVAL] = interval_code(self.interval);
        let mut put = |at: usize, two: [u8; 2]| bytes[at..at + 2].copy_from_slice(&two);
        put(AGE, self.age.to_le_bytes());
        put(CAME_FROM, tagged_phase(self.came_from));
        put(TARGET, tagged_phase(self.target));
        put(GAP_COUNT, self.gap_count.to_le_bytes());
        put(MAXIMUM_COUNT, self.maximum_count.to_le_bytes());
        bytes[LOCKS] = self.locks;
        bytes[DEMANDS] = self.demands;
        bytes[DEMANDED] = self.demanded;
        for (index, movement) in self.movements.iter().enumerate() {
            let at = MOVEMENTS + MOVEMENT_LEN * index;
            let [low, high] = movement.age.to_le_bytes();
            bytes[at..at + MOVEMENT_LEN].copy_from_slice(&[stage_code(movement.stage), low, high]);
        }
        bytes
    }
}

impl TimedState {
    /// The state in its bytes, or none where they are no state.
    #[inline]
    pub fn from_bytes(bytes: &[u8]) -> Option<TimedState> {
        let bytes: &[u8; STATE_LEN] = bytes.try_into().ok()?;
        let (plain, times) = bytes.split_at(PLAIN_LEN);
        let (ruling, times) = times.split_first_chunk()?;
        let (&flag, waiting) = times.split_first()?;
        let waiting = Times::from_bytes(waiting.try_into().ok()?);
        Some(TimedState {
            state: State::from_bytes(plain)?,
            ruling: Times::from_bytes(ruling),
            waiting: match flag {
                0 if waiting == Times::NONE => None,
                1 => Some(waiting),
                _ => return None,
            },
        })
    }

    /// The bytes of the state.
    #[inline]
    pub fn to_bytes(&self) -> [u8; STATE_LEN] {
        let mut bytes = [0; STATE_LEN];
        bytes[..PLAIN_LEN].copy_from_slice(&self.state.to_bytes());
        bytes[RULING..FLAG].copy_from_slice(&self.ruling.to_bytes());
        if let Some(waiting) = &self.waiting {
            bytes[FLAG] = 1;
            bytes[WAITING..].copy_from_slice(&waiting.to_bytes());
        }
        bytes
    }
}

/// A phase or none, as a tag and a phase.
#[inline]
fn optional_phase(tag: u8, phase: u8) -> Option<Option<u8>> {
    match (tag, phase) {
        (0, 0) => Some(None),
        (1, phase) => Some(Some(phase)),
        _ => None,
    }
}

#[inline]
fn tagged_phase(phase: Option<u8>) -> [u8; 2] {
    phase.map_or([0, 0], |phase| [1, phase])
}

#[cfg(test)]
mod tests {
    use super::*;
    use crate::fresh;

    #[test]
    fn codes_are_places_in_their_tables() {
        assert_eq!(INTERVALS.len(), Interval::ALL.len());
        for interval in Interval::ALL {
            assert_eq!(INTERVALS[usize::from(interval_code(interval))], interval);
        }
        for stage in Stage::ALL {
            assert_eq!(STAGES[usize::from(stage_code(stage))], stage);
        }
    }

    #[test]
    fn the_fresh_state_has_the_bytes_of_the_data_sheet() {
        let mut bytes = [0; PLAIN_LEN];
        bytes[2] = 1;
        for movement in 0..MAX_MOVEMENTS {
            bytes[MOVEMENTS + 3 * movement + 1] = 1;
        }
        assert_eq!(fresh().to_bytes(), bytes);
        assert_eq!(State::from_bytes(&bytes), Some(fresh()));
    }

    #[test]
    fn every_field_has_its_own_bytes() {
        let mut state = fresh();
        state.phase = 3;
        state.interval = Interval::AllRed;
        state.age = 0x0102;
        state.came_from = Some(0);
        state.target = Some(6);
        state.gap_count = 0x0304;
        state.maximum_count = 0x0506;
        state.locks = 0b0100_0001;
        state.demands = 0b1000_0010;
        state.demanded = 0b0010_0100;
        state.movements[7] = MovementState {
            stage: Stage::ClearanceTwo,
            age: 0x0708,
        };
        let bytes = state.to_bytes();
        assert_eq!(bytes[..12], [3, 6, 2, 1, 1, 0, 1, 6, 4, 3, 6, 5]);
        assert_eq!(bytes[12..14], [0b0100_0001, 0b1000_0010]);
        assert_eq!(bytes[35..38], [3, 8, 7]);
        assert_eq!(bytes[38..], [0b0010_0100]);
        assert_eq!(State::from_bytes(&bytes), Some(state));
    }

    #[test]
    fn bytes_that_are_no_state() {
        let good = fresh().to_bytes();
        for (at, byte) in [(1, 7), (4, 2), (5, 1), (6, 2), (7, 1)] {
            let mut bytes = good;
            bytes[at] = byte;
            assert_eq!(State::from_bytes(&bytes), None, "byte {at}");
        }
        for movement in 0..MAX_MOVEMENTS {
            let mut bytes = good;
            bytes[MOVEMENTS + 3 * movement] = 4;
            assert_eq!(State::from_bytes(&bytes), None, "movement {movement}");
        }
        assert_eq!(State::from_bytes(&good[..PLAIN_LEN - 1]), None);
        let longer = [good.as_slice(), &[0]].concat();
        assert_eq!(State::from_bytes(&longer), None);
    }
}
