//! The fields of a state in its bytes.

use crate::STATE_LEN;

/// The movements that a state has room for.
pub const MOVEMENTS: usize = 8;

const PHASE: usize = 0;
const INTERVAL: usize = 1;
const AGE: usize = 2;
const CAME_FROM: usize = 4;
const TARGET: usize = 6;
const GAP: usize = 8;
const MAXIMUM: usize = 10;
const LOCKED: usize = 12;
const BUTTONS: usize = 13;
const FIRST_MOVEMENT: usize = 14;
const MOVEMENT_LEN: usize = 3;
const KEPT: usize = 38;
const TIMES_WAIT: usize = 187;

/// The stage of a movement, and its age in steps.
#[derive(Clone, Copy, Debug, PartialEq, Eq)]
pub struct Movement {
    /// One of [`crate::stage`].
    pub stage: u8,
    pub age: u16,
}

/// Reads the fields of a state in its bytes. Phases count from 0, which is A; in a set
/// bit 0 is phase A, or movement 0. Ages and counts are in steps.
#[derive(Clone, Copy, Debug)]
pub struct Fields<'a> {
    bytes: &'a [u8; STATE_LEN],
}

impl<'a> Fields<'a> {
    /// The fields of these bytes. Whether they are a valid state is not checked.
    pub const fn of(bytes: &'a [u8; STATE_LEN]) -> Fields<'a> {
        Fields { bytes }
    }

    pub const fn phase(&self) -> u8 {
        self.bytes[PHASE]
    }

    /// One of [`crate::interval`].
    pub const fn interval(&self) -> u8 {
        self.bytes[INTERVAL]
    }

    /// How many steps the interval has lasted; 1 in its first step.
    pub const fn age(&self) -> u16 {
        self.two(AGE)
    }

    /// The phase that was left before this one.
    pub const fn came_from(&self) -> Option<u8> {
        self.phase_at(CAME_FROM)
    }

    /// The phase that comes next.
    pub const fn target(&self) -> Option<u8> {
        self.phase_at(TARGET)
    }

    pub const fn gap_count(&self) -> u16 {
        self.two(GAP)
    }

    pub const fn maximum_count(&self) -> u16 {
        self.two(MAXIMUM)
    }

    /// The set of the phases with a locked demand.
    pub const fn locked_demands(&self) -> u8 {
        self.bytes[LOCKED]
    }

    /// The set of the movements with a button demand.
    pub const fn button_demands(&self) -> u8 {
        self.bytes[BUTTONS]
    }

    /// The movements. Those that the site does not have are idle at age 1.
    pub fn movements(&self) -> [Movement; MOVEMENTS] {
        std::array::from_fn(|k| {
            let at = FIRST_MOVEMENT + MOVEMENT_LEN * k;
            Movement {
                stage: self.bytes[at],
                age: self.two(at + 1),
            }
        })
    }

    /// The set of the phases with a locked demand or a demanded movement.
    pub const fn kept_set(&self) -> u8 {
        self.bytes[KEPT]
    }

    /// Whether times wait until a phase next starts.
    pub const fn times_wait(&self) -> bool {
        self.bytes[TIMES_WAIT] != 0
    }

    const fn two(&self, at: usize) -> u16 {
        u16::from_le_bytes([self.bytes[at], self.bytes[at + 1]])
    }

    const fn phase_at(&self, at: usize) -> Option<u8> {
        match self.bytes[at] {
            0 => None,
            _ => Some(self.bytes[at + 1]),
        }
    }
}
