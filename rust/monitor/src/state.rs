//! The bytes of a state, as `docs/DATA-SHEET.md` describes them.

use crate::site::{Site, TIMES_LEN};
use std::ops::Range;

/// The length of a state.
pub const STATE_LEN: usize = 336;

const AGE: usize = 2;
const CAME_FROM: usize = 4;
const TARGET: usize = 6;
const LOCKS: usize = 12;
const PRESSES: usize = 13;
const MOVEMENTS: usize = 14;
const MOVEMENT_LEN: usize = 3;
const MOST_MOVEMENTS: usize = 8;
const KEPT: usize = 38;
const RULING: Range<usize> = 39..39 + TIMES_LEN;
const TIMES_WAIT: usize = 187;
const WAITING: Range<usize> = 188..188 + TIMES_LEN;

#[derive(Clone, Copy, Debug, PartialEq, Eq)]
pub enum Interval {
    StartRed,
    LateStart,
    MinimumGreen,
    Running,
    EarlyCutOff,
    Yellow,
    AllRed,
}

/// The intervals by their codes.
const INTERVALS: [Interval; 7] = [
    Interval::StartRed,
    Interval::LateStart,
    Interval::MinimumGreen,
    Interval::Running,
    Interval::EarlyCutOff,
    Interval::Yellow,
    Interval::AllRed,
];

/// The code of a movement in walk, and the highest code of a stage.
const WALK: u8 = 1;
const SECOND_CLEARANCE: u8 = 3;

/// What the monitor looks at in a state.
#[derive(Clone, Copy, Debug)]
pub struct State<'a> {
    pub phase: usize,
    pub interval: Interval,
    pub target: Option<usize>,
    /// The phases with a locked demand, and the movements with a button demand.
    pub locks: u8,
    pub presses: u8,
    /// The phases kept as demanded.
    pub kept: u8,
    stages: [u8; MOST_MOVEMENTS],
    /// The times that rule, and those that wait.
    pub ruling: &'a [u8],
    pub waiting: Option<&'a [u8]>,
}

impl<'a> State<'a> {
    /// The state of a site in these bytes, if they are one.
    pub fn of(bytes: &'a [u8], site: &Site) -> Option<State<'a>> {
        if bytes.len() != STATE_LEN {
            return None;
        }
        let stages = std::array::from_fn(|index| bytes[MOVEMENTS + MOVEMENT_LEN * index]);
        let phase_or_none = |at: usize| match (bytes[at], usize::from(bytes[at + 1])) {
            (0, 0) => Some(None),
            (1, phase) if phase < site.phases => Some(Some(phase)),
            _ => None,
        };
        phase_or_none(CAME_FROM)?;
        let waiting = match bytes[TIMES_WAIT] {
            0 if bytes[WAITING].iter().all(|&byte| byte == 0) => None,
            1 => Some(&bytes[WAITING]),
            _ => return None,
        };
        let state = State {
            phase: bytes[0].into(),
            interval: *INTERVALS.get(usize::from(bytes[1]))?,
            target: phase_or_none(TARGET)?,
            locks: bytes[LOCKS],
            presses: bytes[PRESSES],
            kept: bytes[KEPT],
            stages,
            ruling: &bytes[RULING],
            waiting,
        };
        let known = |&stage: &u8| stage <= SECOND_CLEARANCE;
        (state.phase < site.phases && stages.iter().all(known)).then_some(state)
    }

    /// Whether a phase is in minimum green or running.
    pub fn is_green(&self, phase: usize) -> bool {
        let green = matches!(self.interval, Interval::MinimumGreen | Interval::Running);
        green && self.phase == phase
    }

    /// Whether a phase is in an interval.
    pub fn is_in(&self, phase: usize, interval: Interval) -> bool {
        self.phase == phase && self.interval == interval
    }

    pub fn walks(&self, movement: usize) -> bool {
        self.stages[movement] == WALK
    }
}

/// The fresh state of a site: start red of A at age 1, all movements idle at age 1, its own
/// times.
pub fn fresh(site: &Site) -> [u8; STATE_LEN] {
    let mut bytes = [0; STATE_LEN];
    bytes[AGE] = 1;
    for movement in 0..MOST_MOVEMENTS {
        bytes[MOVEMENTS + MOVEMENT_LEN * movement + 1] = 1;
    }
    bytes[RULING].copy_from_slice(&site.times);
    bytes
}

/// The state that an accepted retiming leaves: the same with these times waiting.
pub fn retimed(bytes: &[u8], times: &[u8; TIMES_LEN]) -> Vec<u8> {
    let mut bytes = bytes.to_vec();
    bytes[TIMES_WAIT] = 1;
    bytes[WAITING].copy_from_slice(times);
    bytes
}
