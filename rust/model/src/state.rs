//! The state of the controller between two steps.

use crate::MAX_MOVEMENTS;

/// Ages stop here.
pub const MAX_AGE: u16 = 2000;

/// The intervals of a phase.
#[derive(Clone, Copy, Debug, PartialEq, Eq, PartialOrd, Ord)]
pub enum Interval {
    StartRed,
    LateStart,
    MinimumGreen,
    Running,
    EarlyCutOff,
    Yellow,
    AllRed,
}

impl Interval {
    pub const ALL: [Interval; 7] = [
        Interval::StartRed,
        Interval::LateStart,
        Interval::MinimumGreen,
        Interval::Running,
        Interval::EarlyCutOff,
        Interval::Yellow,
        Interval::AllRed,
    ];

    /// Minimum green or running.
    #[inline]
    pub fn is_green(self) -> bool {
        matches!(self, Interval::MinimumGreen | Interval::Running)
    }

    /// Early cut-off, yellow or all-red: a target is held.
    #[inline]
    pub fn is_clearing(self) -> bool {
        matches!(
            self,
            Interval::EarlyCutOff | Interval::Yellow | Interval::AllRed
        )
    }
}

/// The stages of a pedestrian movement.
#[derive(Clone, Copy, Debug, PartialEq, Eq, PartialOrd, Ord)]
pub enum Stage {
    Idle,
    Walk,
    ClearanceOne,
    ClearanceTwo,
}

impl Stage {
    pub const ALL: [Stage; 4] = [
        Stage::Idle,
        Stage::Walk,
        Stage::ClearanceOne,
        Stage::ClearanceTwo,
    ];

    /// The stage that follows; idle stays idle.
    #[inline]
    pub fn next(self) -> Stage {
        match self {
            Stage::Walk => Stage::ClearanceOne,
            Stage::ClearanceOne => Stage::ClearanceTwo,
            Stage::ClearanceTwo | Stage::Idle => Stage::Idle,
        }
    }
}

/// Where a pedestrian movement stands.
#[derive(Clone, Copy, Debug, PartialEq, Eq)]
pub struct MovementState {
    pub stage: Stage,
    pub age: u16,
}

impl MovementState {
    pub const IDLE: MovementState = MovementState::begin(Stage::Idle);

    /// The first step of a stage.
    #[inline]
    pub const fn begin(stage: Stage) -> MovementState {
        MovementState { stage, age: 1 }
    }
}

/// The state of the controller.
#[derive(Clone, Copy, Debug, PartialEq, Eq)]
pub struct State {
    pub phase: u8,
    pub interval: Interval,
    pub age: u16,
    /// The phase that ran before this one.
    pub came_from: Option<u8>,
    /// The phase that follows this one.
    pub target: Option<u8>,
    pub gap_count: u16,
    pub maximum_count: u16,
    /// The phases with a locked demand; bit 0 is phase A.
    pub locks: u8,
    /// The movements with a button demand; bit 0 is the first movement.
    pub demands: u8,
    /// The phases demanded by lock or movement, kept ready; bit 0 is phase A.
    pub demanded: u8,
    pub movements: [MovementState; MAX_MOVEMENTS],
}

/// The state before the first step.
pub const fn fresh() -> State {
    State {
        phase: 0,
        interval: Interval::StartRed,
        age: 1,
        came_from: None,
        target: None,
        gap_count: 0,
        maximum_count: 0,
        locks: 0,
        demands: 0,
        demanded: 0,
        movements: [MovementState::IDLE; MAX_MOVEMENTS],
    }
}

impl State {
    /// Whether a phase is in minimum green or running.
    #[inline]
    pub fn is_green(&self, phase: u8) -> bool {
        self.phase == phase && self.interval.is_green()
    }
}
