//! The codes in the bytes of colours and states.

/// Colours, one byte for each signal group.
pub mod colour {
    pub const RED: u8 = 0;
    pub const YELLOW: u8 = 1;
    pub const GREEN: u8 = 2;
    pub const FLASHING_RED: u8 = 3;
    /// In a cabinet: the outputs of a site that was taken out.
    pub const DARK: u8 = 4;
}

/// Intervals of a phase.
pub mod interval {
    pub const START_RED: u8 = 0;
    pub const LATE_START: u8 = 1;
    pub const MINIMUM_GREEN: u8 = 2;
    pub const RUNNING: u8 = 3;
    pub const EARLY_CUT_OFF: u8 = 4;
    pub const YELLOW: u8 = 5;
    pub const ALL_RED: u8 = 6;
}

/// Stages of a movement.
pub mod stage {
    pub const IDLE: u8 = 0;
    pub const WALK: u8 = 1;
    pub const CLEARANCE_ONE: u8 = 2;
    pub const CLEARANCE_TWO: u8 = 3;
}
