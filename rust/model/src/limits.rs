//! The lowest and highest values of every time setting: a table for each edition
//! of the limits.

/// The edition of the limits to which a personality is held.
#[derive(Clone, Copy, Debug, PartialEq, Eq, PartialOrd, Ord)]
pub enum Edition {
    One,
    Two,
}

impl Edition {
    pub const ALL: [Edition; 2] = [Edition::One, Edition::Two];

    /// The kind of the site section of a personality of this edition.
    #[inline]
    pub const fn site_kind(self) -> u16 {
        match self {
            Edition::One => 1,
            Edition::Two => 8,
        }
    }
}

/// The time settings of a personality.
#[derive(Clone, Copy, Debug, PartialEq, Eq)]
pub enum Setting {
    StartRed,
    LateStart,
    MinimumGreen,
    MaximumGreen,
    Gap,
    Yellow,
    AllRed,
    Walk,
    ClearanceOne,
    ClearanceTwo,
    EarlyCutOff,
}

/// Lowest and highest value of a time setting, both allowed.
#[derive(Clone, Copy, Debug, PartialEq, Eq)]
pub struct Limits {
    pub low: u16,
    pub high: u16,
}

impl Limits {
    /// Whether a time is within the limits.
    #[inline]
    pub const fn hold(self, time: u16) -> bool {
        time.wrapping_sub(self.low) <= self.high - self.low
    }
}

const EDITION_ONE: [Limits; 11] = [
    Limits { low: 10, high: 150 },
    Limits { low: 0, high: 200 },
    Limits { low: 10, high: 400 },
    Limits {
        low: 10,
        high: 1500,
    },
    Limits { low: 0, high: 100 },
    Limits { low: 30, high: 100 },
    Limits { low: 10, high: 150 },
    Limits { low: 10, high: 400 },
    Limits { low: 1, high: 400 },
    Limits { low: 1, high: 400 },
    Limits { low: 0, high: 200 },
];

/// Edition two raises the lowest start red and the lowest all-red.
const EDITION_TWO: [Limits; 11] = {
    let mut table = EDITION_ONE;
    table[Setting::StartRed as usize].low = 30;
    table[Setting::AllRed as usize].low = 15;
    table
};

impl Setting {
    /// The settings of a phase record, in the order of its fields.
    pub const OF_PHASE: [Setting; 6] = [
        Setting::LateStart,
        Setting::MinimumGreen,
        Setting::MaximumGreen,
        Setting::Gap,
        Setting::Yellow,
        Setting::AllRed,
    ];

    /// The settings of a pedestrian record, in the order of its fields.
    pub const OF_MOVEMENT: [Setting; 3] =
        [Setting::Walk, Setting::ClearanceOne, Setting::ClearanceTwo];

    /// The limits of this setting in an edition.
    #[inline]
    pub const fn limits(self, edition: Edition) -> Limits {
        match edition {
            Edition::One => EDITION_ONE[self as usize],
            Edition::Two => EDITION_TWO[self as usize],
        }
    }
}
