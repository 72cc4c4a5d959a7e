//! What a site text says. Phases, groups, detectors and movements count from 0.

use crate::row::Time;
use crate::words::Span;

/// A time setting, by its number in docs/RULES.md, R3.1.
#[derive(Clone, Copy, Debug, PartialEq, Eq)]
pub struct Setting(usize);

/// For each setting its name, its symbol, the lowest value in edition one and in edition
/// two, and the highest in both. The values are for messages: the library decides, and a
/// test asks it for each of them.
const SETTINGS: [(&str, &str, u16, u16, u16); 11] = [
    ("start red", "start red", 10, 30, 150),
    ("late start", "L", 0, 0, 200),
    ("minimum green", "M", 10, 10, 400),
    ("maximum green", "X", 10, 10, 1500),
    ("gap", "G", 0, 0, 100),
    ("yellow", "Y", 30, 30, 100),
    ("all-red", "R", 10, 15, 150),
    ("walk", "W", 10, 10, 400),
    ("first clearance", "C1", 1, 1, 400),
    ("second clearance", "C2", 1, 1, 400),
    ("early cut-off green", "E", 0, 0, 200),
];

impl Setting {
    pub const START_RED: Setting = Setting(0);
    pub const LATE_START: Setting = Setting(1);
    pub const MINIMUM_GREEN: Setting = Setting(2);
    pub const MAXIMUM_GREEN: Setting = Setting(3);
    pub const GAP: Setting = Setting(4);
    pub const YELLOW: Setting = Setting(5);
    pub const ALL_RED: Setting = Setting(6);
    pub const WALK: Setting = Setting(7);
    pub const FIRST_CLEARANCE: Setting = Setting(8);
    pub const SECOND_CLEARANCE: Setting = Setting(9);
    pub const EARLY_CUT_OFF: Setting = Setting(10);

    /// All settings, in the order of their numbers.
    pub fn all() -> impl Iterator<Item = Setting> {
        (0..SETTINGS.len()).map(Setting)
    }

    pub fn name(self) -> &'static str {
        SETTINGS[self.0].0
    }

    pub fn symbol(self) -> &'static str {
        SETTINGS[self.0].1
    }

    /// The lowest and the highest value in an edition.
    pub fn limits(self, edition: u8) -> (u16, u16) {
        let (_, _, first, second, highest) = SETTINGS[self.0];
        (if edition == 2 { second } else { first }, highest)
    }
}

/// The settings of a phase, L, M, X, G, Y and R, in the order of the text and of the bytes.
pub const PHASE_SETTINGS: [Setting; 6] = [
    Setting(1),
    Setting(2),
    Setting(3),
    Setting(4),
    Setting(5),
    Setting(6),
];

/// The settings of a movement, W, C1 and C2, in the order of the text and of the bytes.
pub const MOVEMENT_SETTINGS: [Setting; 3] = [Setting(7), Setting(8), Setting(9)];

/// The words of the marks 0 to 3.
pub const MARKS: [&str; 4] = ["vehicle", "late-start", "pedestrian", "early-cut-off"];
pub const LATE_START: u8 = 1;
pub const PEDESTRIAN: u8 = 2;
pub const EARLY_CUT_OFF: u8 = 3;

/// The words of the calls 0 to 2 in a detector's mode; 4 more if it extends.
pub const CALLS: [&str; 3] = ["no-call", "non-locking", "locking"];
pub const EXTENDS: u8 = 4;

/// The first input bit of the buttons.
pub const FIRST_BUTTON: usize = 48;

/// The letter of a phase.
pub fn letter(phase: usize) -> char {
    (b'A' + phase.min(25) as u8) as char
}

/// The letters of a set of phases, `-` for none.
pub fn letters(set: u8) -> String {
    let letters: String = (0..8).filter(|p| set >> p & 1 != 0).map(letter).collect();
    if letters.is_empty() {
        "-".to_string()
    } else {
        letters
    }
}

/// The side of the road on which traffic goes.
#[derive(Clone, Copy, Debug, PartialEq, Eq)]
pub enum Side {
    Left,
    Right,
}

/// Where the turns of a group lead.
pub const ARROWS: [&str; 4] = ["left", "straight", "right", "u-turn"];

/// What only the workbench reads of a group, a detector or a button.
#[derive(Clone, Debug, Default, PartialEq)]
pub struct Place {
    /// The name in quotation marks, or else the comment of the row.
    pub name: Option<String>,
    /// A place in the list of approaches.
    pub approach: Option<usize>,
    /// The first and the last lane; lane 1 is at the kerb.
    pub lanes: Option<(u8, u8)>,
    /// Places in `ARROWS`.
    pub arrows: Vec<usize>,
    /// The distance of a detector before the stop line.
    pub metres: Option<f64>,
    /// The length of a detector, or of a crossing.
    pub length: Option<f64>,
}

impl Place {
    /// Its name, or else where it is: approach, lanes, arrows, metres and length.
    pub fn words(&self, site: &Site) -> String {
        if let Some(name) = &self.name {
            return name.clone();
        }
        let approach = self.approach.map(|at| site.approaches[at].name.clone());
        let lanes = self.lanes.map(|(first, last)| match first == last {
            true => format!("lane {first}"),
            false => format!("lanes {first}..{last}"),
        });
        let arrows = self.arrows.iter().map(|arrow| ARROWS[*arrow].to_string());
        let metres = self.metres.map(|metres| format!("{metres} m"));
        let length = self.length.map(|length| format!("{length} m long"));
        let words = approach.into_iter().chain(lanes).chain(arrows);
        let words: Vec<String> = words.chain(metres).chain(length).collect();
        words.join(", ")
    }
}

/// A phase. Its letter is its place in the list.
#[derive(Clone, Debug, PartialEq)]
pub struct Phase {
    /// As in `PHASE_SETTINGS`.
    pub times: [Time; 6],
    pub name: Option<String>,
    pub span: Span,
}

impl Phase {
    pub fn steps(&self, setting: Setting) -> u16 {
        let at = PHASE_SETTINGS.iter().position(|one| *one == setting);
        at.map_or(0, |at| self.times[at].steps)
    }

    pub fn time(&self, setting: Setting) -> Time {
        let at = PHASE_SETTINGS.iter().position(|one| *one == setting);
        at.map_or(Time::default(), |at| self.times[at])
    }
}

/// A signal group.
#[derive(Clone, Debug, PartialEq)]
pub struct Group {
    pub name: String,
    /// Bit 0 is phase A.
    pub phases: u8,
    /// A place in `MARKS`.
    pub mark: u8,
    /// The groups that its row of conflicts names, each with its place.
    pub conflicts: Vec<(usize, Span)>,
    /// The groups behind `not`: known not to conflict.
    pub apart: Vec<(usize, Span)>,
    pub place: Place,
    pub span: Span,
    pub phases_span: Span,
    pub mark_span: Span,
    /// The row of conflicts.
    pub row: Span,
}

impl Group {
    pub fn is_pedestrian(&self) -> bool {
        self.mark == PEDESTRIAN
    }

    pub fn in_phase(&self, phase: usize) -> bool {
        phase < 8 && self.phases >> phase & 1 != 0
    }

    pub fn conflicts_with(&self, other: usize) -> bool {
        self.conflicts.iter().any(|(group, _)| *group == other)
    }
}

/// A detector. Its number is its place in the list.
#[derive(Clone, Debug, PartialEq)]
pub struct Detector {
    pub phase: u8,
    /// A place in `CALLS`, and 4 more if it extends.
    pub mode: u8,
    pub place: Place,
    pub span: Span,
    pub phase_span: Span,
    pub mode_span: Span,
}

impl Detector {
    pub fn extends(&self) -> bool {
        self.mode & EXTENDS != 0
    }

    pub fn calls(&self) -> bool {
        self.mode & !EXTENDS != 0
    }
}

/// A pedestrian movement with its button. Its number is its place in the list.
#[derive(Clone, Debug, PartialEq)]
pub struct Movement {
    /// Its group.
    pub group: usize,
    /// As in `MOVEMENT_SETTINGS`.
    pub times: [Time; 3],
    /// The place of the button.
    pub place: Place,
    pub span: Span,
}

/// An approach, or arm. One that is named by a compass point need not be listed.
#[derive(Clone, Debug, PartialEq)]
pub struct Approach {
    pub name: String,
    /// In km/h.
    pub speed: Option<u32>,
    /// In percent, uphill positive.
    pub grade: i32,
    /// Where the arm lies seen from the middle, in degrees from north, clockwise.
    pub bearing: Option<u32>,
    pub lanes: Option<u8>,
    pub span: Span,
}

/// A stream of vehicles for the simulated road.
#[derive(Clone, Copy, Debug, PartialEq, Eq)]
pub struct Stream {
    pub detector: u8,
    pub group: u8,
    /// Vehicles an hour.
    pub rate: u16,
    pub span: Span,
}

/// The steps of a road that does not say: an hour.
pub const ROAD_STEPS: u32 = 36_000;

/// The streams of a site or of a road text.
#[derive(Clone, Debug, Default, PartialEq, Eq)]
pub struct Road {
    pub steps: Option<u32>,
    pub streams: Vec<Stream>,
}

impl Road {
    pub fn steps(&self) -> u32 {
        self.steps.unwrap_or(ROAD_STEPS)
    }

    /// The streams as the library takes them, 4 bytes each.
    pub fn bytes(&self) -> Vec<u8> {
        let one = |stream: &Stream| {
            let [low, high] = stream.rate.to_le_bytes();
            [stream.detector, stream.group, low, high]
        };
        self.streams.iter().flat_map(one).collect()
    }
}

/// What a site text says.
#[derive(Clone, Debug, PartialEq)]
pub struct Site {
    pub name: Option<String>,
    pub side: Side,
    /// 1 or 2.
    pub edition: u8,
    pub start_red: Time,
    /// The wait bound that the text states.
    pub stated_bound: Option<(u64, Span)>,
    pub phases: Vec<Phase>,
    pub groups: Vec<Group>,
    pub detectors: Vec<Detector>,
    pub movements: Vec<Movement>,
    /// The early cut-off times, if the text has them.
    pub early: Option<Vec<Time>>,
    /// The phases in running order, if the text has it.
    pub order: Option<Vec<(u8, Span)>>,
    pub approaches: Vec<Approach>,
    pub road: Road,
    /// The places of the headings, as in `HEADINGS`.
    pub headings: [Option<Span>; 10],
}

impl Site {
    /// The early cut-off time of a phase in steps, 0 without the heading.
    pub fn early_steps(&self, phase: usize) -> u16 {
        let early = self.early.as_ref().and_then(|early| early.get(phase));
        early.map_or(0, |time| time.steps)
    }

    /// The phases in running order.
    pub fn running_order(&self) -> Vec<usize> {
        match &self.order {
            Some(order) => order.iter().map(|(phase, _)| usize::from(*phase)).collect(),
            None => (0..self.phases.len()).collect(),
        }
    }

    /// The other phases in the order in which they may come before a phase: from the one
    /// after it in the running order.
    pub fn phases_before(&self, phase: usize) -> Vec<usize> {
        let order = self.running_order();
        let own = order.iter().position(|one| *one == phase).unwrap_or(0);
        let others = order.iter().cycle().skip(own + 1);
        others
            .take(order.len().saturating_sub(1))
            .copied()
            .collect()
    }

    /// The place of a heading, or that of the first line.
    pub fn heading(&self, name: &str) -> Span {
        let at = HEADINGS.iter().position(|heading| *heading == name);
        let first = Span {
            line: 1,
            column: 1,
            length: 1,
        };
        at.and_then(|at| self.headings[at]).unwrap_or(first)
    }

    /// The movements of a phase.
    pub fn movements_of(&self, phase: usize) -> impl Iterator<Item = &Movement> {
        let of = move |movement: &&Movement| self.groups[movement.group].in_phase(phase);
        self.movements.iter().filter(of)
    }

    /// The place of a button: its own, or else that of its group.
    pub fn button_place(&self, movement: usize) -> &Place {
        let movement = &self.movements[movement];
        if movement.place == Place::default() {
            &self.groups[movement.group].place
        } else {
            &movement.place
        }
    }
}

/// The headings of a text, in their order.
pub const HEADINGS: [&str; 10] = [
    "site",
    "phases",
    "groups",
    "conflicts",
    "detectors",
    "pedestrians",
    "early-cut-off",
    "order",
    "approaches",
    "streams",
];

/// The headings that a text must have; the later ones may be left out.
pub const NEEDED: usize = 6;
