//! Plain lines, read off the bytes of a state, agree with the model's. Those that are
//! wrong in one small thing are noticed.

mod faults;

use compare::Kind;
use faults::{assert_agrees, assert_noticed, cases_of};
use model::packed::{number, Board, Model};
use model::{layout, valid, Interval, Site, TimedState, Times};
use variant::{AsBoard, Variant};

/// The points in which a line may go wrong.
#[derive(Clone, Copy, Debug, PartialEq, Eq)]
enum Fault {
    None,
    // Which phases are demanded.
    OwnPhaseCounts,
    LocksForgotten,
    PressesForgotten,
    CallsForgotten,
    CallsThatExtendForgotten,
    LockingCallsCount,
    ExtensionsCount,
    ButtonsCount,
    OtherDemandTold,
    // The counts.
    GapOfNoneTold,
    GapSettingTold,
    MaximumCountTold,
    MaximumOfNoneTold,
    MaximumOnlyWhileCounting,
    MaximumBeforeGap,
    MaximumOfThePersonality,
    MaximumThatWaits,
    MaximumOfTheFirstPhase,
    MaximumInOneByte,
    // The movements.
    FirstClearanceForgotten,
    SecondClearanceTold,
    NumbersFromZero,
    NumbersFall,
    OneWalkOnly,
    FirstWalkWordOnly,
    // The bytes of the line.
    SmallLetter,
    LeadingZero,
    ThreeDigits,
    NoSpaceBehindComma,
    NoSpaceBeforeNumber,
    CommaAtTheEnd,
    Terminator,
    OtherWord,
    // When there is a line.
    TellsInMinimumGreen,
    TellsInYellow,
    NotInTheFirstStep,
    NeverTells,
    // The answers and the buffer.
    InputsNotChecked,
    StateNotChecked,
    TimesNotChecked,
    InputsBeforeState,
    BufferBeforeInputs,
    BufferBeforeState,
    PlaceGiven,
    LengthOneLess,
    AnswersTheRoom,
    AnswersNothing,
    TakesOneByteLess,
    NeedsOneByteMore,
    NeedsRoomForTheLongest,
    NeedsRoomOutsideRunning,
    WritesWhatFits,
    ClearsBehind,
    WritesBehind,
    WritesAtTheEnd,
}

const FAULTS: [Fault; 55] = [
    Fault::OwnPhaseCounts,
    Fault::LocksForgotten,
    Fault::PressesForgotten,
    Fault::CallsForgotten,
    Fault::CallsThatExtendForgotten,
    Fault::LockingCallsCount,
    Fault::ExtensionsCount,
    Fault::ButtonsCount,
    Fault::OtherDemandTold,
    Fault::GapOfNoneTold,
    Fault::GapSettingTold,
    Fault::MaximumCountTold,
    Fault::MaximumOfNoneTold,
    Fault::MaximumOnlyWhileCounting,
    Fault::MaximumBeforeGap,
    Fault::MaximumOfThePersonality,
    Fault::MaximumThatWaits,
    Fault::MaximumOfTheFirstPhase,
    Fault::MaximumInOneByte,
    Fault::FirstClearanceForgotten,
    Fault::SecondClearanceTold,
    Fault::NumbersFromZero,
    Fault::NumbersFall,
    Fault::OneWalkOnly,
    Fault::FirstWalkWordOnly,
    Fault::SmallLetter,
    Fault::LeadingZero,
    Fault::ThreeDigits,
    Fault::NoSpaceBehindComma,
    Fault::NoSpaceBeforeNumber,
    Fault::CommaAtTheEnd,
    Fault::Terminator,
    Fault::OtherWord,
    Fault::TellsInMinimumGreen,
    Fault::TellsInYellow,
    Fault::NotInTheFirstStep,
    Fault::NeverTells,
    Fault::InputsNotChecked,
    Fault::StateNotChecked,
    Fault::TimesNotChecked,
    Fault::InputsBeforeState,
    Fault::BufferBeforeInputs,
    Fault::BufferBeforeState,
    Fault::PlaceGiven,
    Fault::LengthOneLess,
    Fault::AnswersTheRoom,
    Fault::AnswersNothing,
    Fault::TakesOneByteLess,
    Fault::NeedsOneByteMore,
    Fault::NeedsRoomForTheLongest,
    Fault::NeedsRoomOutsideRunning,
    Fault::WritesWhatFits,
    Fault::ClearsBehind,
    Fault::WritesBehind,
    Fault::WritesAtTheEnd,
];

struct Plain(Fault);

impl Plain {
    fn has(&self, fault: Fault) -> bool {
        self.0 == fault
    }

    /// The phases that are called in a step, by the modes that count.
    fn called(&self, site: &Site, inputs: u64) -> Vec<u8> {
        let modes: &[u8] = match self.0 {
            Fault::CallsForgotten => &[],
            Fault::CallsThatExtendForgotten => &[1],
            Fault::LockingCallsCount => &[1, 5, 2, 6],
            Fault::ExtensionsCount => &[1, 5, 4],
            _ => &[1, 5],
        };
        let occupied = (0..site.detector_count()).filter(|place| inputs >> place & 1 != 0);
        let calling = occupied
            .map(|place| site.detector(place))
            .filter(|detector| modes.contains(&detector.mode));
        let mut called: Vec<u8> = calling.map(|detector| detector.phase).collect();
        if self.has(Fault::ButtonsCount) {
            let pressed =
                (0..site.movement_count()).filter(|place| inputs >> (48 + place) & 1 != 0);
            called.extend(pressed.map(|place| site.movement(place).phase));
        }
        called
    }

    fn other_demand(&self, site: &Site, bytes: &[u8], inputs: u64) -> bool {
        let phase = bytes[layout::PHASE];
        let mut demanded = self.called(site, inputs);
        if !self.has(Fault::LocksForgotten) {
            demanded.extend((0..7).filter(|phase| bytes[layout::LOCKS] >> phase & 1 != 0));
        }
        if !self.has(Fault::PressesForgotten) {
            let presses = bytes[layout::DEMANDS];
            let pressed = (0..site.movement_count()).filter(|place| presses >> place & 1 != 0);
            demanded.extend(pressed.map(|place| site.movement(place).phase));
        }
        let own = self.has(Fault::OwnPhaseCounts);
        demanded.iter().any(|&other| other != phase || own)
    }

    /// The maximum that the steps left are counted to.
    fn maximum(&self, site: &Site, timed: &TimedState) -> u16 {
        let times = match (self.0, timed.waiting) {
            (Fault::MaximumOfThePersonality, _) => Times::of(site),
            (Fault::MaximumThatWaits, Some(waiting)) => waiting,
            _ => timed.ruling,
        };
        let phase = match self.0 {
            Fault::MaximumOfTheFirstPhase => 0,
            _ => timed.state.phase,
        };
        site.with_times(&times).phase(phase).maximum_green
    }

    fn count(&self, word: &str, count: u16) -> String {
        match self.0 {
            Fault::LeadingZero if count < 10 => format!("{word} 0{count}"),
            Fault::ThreeDigits => format!("{word} {:03}", count % 1_000),
            Fault::NoSpaceBeforeNumber => format!("{word}{count}"),
            _ => format!("{word} {count}"),
        }
    }

    /// The reasons in words, in their order.
    fn reasons(&self, site: &Site, timed: &TimedState, bytes: &[u8], inputs: u64) -> Vec<String> {
        let number = |at: usize| u16::from_le_bytes([bytes[at], bytes[at + 1]]);
        let mut told = Vec::new();
        match self.other_demand(site, bytes, inputs) {
            false if self.has(Fault::OtherWord) => told.push("no other demands".to_string()),
            false => told.push("no other demand".to_string()),
            true if self.has(Fault::OtherDemandTold) => told.push("other demand".to_string()),
            true => {}
        }
        let mut counts = Vec::new();
        let gap = match self.0 {
            Fault::GapSettingTold => site.with_times(&timed.ruling).phase(bytes[0]).gap,
            _ => number(layout::GAP_COUNT),
        };
        if gap > 0 || self.has(Fault::GapOfNoneTold) {
            counts.push(self.count("gap", gap));
        }
        let counted = number(layout::MAXIMUM_COUNT);
        let mut left = self.maximum(site, timed).saturating_sub(counted);
        let mut tells = left > 0;
        match self.0 {
            Fault::MaximumCountTold => {
                left = counted;
                tells = counted > 0;
            }
            Fault::MaximumOfNoneTold => tells = true,
            Fault::MaximumOnlyWhileCounting => tells &= counted > 0,
            Fault::MaximumInOneByte => left = u16::from(left as u8),
            _ => {}
        }
        if tells {
            counts.push(self.count("max", left));
        }
        if self.has(Fault::MaximumBeforeGap) {
            counts.reverse();
        }
        told.extend(counts);
        told.extend(self.walks(bytes));
        told
    }

    fn walks(&self, bytes: &[u8]) -> Vec<String> {
        let stages: &[u8] = match self.0 {
            Fault::FirstClearanceForgotten => &[1],
            Fault::SecondClearanceTold => &[1, 2, 3],
            _ => &[1, 2],
        };
        let first = usize::from(!self.has(Fault::NumbersFromZero));
        let holds = |place: &usize| stages.contains(&bytes[layout::MOVEMENTS + 3 * place]);
        let numbers = (0..8).filter(holds).map(|place| place + first);
        let mut walks: Vec<String> = numbers
            .map(|number| self.count("walk", number as u16))
            .collect();
        match self.0 {
            Fault::NumbersFall => walks.reverse(),
            Fault::OneWalkOnly => walks.truncate(1),
            Fault::FirstWalkWordOnly => {
                for walk in walks.iter_mut().skip(1) {
                    *walk = walk.replace("walk ", "");
                }
            }
            _ => {}
        }
        walks
    }

    /// The line of a state.
    fn line(&self, site: &Site, bytes: &[u8], inputs: u64) -> Vec<u8> {
        let Some(timed) = TimedState::from_bytes(bytes) else {
            // Only a fault leads here.
            return Vec::new();
        };
        let tells = match timed.state.interval {
            _ if self.has(Fault::NeverTells) => false,
            Interval::Running => !(self.has(Fault::NotInTheFirstStep) && timed.state.age == 1),
            Interval::MinimumGreen => self.has(Fault::TellsInMinimumGreen),
            Interval::Yellow => self.has(Fault::TellsInYellow),
            _ => false,
        };
        if !tells || usize::from(bytes[0]) >= site.phase_count() {
            return Vec::new();
        }
        let letter = match self.0 {
            Fault::SmallLetter => b'a',
            _ => b'A',
        };
        let mut parts = vec![format!("{} holds", char::from(letter + bytes[0]))];
        parts.extend(self.reasons(site, &timed, bytes, inputs));
        let comma = match self.0 {
            Fault::NoSpaceBehindComma => ",",
            _ => ", ",
        };
        let mut line = parts.join(comma);
        match self.0 {
            Fault::CommaAtTheEnd => line.push(','),
            Fault::Terminator => line.push('\0'),
            _ => {}
        }
        line.into_bytes()
    }

    /// The line, or the refusal; for a call with a buffer, with its room.
    fn told(
        &self,
        personality: &[u8],
        state: &[u8],
        inputs: u64,
        room: Option<usize>,
    ) -> Result<Vec<u8>, u64> {
        let read = Model.read(personality);
        if read != 0 {
            return Err(read);
        }
        let site = Site::read(personality).expect("an accepted personality");
        let line = self.line(&site, state, inputs);
        // A step without inputs and with room enough is refused for its state alone.
        let refused = number(Model.step(personality, &mut state.to_vec(), 0, &mut [0; 32])) != 0;
        let plain = TimedState::from_bytes(state);
        let plain_is_valid = plain.is_some_and(|timed| valid(&site, &timed.state));
        let state = match self.0 {
            Fault::StateNotChecked => 0,
            Fault::TimesNotChecked if plain_is_valid => 0,
            _ if refused => 13,
            _ => 0,
        };
        let stray = inputs & !site.known_inputs() != 0;
        let input = if stray && !self.has(Fault::InputsNotChecked) {
            15
        } else {
            0
        };
        let least = match self.0 {
            Fault::TakesOneByteLess => line.len().saturating_sub(1),
            Fault::NeedsOneByteMore => line.len() + usize::from(!line.is_empty()),
            Fault::NeedsRoomForTheLongest if !line.is_empty() => 107,
            Fault::NeedsRoomOutsideRunning => line.len().max(1),
            _ => line.len(),
        };
        let buffer = match room {
            Some(room) if room < least && self.has(Fault::PlaceGiven) => 14 | 1 << 8,
            Some(room) if room < least => 14,
            _ => 0,
        };
        let order = match self.0 {
            Fault::InputsBeforeState => [input, state, buffer],
            Fault::BufferBeforeInputs => [state, buffer, input],
            Fault::BufferBeforeState => [buffer, state, input],
            _ => [state, input, buffer],
        };
        match order.into_iter().find(|&answer| answer != 0) {
            Some(refusal) => Err(refusal),
            None => Ok(line),
        }
    }
}

impl Variant for Plain {
    fn why_length(&self, personality: &[u8], state: &[u8], inputs: u64) -> u64 {
        match self.told(personality, state, inputs, None) {
            Ok(line) => {
                let less = self.has(Fault::LengthOneLess) && !line.is_empty();
                (line.len() as u64 - u64::from(less)) << 8
            }
            Err(refusal) => refusal,
        }
    }

    fn why(&self, personality: &[u8], state: &[u8], inputs: u64, buffer: &mut [u8]) -> u64 {
        let room = buffer.len();
        let line = match self.told(personality, state, inputs, Some(room)) {
            Ok(line) => line,
            Err(refusal) => {
                if self.has(Fault::WritesWhatFits) && number(refusal) == 14 {
                    let whole = self.told(personality, state, inputs, None);
                    buffer.copy_from_slice(&whole.expect("a line")[..room]);
                }
                return refusal;
            }
        };
        let length = line.len().min(room);
        let at = match self.0 {
            Fault::WritesAtTheEnd => room - length,
            _ => 0,
        };
        buffer[at..at + length].copy_from_slice(&line[..length]);
        match self.0 {
            Fault::ClearsBehind => buffer[length..].fill(0),
            Fault::WritesBehind if length < room => buffer[length] = b'\n',
            _ => {}
        }
        match self.0 {
            Fault::AnswersTheRoom => (room as u64) << 8,
            Fault::AnswersNothing => 0,
            _ => (line.len() as u64) << 8,
        }
    }
}

const SEED: u64 = 13;

/// The cases with lines.
fn cases() -> Vec<u64> {
    let kinds = [Kind::Damaged(5), Kind::WhyRun, Kind::Whys, Kind::WhyWrongs];
    cases_of(&kinds, 5_000)
}

#[test]
fn plain_lines_agree() {
    assert_agrees(&AsBoard(Plain(Fault::None)), SEED, cases());
}

#[test]
fn wrong_lines_are_noticed() {
    let calls = ["why"];
    for fault in FAULTS {
        let board = AsBoard(Plain(fault));
        assert_noticed(fault, &board, SEED, cases(), &calls);
    }
}

/// The vectors of the Python model notice as much.
#[test]
fn wrong_lines_differ_from_the_kept_vectors() {
    let package = std::path::Path::new(env!("CARGO_MANIFEST_DIR"));
    let kept = std::fs::read(package.join("../../vectors/whys"));
    let kept = kept.expect("the vectors of the line are kept");
    assert!(compare::run_why_vectors(&AsBoard(Plain(Fault::None)), &kept).is_ok());
    for fault in FAULTS {
        let found = compare::run_why_vectors(&AsBoard(Plain(fault)), &kept);
        assert!(found.is_err(), "{fault:?} is not noticed");
    }
}
