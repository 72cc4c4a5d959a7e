//! A plain controller that takes new times, over steps of personalities with the
//! times written into their bytes, agrees with the model. Those that are wrong in one
//! small thing are noticed.

mod faults;

use compare::Kind;
use faults::{assert_agrees, assert_noticed, cases_of};
use generate::time_fields;
use model::packed::{number, Board, Model};
use model::{fresh, layout, read, step, valid, Interval, Site, State, STATE_LEN};
use variant::{AsBoard, Variant};

/// The points in which it may go wrong.
#[derive(Clone, Copy, Debug, PartialEq, Eq)]
enum Fault {
    None,
    // The retiming call.
    TakesOtherSites,
    TakesOtherEditions,
    TakesOtherDetectors,
    TakesOtherOrders,
    RefusesStartRed,
    RefusesEarlyCutOffs,
    RefusesEqualTimes,
    ComparesBeforeReading,
    NewPersonalityBeforeState,
    StateBeforePersonality,
    StateNotChecked,
    KeepsTheFirstThatWaits,
    RulesAtOnce,
    OwnTimesEndTheWait,
    DropsDemands,
    StartRedForgotten,
    EarlyCutOffsForgotten,
    WritesWhenRefused,
    PlaceGiven,
    // The step.
    NeverChanges,
    WaitsOn,
    CountsKeptAfterStartRed,
    LateStartByTheOldTimes,
    GapByTheOldTimes,
    EndsByTheNewTimes,
    WaitOfTheOldTimes,
    WaitOfThePersonality,
    ChangesInEveryStep,
    // Which states are valid.
    AnyFlag,
    AnythingBehindNoFlag,
    RulingOutside,
    WaitingOutside,
    EditionOneForAll,
    EditionTwoForAll,
    AnythingBeyond,
    CountsByThePersonality,
    // The fresh state.
    FreshWhateverThePersonality,
    FreshWithTimesWaiting,
}

const FAULTS: [Fault; 38] = [
    Fault::TakesOtherSites,
    Fault::TakesOtherEditions,
    Fault::TakesOtherDetectors,
    Fault::TakesOtherOrders,
    Fault::RefusesStartRed,
    Fault::RefusesEarlyCutOffs,
    Fault::RefusesEqualTimes,
    Fault::ComparesBeforeReading,
    Fault::NewPersonalityBeforeState,
    Fault::StateBeforePersonality,
    Fault::StateNotChecked,
    Fault::KeepsTheFirstThatWaits,
    Fault::RulesAtOnce,
    Fault::OwnTimesEndTheWait,
    Fault::DropsDemands,
    Fault::StartRedForgotten,
    Fault::EarlyCutOffsForgotten,
    Fault::WritesWhenRefused,
    Fault::PlaceGiven,
    Fault::NeverChanges,
    Fault::WaitsOn,
    Fault::CountsKeptAfterStartRed,
    Fault::LateStartByTheOldTimes,
    Fault::GapByTheOldTimes,
    Fault::EndsByTheNewTimes,
    Fault::WaitOfTheOldTimes,
    Fault::WaitOfThePersonality,
    Fault::ChangesInEveryStep,
    Fault::AnyFlag,
    Fault::AnythingBehindNoFlag,
    Fault::RulingOutside,
    Fault::WaitingOutside,
    Fault::EditionOneForAll,
    Fault::EditionTwoForAll,
    Fault::AnythingBeyond,
    Fault::CountsByThePersonality,
    Fault::FreshWhateverThePersonality,
    Fault::FreshWithTimesWaiting,
];

/// Where the times of the phases, of the movements and of early cut-off begin, and
/// all of them end.
const PHASES: usize = 2;
const MOVEMENTS: usize = PHASES + 7 * 12;
const EARLY_CUT_OFFS: usize = MOVEMENTS + 8 * 6;
const END: usize = EARLY_CUT_OFFS + 7 * 2;

/// Where the times of a personality lie in it, and in the bytes of times.
fn places(personality: &[u8]) -> Vec<(usize, usize)> {
    let site = Site::read(personality).expect("an accepted personality");
    let phases = 12 * site.phase_count();
    let movements = 6 * site.movement_count();
    let early_cut_offs = 2 * site.phase_count();
    let lying = (0..2)
        .chain(PHASES..PHASES + phases)
        .chain(MOVEMENTS..MOVEMENTS + movements)
        .chain(EARLY_CUT_OFFS..EARLY_CUT_OFFS + early_cut_offs);
    let fields = time_fields(personality);
    let bytes = fields.into_iter().flat_map(|(at, _)| [at, at + 1]);
    bytes.zip(lying).collect()
}

fn times_of(personality: &[u8]) -> [u8; END] {
    let mut times = [0; END];
    for (at, lying) in places(personality) {
        times[lying] = personality[at];
    }
    times
}

/// A personality with other times in place of its own.
fn with_times(personality: &[u8], times: &[u8]) -> Vec<u8> {
    let mut bytes = personality.to_vec();
    for (at, lying) in places(personality) {
        bytes[at] = times[lying];
    }
    bytes
}

/// A state taken apart.
struct Parts {
    state: State,
    ruling: Vec<u8>,
    waiting: Option<Vec<u8>>,
}

impl Parts {
    fn bytes(&self) -> Vec<u8> {
        let mut bytes = self.state.to_bytes().to_vec();
        bytes.extend(&self.ruling);
        bytes.push(u8::from(self.waiting.is_some()));
        match &self.waiting {
            Some(waiting) => bytes.extend(waiting),
            None => bytes.extend([0; END]),
        }
        bytes
    }
}

struct Plain(Fault);

impl Plain {
    fn has(&self, fault: Fault) -> bool {
        self.0 == fault
    }

    /// Whether a personality would be accepted with these times.
    fn accepted(&self, personality: &[u8], times: &[u8]) -> bool {
        let mut with = with_times(personality, times);
        match self.0 {
            Fault::EditionOneForAll => with[2] = 1,
            Fault::EditionTwoForAll => with[2] = 8,
            _ => {}
        }
        read(&with).is_ok() && (self.has(Fault::AnythingBeyond) || times_of(&with) == times)
    }

    /// The parts of a valid state.
    fn parts(&self, personality: &[u8], bytes: &[u8]) -> Option<Parts> {
        if bytes.len() != STATE_LEN {
            return None;
        }
        let (plain, times) = bytes.split_at(layout::RULING);
        let (ruling, times) = times.split_at(END);
        let (flag, waiting) = (times[0], &times[1..]);
        let waits = match flag {
            0 if waiting == [0; END] || self.has(Fault::AnythingBehindNoFlag) => false,
            1 => true,
            _ if self.has(Fault::AnyFlag) && flag > 1 => true,
            _ => return None,
        };
        let state = State::from_bytes(plain)?;
        let ruled = with_times(personality, ruling);
        if waits && !self.has(Fault::WaitingOutside) && !self.accepted(personality, waiting) {
            return None;
        }
        if !self.has(Fault::RulingOutside) && !self.accepted(personality, ruling) {
            return None;
        }
        let by = if self.has(Fault::CountsByThePersonality) || read(&ruled).is_err() {
            personality
        } else {
            &ruled
        };
        let site = Site::read(by).expect("an accepted personality");
        valid(&site, &state).then(|| Parts {
            state,
            ruling: ruling.to_vec(),
            waiting: waits.then(|| waiting.to_vec()),
        })
    }

    /// The verdict on a retiming.
    fn verdict(&self, personality: &[u8], state: &[u8], new: &[u8]) -> u64 {
        let own = Model.read(personality);
        let second = Model.read(new);
        let accepted = own == 0;
        let checked = accepted && !self.has(Fault::StateNotChecked);
        let valid = !checked || self.parts(personality, state).is_some();
        let length = if state.len() == STATE_LEN { 0 } else { 13 };
        let state = if valid { 0 } else { 13 };
        let other = if accepted && self.other_site(personality, new, second) {
            match self.has(Fault::PlaceGiven) {
                true => 26 | 4 << 8,
                false => 26,
            }
        } else {
            0
        };
        let order = match self.0 {
            Fault::ComparesBeforeReading => vec![own, state, other, second],
            Fault::NewPersonalityBeforeState => vec![own, second, state, other],
            Fault::StateBeforePersonality => vec![length, own, state, second, other],
            _ => vec![own, state, second, other],
        };
        order.into_iter().find(|&answer| answer != 0).unwrap_or(0)
    }

    /// Whether a new personality is refused with 26.
    fn other_site(&self, personality: &[u8], new: &[u8], second: u64) -> bool {
        let mut alike = new.to_vec();
        if new.len() != personality.len() {
            return !self.has(Fault::TakesOtherSites);
        }
        for (at, _) in places(personality) {
            alike[at] = personality[at];
        }
        if self.has(Fault::TakesOtherEditions) {
            alike[2] = personality[2];
        }
        let phases = usize::from(personality[4]);
        let groups = usize::from(personality[5]);
        let detectors = 24 + 12 * phases + 6 * groups;
        if self.has(Fault::TakesOtherDetectors) {
            let length = usize::from(personality[detectors - 4]);
            let records = detectors..detectors + length;
            alike[records.clone()].copy_from_slice(&personality[records]);
        }
        if self.has(Fault::TakesOtherOrders) {
            if let Ok(part) = model::section(personality, 9) {
                let body = part.offset as usize..;
                alike[body.clone()].copy_from_slice(&personality[body]);
            }
        }
        if self.has(Fault::RefusesStartRed) && new[6..8] != personality[6..8] {
            return true;
        }
        if self.has(Fault::RefusesEarlyCutOffs) && second == 0 {
            let (old, new) = (
                times_of(personality),
                times_of(&with_site(personality, new)),
            );
            return alike != personality || old[EARLY_CUT_OFFS..] != new[EARLY_CUT_OFFS..];
        }
        if self.has(Fault::RefusesEqualTimes) && new == personality {
            return true;
        }
        alike != personality
    }

    fn retimed(&self, personality: &[u8], state: &mut [u8], new: &[u8]) {
        let Some(mut parts) = self.parts(personality, state) else {
            return;
        };
        let mut times = times_of(&with_site(personality, new));
        if self.has(Fault::StartRedForgotten) {
            times[..2].copy_from_slice(&parts.ruling[..2]);
        }
        if self.has(Fault::EarlyCutOffsForgotten) {
            times[EARLY_CUT_OFFS..].copy_from_slice(&parts.ruling[EARLY_CUT_OFFS..]);
        }
        if self.has(Fault::DropsDemands) {
            (parts.state.locks, parts.state.demands) = (0, 0);
            parts.state.demanded = 0;
        }
        parts.waiting = match self.0 {
            Fault::KeepsTheFirstThatWaits if parts.waiting.is_some() => parts.waiting,
            Fault::OwnTimesEndTheWait if times[..] == parts.ruling[..] => None,
            Fault::RulesAtOnce => {
                parts.ruling = times.to_vec();
                None
            }
            _ => Some(times.to_vec()),
        };
        state.copy_from_slice(&parts.bytes());
    }

    /// The step after every check: the state, the colours and the wait.
    fn stepped(
        &self,
        personality: &[u8],
        parts: Parts,
        inputs: u64,
        colours: &mut [u8],
    ) -> (Parts, u64) {
        let Parts {
            state,
            ruling,
            waiting,
        } = parts;
        let ruled = with_times(personality, &ruling);
        let mut shown = colours.to_vec();
        let mut stepped = step(&ruled, &state, inputs, &mut shown).state;
        let Some(times) = waiting else {
            colours.copy_from_slice(&shown);
            let wait = self.wait(personality, &ruling, &ruling);
            let parts = Parts {
                state: stepped,
                ruling,
                waiting: None,
            };
            return (parts, wait);
        };
        let mut starts = started(&state, &stepped);
        if self.has(Fault::EndsByTheNewTimes) {
            let early = with_times(personality, &times);
            let mut from = state;
            (from.gap_count, from.maximum_count) = (0, 0);
            starts |= started(
                &state,
                &step(&early, &from, inputs, &mut shown.clone()).state,
            );
        }
        starts &= !self.has(Fault::NeverChanges);
        starts |= self.has(Fault::ChangesInEveryStep) && state.interval == Interval::Running;
        if starts {
            // What the start goes by is new, what leads to it old.
            let mut mixed = times.clone();
            let late_start = PHASES + 12 * usize::from(state.target.unwrap_or(state.phase));
            if self.has(Fault::LateStartByTheOldTimes) {
                mixed[late_start..late_start + 2]
                    .copy_from_slice(&ruling[late_start..late_start + 2]);
            }
            if self.has(Fault::GapByTheOldTimes) {
                let gap = late_start + 6;
                mixed[gap..gap + 2].copy_from_slice(&ruling[gap..gap + 2]);
            }
            if !self.has(Fault::EndsByTheNewTimes) {
                mixed[..2].copy_from_slice(&ruling[..2]);
                let all_red = PHASES + 12 * usize::from(state.phase) + 10;
                mixed[all_red..all_red + 2].copy_from_slice(&ruling[all_red..all_red + 2]);
                let movements = MOVEMENTS..EARLY_CUT_OFFS;
                mixed[movements.clone()].copy_from_slice(&ruling[movements]);
            }
            let mut from = state;
            if !self.has(Fault::CountsKeptAfterStartRed) {
                (from.gap_count, from.maximum_count) = (0, 0);
            }
            let mixed = with_times(personality, &mixed);
            let answer = step(&mixed, &from, inputs, &mut shown);
            if answer.wait_bound.is_ok() {
                stepped = answer.state;
            }
        }
        colours.copy_from_slice(&shown);
        let (after, waiting) = match starts {
            true if self.has(Fault::WaitsOn) => (times.clone(), Some(times)),
            true => (times, None),
            false => (ruling.clone(), Some(times)),
        };
        let wait = self.wait(personality, &ruling, &after);
        let parts = Parts {
            state: stepped,
            ruling: after,
            waiting,
        };
        (parts, wait)
    }

    /// What a step answers.
    fn wait(&self, personality: &[u8], before: &[u8], after: &[u8]) -> u64 {
        match self.0 {
            Fault::WaitOfThePersonality => Model.wait_bound(personality),
            Fault::WaitOfTheOldTimes => Model.wait_bound(&with_times(personality, before)),
            _ => Model.wait_bound(&with_times(personality, after)),
        }
    }
}

/// Another personality, or the first one where the other has another length: what is
/// taken from it has to fit the first.
fn with_site(personality: &[u8], new: &[u8]) -> Vec<u8> {
    let mut bytes = personality.to_vec();
    if new.len() == personality.len() {
        for (at, _) in places(personality) {
            bytes[at] = new[at];
        }
    }
    bytes
}

/// Whether a phase starts between two states.
fn started(before: &State, after: &State) -> bool {
    let ready = matches!(before.interval, Interval::StartRed | Interval::AllRed);
    let begun = matches!(after.interval, Interval::LateStart | Interval::MinimumGreen);
    ready && begun
}

impl Variant for Plain {
    fn fresh(&self, personality: &[u8], state: &mut [u8]) -> u64 {
        let own = Model.read(personality);
        if own != 0 {
            if self.has(Fault::FreshWhateverThePersonality) && state.len() == STATE_LEN {
                state.fill(0);
                return 0;
            }
            return own;
        }
        if state.len() != STATE_LEN {
            return 13;
        }
        let own = times_of(personality).to_vec();
        let parts = Parts {
            state: fresh(),
            waiting: self.has(Fault::FreshWithTimesWaiting).then(|| own.clone()),
            ruling: own,
        };
        state.copy_from_slice(&parts.bytes());
        0
    }

    fn step(&self, personality: &[u8], state: &mut [u8], inputs: u64, colours: &mut [u8]) -> u64 {
        let own = Model.read(personality);
        if own != 0 {
            return own;
        }
        let Some(parts) = self.parts(personality, state) else {
            return 13;
        };
        let site = Site::read(personality).expect("an accepted personality");
        if inputs & !site.known_inputs() != 0 {
            return 15;
        }
        if colours.len() < site.group_count() {
            return 14;
        }
        if read(&with_times(personality, &parts.ruling)).is_err() {
            // Only a fault leads here.
            return 0;
        }
        let (after, wait) = self.stepped(personality, parts, inputs, colours);
        state.copy_from_slice(&after.bytes());
        wait
    }

    fn retime(&self, personality: &[u8], state: &mut [u8], new_personality: &[u8]) -> u64 {
        let answer = self.verdict(personality, state, new_personality);
        if answer == 0 {
            self.retimed(personality, state, new_personality);
        } else if self.has(Fault::WritesWhenRefused) && number(answer) == 26 {
            state[layout::FLAG] ^= 1;
        }
        answer
    }
}

const SEED: u64 = 12;

/// The cases with retimings, and those with a fresh state, accepted and refused.
fn cases() -> Vec<u64> {
    let kinds = [
        Kind::Accepted,
        Kind::Damaged(5),
        Kind::RetimedRun,
        Kind::Retimings,
        Kind::RetimedElsewhere,
        Kind::RefusedSecond,
        Kind::BrokenTimes,
        Kind::RetimingWrongs,
    ];
    cases_of(&kinds, 6_000)
}

#[test]
fn a_plain_controller_agrees() {
    assert_agrees(&AsBoard(Plain(Fault::None)), SEED, cases());
}

#[test]
fn wrong_controllers_are_noticed() {
    let calls = ["fresh: ", "step: ", "retime: "];
    for fault in FAULTS {
        let board = AsBoard(Plain(fault));
        assert_noticed(fault, &board, SEED, cases(), &calls);
    }
}
