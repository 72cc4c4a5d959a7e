//! Random states: valid ones, ones that break one rule, and bytes that are no
//! state.

use crate::rng::Rng;
use model::layout;
use model::{
    fresh, scan, Interval, MovementState, Site, Stage, State, TimedState, MAX_AGE, MAX_MOVEMENTS,
    MAX_PHASES,
};

/// A random valid state, reachable or not.
pub fn valid_state(rng: &mut Rng, site: &Site) -> State {
    let interval = random_interval(rng, site);
    state_in(rng, site, interval)
}

/// Counts at which a number becomes longer, and those beside them.
const LONGER: [u16; 10] = [1, 9, 10, 11, 99, 100, 101, 999, 1000, 1001];

/// A random valid state in running. Many have a gap count or steps left to the maximum
/// at which the number becomes longer, and many have no demand of another phase.
pub fn running_state(rng: &mut Rng, site: &Site) -> State {
    let mut state = state_in(rng, site, Interval::Running);
    let times = site.phase(state.phase);
    if rng.percent(50) {
        state.gap_count = rng.pick(&LONGER).min(times.gap);
    }
    if rng.percent(50) {
        state.maximum_count = times.maximum_green.saturating_sub(rng.pick(&LONGER));
    }
    if rng.percent(50) {
        state.locks &= 1 << state.phase;
        let own = |index: &usize| site.movement(*index).phase == state.phase;
        let own = (0..site.movement_count()).filter(own);
        state.demands &= own.fold(0, |set, index| set | 1 << index);
        state.demanded = scan(site, &state);
    }
    state
}

/// A random valid state in an interval that the site has.
fn state_in(rng: &mut Rng, site: &Site, interval: Interval) -> State {
    let phases = site.phase_count();
    let phase = rng.below(phases) as u8;
    let times = site.phase(phase);
    let mut state = State {
        phase,
        interval,
        age: random_age(rng, setting_of(site, phase, interval)),
        came_from: rng.percent(70).then(|| rng.below(phases) as u8),
        target: interval
            .is_clearing()
            .then(|| other_phase(rng, phases, phase)),
        gap_count: random_count(rng, times.gap),
        maximum_count: random_count(rng, times.maximum_green),
        locks: (random_set(rng) & !(u64::MAX << phases)) as u8,
        demands: (random_set(rng) & !(u64::MAX << site.movement_count())) as u8,
        ..fresh()
    };
    for index in 0..site.movement_count() {
        state.movements[index] = random_movement(rng, site, &state, index);
    }
    state.demanded = scan(site, &state);
    state
}

/// Any interval; early cut-off only where the site has the times.
fn random_interval(rng: &mut Rng, site: &Site) -> Interval {
    match rng.pick(&Interval::ALL) {
        Interval::EarlyCutOff if !site.has_early_cut_offs() => Interval::Yellow,
        interval => interval,
    }
}

/// A movement as its interval and phase allow.
fn random_movement(rng: &mut Rng, site: &Site, state: &State, index: usize) -> MovementState {
    let movement = site.movement(index);
    let stages: &[Stage] = match state.interval {
        _ if movement.phase != state.phase => &[Stage::Idle],
        Interval::StartRed => &[Stage::Idle],
        interval if interval.is_clearing() => &[Stage::Idle, Stage::ClearanceTwo],
        _ => &Stage::ALL,
    };
    let stage = rng.pick(stages);
    let setting = match stage {
        Stage::Idle => return MovementState::IDLE,
        Stage::Walk => movement.walk,
        Stage::ClearanceOne => movement.clearance_one,
        Stage::ClearanceTwo => movement.clearance_two,
    };
    MovementState {
        stage,
        age: random_age(rng, setting),
    }
}

/// The setting that ends an interval; running has none.
fn setting_of(site: &Site, phase: u8, interval: Interval) -> u16 {
    let times = site.phase(phase);
    match interval {
        Interval::StartRed => site.start_red(),
        Interval::LateStart => times.late_start,
        Interval::MinimumGreen => times.minimum_green,
        Interval::Running => 1,
        Interval::EarlyCutOff => site.early_cut_off(phase),
        Interval::Yellow => times.yellow,
        Interval::AllRed => times.all_red,
    }
}

/// An age: often at or beside the setting, or at an end of the range.
fn random_age(rng: &mut Rng, setting: u16) -> u16 {
    let age = match rng.below(8) {
        0 => 1,
        1 => MAX_AGE,
        2 => MAX_AGE - 1,
        3 => rng.time(1, MAX_AGE),
        4 => setting.saturating_sub(1),
        5 => setting + 1,
        _ => setting,
    };
    age.clamp(1, MAX_AGE)
}

/// A count: often 0, one, the limit or just below it.
fn random_count(rng: &mut Rng, limit: u16) -> u16 {
    let anywhere = rng.time(0, limit);
    rng.pick(&[0, 0, limit.min(1), limit, limit.saturating_sub(1), anywhere])
}

/// No member, all, or some.
fn random_set(rng: &mut Rng) -> u64 {
    match rng.below(4) {
        0 => 0,
        1 => u64::MAX,
        _ => rng.draw(),
    }
}

fn other_phase(rng: &mut Rng, phases: usize, phase: u8) -> u8 {
    ((usize::from(phase) + rng.range(1, phases - 1)) % phases) as u8
}

/// The ways a state can break a rule of documents 01 and 02.
#[derive(Clone, Copy, Debug, PartialEq, Eq)]
pub enum Breakage {
    PhaseBeyond,
    CameFromBeyond,
    TargetBeyond,
    TargetIsPhase,
    TargetMissing,
    TargetOutOfPlace,
    AgeZero,
    AgeAbove,
    GapAbove,
    MaximumAbove,
    LockBeyond,
    DemandBeyond,
    MovementOfAnotherPhase,
    WalkInClearing,
    MovementInStartRed,
    IdleAged,
    MovementAge,
    MovementBeyond,
    EarlyWithoutTimes,
    DemandedDiffers,
}

impl Breakage {
    pub const ALL: [Breakage; 20] = [
        Breakage::PhaseBeyond,
        Breakage::CameFromBeyond,
        Breakage::TargetBeyond,
        Breakage::TargetIsPhase,
        Breakage::TargetMissing,
        Breakage::TargetOutOfPlace,
        Breakage::AgeZero,
        Breakage::AgeAbove,
        Breakage::GapAbove,
        Breakage::MaximumAbove,
        Breakage::LockBeyond,
        Breakage::DemandBeyond,
        Breakage::MovementOfAnotherPhase,
        Breakage::WalkInClearing,
        Breakage::MovementInStartRed,
        Breakage::IdleAged,
        Breakage::MovementAge,
        Breakage::MovementBeyond,
        Breakage::EarlyWithoutTimes,
        Breakage::DemandedDiffers,
    ];
}

/// A state that breaks one rule; none where the site has nothing to break so.
pub fn invalid_state(rng: &mut Rng, site: &Site, breakage: Breakage) -> Option<State> {
    // Most breakages need an interval of some kind; a few draws find one.
    (0..60).find_map(|_| {
        let mut state = valid_state(rng, site);
        break_state(rng, site, &mut state, breakage)?;
        Some(state)
    })
}

fn break_state(rng: &mut Rng, site: &Site, state: &mut State, breakage: Breakage) -> Option<()> {
    let phases = site.phase_count() as u8;
    let beyond = rng.pick(&[phases, 7, 255]);
    let times = site.phase(state.phase);
    match breakage {
        Breakage::PhaseBeyond => state.phase = beyond,
        Breakage::CameFromBeyond => state.came_from = Some(beyond),
        Breakage::TargetBeyond => *state.target.as_mut()? = beyond,
        Breakage::TargetIsPhase => *state.target.as_mut()? = state.phase,
        Breakage::TargetMissing => state.target = None,
        Breakage::TargetOutOfPlace => {
            state.target = Some(other_phase(rng, phases.into(), state.phase));
        }
        Breakage::AgeZero => state.age = 0,
        Breakage::AgeAbove => state.age = rng.pick(&[MAX_AGE + 1, u16::MAX]),
        Breakage::GapAbove => state.gap_count = times.gap + 1,
        Breakage::MaximumAbove => state.maximum_count = times.maximum_green + 1,
        Breakage::DemandedDiffers => break_demanded(rng, site, state)?,
        Breakage::LockBeyond => {
            state.locks |= 1 << rng.range(phases.into(), 7);
            state.demanded = scan(site, state);
        }
        Breakage::DemandBeyond if site.movement_count() < MAX_MOVEMENTS => {
            state.demands |= 1 << rng.range(site.movement_count(), 7);
        }
        Breakage::DemandBeyond => return None,
        Breakage::EarlyWithoutTimes
            if state.interval.is_clearing() && !site.has_early_cut_offs() =>
        {
            state.interval = Interval::EarlyCutOff;
        }
        _ => return break_movement(rng, site, state, breakage),
    }
    let untouched = match breakage {
        Breakage::TargetMissing => !state.interval.is_clearing(),
        Breakage::TargetOutOfPlace => state.interval.is_clearing(),
        _ => false,
    };
    (!untouched).then_some(())
}

/// One phase kept too many or too few, or a lock or demand changed and not kept.
fn break_demanded(rng: &mut Rng, site: &Site, state: &mut State) -> Option<()> {
    match rng.below(3) {
        0 => state.demanded ^= 1 << rng.below(MAX_PHASES),
        1 => state.locks ^= 1 << rng.below(site.phase_count()),
        _ if site.movement_count() == 0 => return None,
        _ => state.demands ^= 1 << rng.below(site.movement_count()),
    }
    (state.demanded != scan(site, state)).then_some(())
}

fn break_movement(rng: &mut Rng, site: &Site, state: &mut State, breakage: Breakage) -> Option<()> {
    let index = rng.below(MAX_MOVEMENTS);
    let exists = index < site.movement_count();
    let own = exists && site.movement(index).phase == state.phase;
    let active = [Stage::Walk, Stage::ClearanceOne, Stage::ClearanceTwo];
    let movement = &mut state.movements[index];
    match breakage {
        Breakage::MovementOfAnotherPhase if exists && !own => {
            *movement = MovementState::begin(rng.pick(&active));
        }
        Breakage::WalkInClearing if own && state.interval.is_clearing() => {
            *movement = MovementState::begin(rng.pick(&active[..2]));
        }
        Breakage::MovementInStartRed if own && state.interval == Interval::StartRed => {
            *movement = MovementState::begin(rng.pick(&active));
        }
        Breakage::IdleAged => {
            *movement = MovementState {
                stage: Stage::Idle,
                age: rng.pick(&[0, 2, MAX_AGE]),
            };
        }
        Breakage::MovementAge if movement.stage != Stage::Idle => {
            movement.age = rng.pick(&[0, MAX_AGE + 1, u16::MAX]);
        }
        Breakage::MovementBeyond if !exists => {
            *movement = MovementState::begin(rng.pick(&active));
        }
        _ => return None,
    }
    Some(())
}

/// The bytes of a valid state, one of the plain ones changed so that they are no
/// state.
pub fn broken_state_bytes(rng: &mut Rng, site: &Site) -> Vec<u8> {
    let state = TimedState::by_own_times(site, valid_state(rng, site));
    let mut bytes = state.to_bytes().to_vec();
    if rng.percent(10) {
        // A phase where there is none.
        let at = rng.pick(&[layout::CAME_FROM, layout::TARGET]);
        bytes[at..at + 2].copy_from_slice(&[0, 1]);
        return bytes;
    }
    let at = match rng.below(3) {
        0 => layout::INTERVAL,
        1 => rng.pick(&[layout::CAME_FROM, layout::TARGET]),
        _ => layout::MOVEMENTS + layout::MOVEMENT_LEN * rng.below(MAX_MOVEMENTS),
    };
    // No code and no tag is as great as these.
    bytes[at] = rng.pick(&[Interval::ALL.len() as u8, 8, 128, 255]);
    bytes
}
