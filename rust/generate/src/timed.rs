//! Random states with their times: valid ones, and bytes in which the times are
//! wrong.

use crate::damage::wrong_time;
use crate::retimes::{retimed, time_fields};
use crate::rng::Rng;
use crate::states::{invalid_state, running_state, valid_state, Breakage};
use model::{layout, Setting, Site, State, TimedState, Times, STATE_LEN, TIMES_LEN};

/// A random valid state at the site of a personality, reachable or not: by its own
/// times or by others, with none waiting or some.
pub fn valid_timed_state(rng: &mut Rng, personality: &[u8], site: &Site) -> TimedState {
    timed_state(rng, personality, site, valid_state)
}

/// The same in running.
pub fn running_timed_state(rng: &mut Rng, personality: &[u8], site: &Site) -> TimedState {
    timed_state(rng, personality, site, running_state)
}

/// A state that is drawn by the times that rule in it.
fn timed_state(
    rng: &mut Rng,
    personality: &[u8],
    site: &Site,
    draw: impl FnOnce(&mut Rng, &Site) -> State,
) -> TimedState {
    let ruling = random_times(rng, personality);
    let waiting = match rng.below(5) {
        0 | 1 => None,
        2 => Some(rng.pick(&[ruling, Times::of(site)])),
        _ => Some(random_times(rng, personality)),
    };
    TimedState {
        state: draw(rng, &site.with_times(&ruling)),
        ruling,
        waiting,
    }
}

/// A state that breaks one rule by the times that rule; none where the site has
/// nothing to break so.
pub fn invalid_timed_state(
    rng: &mut Rng,
    personality: &[u8],
    site: &Site,
    breakage: Breakage,
) -> Option<TimedState> {
    let timed = valid_timed_state(rng, personality, site);
    let state = invalid_state(rng, &site.with_times(&timed.ruling), breakage)?;
    Some(TimedState { state, ..timed })
}

/// The times of a personality or of one that it may be retimed with.
fn random_times(rng: &mut Rng, personality: &[u8]) -> Times {
    let other = match rng.below(4) {
        0 => personality.to_vec(),
        _ => retimed(rng, personality),
    };
    Times::of(&Site::read(&other).expect("times within their limits"))
}

/// The ways in which the times of a state can be wrong.
#[derive(Clone, Copy, Debug, PartialEq, Eq)]
pub enum TimesBreakage {
    RulingOutside,
    WaitingOutside,
    /// A time of a phase, movement or section that the site does not have.
    RulingBeyond,
    WaitingBeyond,
    /// A flag that is neither 0 nor 1.
    OtherFlag,
    /// A flag of 1 with zeros behind it.
    FlagWithoutTimes,
    /// A flag of 0 with times behind it.
    TimesWithoutFlag,
    /// Counts that some other times allow, and those that rule do not.
    GapAboveRuling,
    MaximumAboveRuling,
}

impl TimesBreakage {
    pub const ALL: [TimesBreakage; 9] = [
        TimesBreakage::RulingOutside,
        TimesBreakage::WaitingOutside,
        TimesBreakage::RulingBeyond,
        TimesBreakage::WaitingBeyond,
        TimesBreakage::OtherFlag,
        TimesBreakage::FlagWithoutTimes,
        TimesBreakage::TimesWithoutFlag,
        TimesBreakage::GapAboveRuling,
        TimesBreakage::MaximumAboveRuling,
    ];
}

/// The bytes of a state whose times are wrong in one way; none where the site has
/// nothing to break so.
pub fn broken_times(
    rng: &mut Rng,
    personality: &[u8],
    site: &Site,
    breakage: TimesBreakage,
) -> Option<Vec<u8>> {
    let mut timed = valid_timed_state(rng, personality, site);
    let waits = [
        TimesBreakage::WaitingOutside,
        TimesBreakage::WaitingBeyond,
        TimesBreakage::TimesWithoutFlag,
    ];
    if waits.contains(&breakage) {
        timed.waiting = Some(random_times(rng, personality));
    }
    let times = site.with_times(&timed.ruling).phase(timed.state.phase);
    match breakage {
        TimesBreakage::GapAboveRuling => timed.state.gap_count = times.gap + 1,
        TimesBreakage::MaximumAboveRuling => timed.state.maximum_count = times.maximum_green + 1,
        _ => {}
    }
    let mut bytes = timed.to_bytes().to_vec();
    match breakage {
        TimesBreakage::RulingOutside => {
            put_outside(rng, personality, site, &mut bytes[layout::RULING..]);
        }
        TimesBreakage::WaitingOutside => {
            put_outside(rng, personality, site, &mut bytes[layout::WAITING..]);
        }
        TimesBreakage::RulingBeyond => put_beyond(rng, site, &mut bytes, layout::RULING)?,
        TimesBreakage::WaitingBeyond => put_beyond(rng, site, &mut bytes, layout::WAITING)?,
        TimesBreakage::OtherFlag => bytes[layout::FLAG] = rng.pick(&[2, 3, 128, 255]),
        TimesBreakage::FlagWithoutTimes => {
            bytes[layout::FLAG] = 1;
            bytes[layout::WAITING..].fill(0);
        }
        TimesBreakage::TimesWithoutFlag => {
            bytes[layout::FLAG] = 0;
            if rng.percent(50) {
                // One byte is enough.
                bytes[layout::WAITING..].fill(0);
                bytes[rng.range(layout::WAITING, STATE_LEN - 1)] = rng.pick(&[1, 10, 255]);
            }
        }
        TimesBreakage::GapAboveRuling | TimesBreakage::MaximumAboveRuling => {}
    }
    Some(bytes)
}

/// Where the times begin in the bytes of a [`Times`]: those of the phases, of the
/// movements, and the early cut-off times.
const PHASES: usize = 2;
const MOVEMENTS: usize = PHASES + 12 * model::MAX_PHASES;
const EARLY_CUT_OFFS: usize = MOVEMENTS + 6 * model::MAX_MOVEMENTS;

/// Puts a time outside the limits of its edition to a setting that the site has.
fn put_outside(rng: &mut Rng, personality: &[u8], site: &Site, times: &mut [u8]) {
    let fields = time_fields(personality);
    let chosen = rng.below(fields.len());
    let (_, setting) = fields[chosen];
    let same = fields[..chosen].iter().filter(|field| field.1 == setting);
    let record = same.count();
    let at = match setting {
        Setting::StartRed => 0,
        Setting::EarlyCutOff => EARLY_CUT_OFFS + 2 * record,
        _ => match field_in(&Setting::OF_MOVEMENT, setting) {
            Some(field) => MOVEMENTS + 6 * record + 2 * field,
            None => {
                let field = field_in(&Setting::OF_PHASE, setting);
                PHASES + 12 * record + 2 * field.expect("a setting of a phase")
            }
        },
    };
    let outside = wrong_time(rng, setting, site.edition());
    times[at..at + 2].copy_from_slice(&outside.to_le_bytes());
}

fn field_in(settings: &[Setting], setting: Setting) -> Option<usize> {
    settings.iter().position(|&one| one == setting)
}

/// Puts something to a setting that the site does not have.
fn put_beyond(rng: &mut Rng, site: &Site, bytes: &mut [u8], times: usize) -> Option<()> {
    let early_count = if site.has_early_cut_offs() {
        site.phase_count()
    } else {
        0
    };
    let beyond: Vec<usize> = (PHASES + 12 * site.phase_count()..MOVEMENTS)
        .chain(MOVEMENTS + 6 * site.movement_count()..EARLY_CUT_OFFS)
        .chain(EARLY_CUT_OFFS + 2 * early_count..TIMES_LEN)
        .collect();
    if beyond.is_empty() {
        return None;
    }
    let edges = [beyond[0], beyond[beyond.len() - 1], rng.pick(&beyond)];
    bytes[times + rng.pick(&edges)] = rng.pick(&[1, 10, 30, 255]);
    Some(())
}
