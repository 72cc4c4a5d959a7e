//! The state with the times that rule, and those that wait for a phase to start.

use crate::colours::show;
use crate::refusal::{Number, Refusal, Verdict};
use crate::site::Site;
use crate::state::{fresh, State};
use crate::step::advance_with;
use crate::times::Times;
use crate::valid::valid;

/// A state with its times.
#[derive(Clone, Copy, Debug, PartialEq, Eq)]
pub struct TimedState {
    pub state: State,
    /// The times that the site goes by.
    pub ruling: Times,
    /// The times that rule from the next start of a phase on.
    pub waiting: Option<Times>,
}

impl TimedState {
    /// The state before the first step: the site's own times rule, and none wait.
    #[inline]
    pub fn fresh(site: &Site) -> TimedState {
        TimedState::by_own_times(site, fresh())
    }

    /// A plain state by the site's own times, with none waiting.
    #[inline]
    pub fn by_own_times(site: &Site, state: State) -> TimedState {
        TimedState {
            state,
            ruling: Times::of(site),
            waiting: None,
        }
    }

    /// The wait bound of the times that rule.
    #[inline]
    pub fn wait_bound(&self, site: &Site) -> u32 {
        site.with_times(&self.ruling).wait_bound()
    }
}

/// Whether a state may be stepped at a site: it is valid by the times that rule,
/// and the personality would be accepted with these and with those that wait.
#[inline]
pub fn valid_timed(site: &Site, timed: &TimedState) -> bool {
    valid_by(site, &site.with_times(&timed.ruling), timed)
}

/// The same, given the site by the times that rule.
#[inline]
fn valid_by(site: &Site, ruled: &Site, timed: &TimedState) -> bool {
    timed.ruling.fit(site)
        && timed.waiting.is_none_or(|waiting| waiting.fit(site))
        && valid(ruled, &timed.state)
}

/// Checks the state and the inputs of a step, given the site by the times that rule.
#[inline]
pub(crate) fn admit(site: &Site, ruled: &Site, timed: &TimedState, inputs: u64) -> Verdict {
    if !valid_by(site, ruled, timed) {
        return Err(Refusal::without_place(Number::InvalidState));
    }
    if inputs & !site.known_inputs() != 0 {
        return Err(Refusal::without_place(Number::UnknownInput));
    }
    Ok(())
}

/// The answer to a step call: the state handed back (the old one where the step
/// is refused), and the wait bound of the times that rule after it or the refusal.
#[derive(Clone, Copy, Debug, PartialEq, Eq)]
pub struct TimedAnswer {
    pub state: TimedState,
    pub wait_bound: Result<u32, Refusal>,
}

/// A full step call. The personality is the first one, whatever times rule.
pub fn step_timed(
    personality: &[u8],
    timed: &TimedState,
    inputs: u64,
    colours: &mut [u8],
) -> TimedAnswer {
    let stepped = Site::read(personality).and_then(|site| {
        let next = step_timed_on(&site, timed, inputs, colours)?;
        Ok((next, next.wait_bound(&site)))
    });
    match stepped {
        Ok((next, bound)) => TimedAnswer {
            state: next,
            wait_bound: Ok(bound),
        },
        Err(refusal) => TimedAnswer {
            state: *timed,
            wait_bound: Err(refusal),
        },
    }
}

/// A step on a site already read. Where a phase starts, the times that wait rule
/// from there on.
#[inline]
pub fn step_timed_on(
    site: &Site,
    timed: &TimedState,
    inputs: u64,
    colours: &mut [u8],
) -> Result<TimedState, Refusal> {
    let ruled = site.with_times(&timed.ruling);
    admit(site, &ruled, timed, inputs)?;
    let Some(colours) = colours.get_mut(..site.group_count()) else {
        return Err(Refusal::without_place(Number::ShortBuffer));
    };
    let waiting = timed.waiting.as_ref().map(|times| site.with_times(times));
    let (state, phase_starts) = advance_with(&ruled, waiting.as_ref(), &timed.state, inputs);
    match (timed.waiting, &waiting) {
        (Some(times), Some(waiting)) if phase_starts => {
            show(waiting, &state, colours);
            Ok(TimedState {
                state,
                ruling: times,
                waiting: None,
            })
        }
        _ => {
            show(&ruled, &state, colours);
            Ok(TimedState { state, ..*timed })
        }
    }
}
