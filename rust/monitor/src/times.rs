//! The times that rule and those that wait, read off the states.

use crate::limits::Limits;
use crate::site::{Site, Times, TIMES_LEN};
use crate::step::Step;
use crate::Breach;

/// The times that rule, and the limits that they give.
#[derive(Clone, Debug)]
pub struct Ruling {
    bytes: [u8; TIMES_LEN],
    pub times: Times,
    pub limits: Limits,
}

impl Ruling {
    pub fn by(site: &Site, bytes: &[u8; TIMES_LEN]) -> Ruling {
        let times = Times::of(bytes);
        Ruling {
            bytes: *bytes,
            limits: Limits::of(site, &times),
            times,
        }
    }

    /// These times rule.
    pub fn take(&mut self, site: &Site, bytes: &[u8]) {
        if self.bytes != bytes {
            let bytes = bytes.try_into().expect("the times of a state");
            *self = Ruling::by(site, bytes);
        }
    }
}

/// A step leaves the times as they are. Only if a phase starts and times wait,
/// these rule after it, and none wait. It reports the wait of the times that rule
/// after it.
pub fn step(ruling: &Ruling, step: &Step) -> Result<(), Breach> {
    let expected = match step.before.waiting {
        Some(waiting) if step.started().is_some() => (waiting, None),
        waiting => (step.before.ruling, waiting),
    };
    if (step.after.ruling, step.after.waiting) != expected {
        return Err(Breach::WrongTimes { step: step.number });
    }
    if step.wait != ruling.limits.bound {
        return Err(Breach::WrongWait {
            step: step.number,
            reported: step.wait,
            expected: ruling.limits.bound,
        });
    }
    Ok(())
}
