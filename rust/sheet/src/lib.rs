//! The settings of a site sheet, call by call, against exact arithmetic.

#![forbid(unsafe_code)]

mod draw;
pub mod model;

pub use draw::{drawn, Drawn};

use generate::Rng;
use std::fmt;

/// What answers a speed, a detector's number and its metres.
pub type Settings = dyn Fn(u32, u32, f64) -> u64;

/// The settings that are compared: those of the library, if it is linked. The model does not
/// stand in for it, as it would agree with itself.
pub fn library() -> Option<&'static Settings> {
    #[cfg(feature = "linked")]
    return Some(&willowera::packed::settings);
    #[cfg(not(feature = "linked"))]
    return None;
}

/// What was compared, counted.
#[derive(Clone, Copy, Debug, Default, PartialEq, Eq)]
pub struct Tally {
    pub settings: u64,
    pub sheets_refused: u64,
    pub limits_refused: u64,
    pub rounding_decides: u64,
}

impl fmt::Display for Tally {
    fn fmt(&self, f: &mut fmt::Formatter<'_>) -> fmt::Result {
        writeln!(f, "{:>9}  settings", self.settings)?;
        writeln!(f, "{:>9}  refused with 19", self.sheets_refused)?;
        writeln!(f, "{:>9}  refused with 20", self.limits_refused)?;
        write!(
            f,
            "{:>9}  where the product's rounding decides",
            self.rounding_decides
        )
    }
}

/// A call whose answer is not the model's.
#[derive(Clone, Copy, Debug, PartialEq, Eq)]
pub struct Difference {
    pub handed: Drawn,
    pub expected: u64,
    pub found: u64,
}

impl fmt::Display for Difference {
    fn fmt(&self, f: &mut fmt::Formatter<'_>) -> fmt::Result {
        let Drawn {
            speed,
            detector,
            bits,
        } = self.handed;
        let metres = f64::from_bits(bits);
        write!(
            f,
            "speed {speed}, detector {detector}, metres {metres} ({bits:#018x}): expected {:#x}, found {:#x}",
            self.expected, self.found
        )
    }
}

/// Compares so many calls that follow from a seed.
pub fn compare(settings: &Settings, seed: u64, calls: u64) -> Result<Tally, Difference> {
    let mut rng = Rng::new(seed);
    let mut tally = Tally::default();
    for _ in 0..calls {
        let handed = drawn(&mut rng);
        let expected = model::settings(handed.speed, handed.detector, handed.bits);
        let found = settings(handed.speed, handed.detector, f64::from_bits(handed.bits));
        if found != expected.packed() {
            return Err(Difference {
                handed,
                expected: expected.packed(),
                found,
            });
        }
        tally.count(handed, expected);
    }
    Ok(tally)
}

impl Tally {
    fn count(&mut self, handed: Drawn, answer: model::Answer) {
        *match answer {
            model::Answer::Settings { .. } => &mut self.settings,
            model::Answer::Refused(19) => &mut self.sheets_refused,
            model::Answer::Refused(_) => &mut self.limits_refused,
        } += 1;
        let unrounded = model::unrounded(handed.speed, handed.detector, handed.bits);
        self.rounding_decides += u64::from(unrounded != answer);
    }
}
