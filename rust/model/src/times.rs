//! The time settings of a site apart from its personality, as a state keeps them.

use crate::limits::{Limits, Setting};
use crate::site::{Records, Site};
use crate::{MAX_MOVEMENTS, MAX_PHASES};

/// Where the times of the phases begin in the bytes, those of the movements, and the
/// early cut-off times.
const PHASES: usize = 2;
const MOVEMENTS: usize = PHASES + 12 * MAX_PHASES;
const EARLY_CUT_OFFS: usize = MOVEMENTS + 6 * MAX_MOVEMENTS;

/// The length of the times in bytes.
pub const TIMES_LEN: usize = EARLY_CUT_OFFS + 2 * MAX_PHASES;

/// The time settings of a site, two bytes each: start red; late start, minimum green,
/// maximum green, gap, yellow and all-red of every phase; walk and both clearances of
/// every movement; the early cut-off time of every phase. Those that the site does
/// not have are 0.
#[derive(Clone, Copy, Debug, PartialEq, Eq)]
pub struct Times {
    bytes: [u8; TIMES_LEN],
}

impl Times {
    /// No times: every byte is 0.
    pub(crate) const NONE: Times = Times {
        bytes: [0; TIMES_LEN],
    };

    /// The times of a site.
    #[inline]
    pub fn of(site: &Site) -> Times {
        let Records {
            start_red,
            phases,
            movements,
            early_cut_offs,
            ..
        } = site.records;
        let mut times = Times::NONE;
        let mut put = |at: usize, bytes: &[u8]| {
            times.bytes[at..at + bytes.len()].copy_from_slice(bytes);
        };
        put(0, &start_red.to_le_bytes());
        put(PHASES, phases.as_flattened());
        put(MOVEMENTS, movements.as_flattened());
        put(
            EARLY_CUT_OFFS,
            early_cut_offs.unwrap_or_default().as_flattened(),
        );
        times
    }

    /// The times in their bytes.
    #[inline]
    pub fn from_bytes(bytes: &[u8; TIMES_LEN]) -> Times {
        Times { bytes: *bytes }
    }

    /// The bytes of the times.
    #[inline]
    pub fn to_bytes(&self) -> [u8; TIMES_LEN] {
        self.bytes
    }

    #[inline]
    fn start_red(&self) -> u16 {
        u16::from_le_bytes([self.bytes[0], self.bytes[1]])
    }

    #[inline]
    fn phases(&self) -> &[[u8; 12]] {
        self.bytes[PHASES..MOVEMENTS].as_chunks().0
    }

    #[inline]
    fn movements(&self) -> &[[u8; 6]] {
        self.bytes[MOVEMENTS..EARLY_CUT_OFFS].as_chunks().0
    }

    #[inline]
    fn early_cut_offs(&self) -> &[[u8; 2]] {
        self.bytes[EARLY_CUT_OFFS..].as_chunks().0
    }

    /// Whether the personality of a site would be accepted with these times in
    /// place of its own, and the settings that the site does not have are 0.
    #[inline]
    pub fn fit(&self, site: &Site) -> bool {
        let limits = |setting: Setting| setting.limits(site.edition());
        let of_phase = Setting::OF_PHASE.map(limits);
        let of_movement = Setting::OF_MOVEMENT.map(limits);
        let early_count = if site.has_early_cut_offs() {
            site.phase_count()
        } else {
            0
        };
        limits(Setting::StartRed).hold(self.start_red())
            && all_fit(self.phases(), site.phase_count(), of_phase)
            && all_fit(self.movements(), site.movement_count(), of_movement)
            && all_fit(
                self.early_cut_offs(),
                early_count,
                [limits(Setting::EarlyCutOff)],
            )
    }
}

/// Whether the first records have every time within its limits, and the others
/// are 0.
#[inline]
fn all_fit<const WIDTH: usize, const FIELDS: usize>(
    records: &[[u8; WIDTH]],
    count: usize,
    limits: [Limits; FIELDS],
) -> bool {
    let (held, others) = records.split_at(count);
    let within = |record: &[u8; WIDTH]| {
        let (times, _) = record.as_chunks();
        let fields = times.iter().zip(limits);
        fields.fold(true, |all, (&time, limits)| {
            all & limits.hold(u16::from_le_bytes(time))
        })
    };
    let others = others.as_flattened().iter();
    held.iter().all(within) && others.fold(0, |any, byte| any | byte) == 0
}

impl Site<'_> {
    /// The same site by other times.
    #[inline]
    pub fn with_times<'b>(&'b self, times: &'b Times) -> Site<'b> {
        let phase_count = self.phase_count();
        let early_cut_offs = self.has_early_cut_offs();
        let records = Records {
            start_red: times.start_red(),
            phases: &times.phases()[..phase_count],
            movements: &times.movements()[..self.movement_count()],
            early_cut_offs: early_cut_offs.then_some(&times.early_cut_offs()[..phase_count]),
            ..self.records
        };
        Site { records, ..*self }
    }
}
