//! Calls that take numbers alone: site sheets and yellow times.

use crate::recorder::Recorder;
use sheet::drawn;

/// The sheets of a scene.
const SHEETS: usize = 60;

/// The speeds and grades of the table of yellow times.
const SPEEDS: std::ops::RangeInclusive<u32> = 40..=110;
const GRADES: std::ops::RangeInclusive<i32> = -10..=10;

impl Recorder {
    /// Sheets of any bits, and yellow times inside the table and outside.
    pub(super) fn sheets(&mut self) {
        self.begin();
        for _ in 0..SHEETS {
            let sheet = drawn(&mut self.rng);
            let numbers = [sheet.speed, sheet.detector].map(u64::from);
            self.call(
                "settings",
                &[numbers[0].into(), numbers[1].into(), sheet.bits.into()],
            );
        }
        for _ in 0..SHEETS / 4 {
            let any = self.rng.draw();
            let speed = self
                .rng
                .pick(&[39, 40, 41, 109, 110, 111, any as u32, u32::MAX]);
            let grade = self
                .rng
                .pick(&[-11, -10, -1, 0, 9, 10, 11, (any >> 32) as i32]);
            self.yellow(speed, grade);
        }
    }

    pub(super) fn every_yellow_time(&mut self) {
        self.begin();
        for speed in SPEEDS {
            for grade in GRADES {
                self.yellow(speed, grade);
            }
        }
    }

    /// A grade is recorded as its 32 bits.
    fn yellow(&mut self, speed: u32, grade: i32) {
        let grade = u64::from(grade as u32);
        self.call("yellow", &[u64::from(speed).into(), grade.into()]);
    }
}
