//! What is recorded. A scene begins with an arena of equal bytes, lays its buffers and
//! makes its calls.

mod buffers;
mod cabinets;
mod numbers;
mod roads;
mod runs;
mod seals;
mod sites;
mod states;

use crate::recorder::Recorder;
use generate::AIMED;

/// The longest personality that is laid; longer ones are drawn again.
const MOST_PERSONALITY: usize = 1 << 10;

/// The scenes that take turns.
const TURNS: [fn(&mut Recorder); 19] = [
    Recorder::run,
    Recorder::accepted_site,
    Recorder::run,
    Recorder::damaged_site,
    Recorder::run,
    Recorder::states,
    Recorder::run,
    Recorder::state_lengths,
    Recorder::run,
    Recorder::retimings,
    Recorder::run,
    Recorder::roads,
    Recorder::damaged_roads,
    Recorder::cabinet_list,
    Recorder::cabinet_rows,
    Recorder::cabinet_list,
    Recorder::cabinet_buffers,
    Recorder::seals,
    Recorder::sheets,
];

impl Recorder {
    /// Records what every recording has, then scenes in turn until there are so many
    /// calls; the last scene is recorded whole.
    pub fn record(&mut self, calls: u64) {
        self.begin();
        self.call("version", &[]);
        for number in AIMED {
            self.site_damaged_by(number);
        }
        self.every_code();
        self.every_alignment();
        self.empty_buffers();
        self.far_lengths();
        self.every_yellow_time();
        self.longest_road();
        for scene in TURNS {
            scene(self);
        }
        for scene in TURNS.iter().cycle() {
            if self.calls() >= calls {
                return;
            }
            scene(self);
        }
    }
}
