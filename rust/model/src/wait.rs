//! The longest wait of a demand, from the settings alone.

use crate::refusal::Refusal;
use crate::site::{movement_times, PhaseTimes, Site};

/// The wait bound of a personality in steps, or why it is refused.
pub fn wait_bound(personality: &[u8]) -> Result<u32, Refusal> {
    Site::read(personality).map(|site| site.wait_bound())
}

impl Site<'_> {
    /// Start red plus, summed over phases, L + M + X + 2 × (A + E + Y + R + C), A
    /// the greatest W + C1 and C the greatest C2 among the phase's movements, E
    /// the early cut-off time.
    #[inline]
    pub fn wait_bound(&self) -> u32 {
        let (walks, clearances) = self.longest_movements();
        let mut bound = u32::from(self.start_red());
        for (phase, record) in self.records.phases.iter().enumerate() {
            let times = PhaseTimes::decode(record);
            let green = times.late_start + times.minimum_green + times.maximum_green;
            let closing = self.early_cut_off(phase as u8) + times.yellow + times.all_red;
            let change = walks[phase & 7] + closing + clearances[phase & 7];
            bound += u32::from(green) + 2 * u32::from(change);
        }
        bound
    }

    /// By phase, the greatest W + C1 and the greatest C2; 0 without movements.
    #[inline]
    fn longest_movements(&self) -> ([u16; 8], [u16; 8]) {
        let mut walks = [0; 8];
        let mut clearances = [0; 8];
        for (record, set) in self.records.movements.iter().zip(self.groups.movement_set) {
            let [walk, clearance_one, clearance_two] = movement_times(record);
            let phase = set.trailing_zeros() as usize & 7;
            walks[phase] = walks[phase].max(walk + clearance_one);
            clearances[phase] = clearances[phase].max(clearance_two);
        }
        (walks, clearances)
    }
}
