//! The wait of each phase and of each movement, from the settings alone. Each is a
//! number of steps that a demand never waits: it is met in fewer.

use crate::refusal::{Number, Refusal};
use crate::site::Site;
use crate::{MAX_MOVEMENTS, MAX_PHASES};

/// Most bytes of the waits of a site: two for each phase and each movement.
pub const MOST_WAIT_BYTES: usize = 2 * (MAX_PHASES + MAX_MOVEMENTS);

impl Site<'_> {
    /// The wait of a phase: a demand of it that lasts has its minimum green in the step
    /// that registers it or in fewer than this many further steps.
    pub fn lock_wait(&self, phase: u8) -> u32 {
        self.late_start(phase) + self.first(phase) + self.others(phase)
    }

    /// The wait of a movement: its walk begins in the step that registers its button or
    /// in fewer than this many further steps.
    pub fn button_wait(&self, movement: usize) -> u32 {
        let phase = self.movement(movement).phase;
        self.first(phase).max(self.own(movement)) + self.others(phase)
    }

    /// The turns of all phases but one.
    fn others(&self, phase: u8) -> u32 {
        let others = self.phases().filter(|&other| other != phase);
        others.map(|other| self.turn(other)).sum()
    }

    /// The longest from the start of a phase to the next start, if another phase is
    /// demanded all the time.
    pub fn turn(&self, phase: u8) -> u32 {
        self.ending(phase, None, self.green(phase), 0)
    }

    /// The longest that may have to pass before the first turn of another phase: start
    /// red, or the clearance of any phase. Not that of the phase after this one in the
    /// running order: if it clears, its turn is over.
    pub fn first(&self, phase: u8) -> u32 {
        let after = self.first_after(phase, self.all_phases() & !(1 << phase));
        let clearing = self.phases().filter(|&other| other != after);
        let longest = clearing.map(|other| {
            let of_phase = self.of_phase(other);
            let second = of_phase.map(|movement| self.movement(movement).clearance_two);
            self.closing(other).max(second.max().unwrap_or(0).into())
        });
        longest.fold(self.start_red().into(), u32::max)
    }

    /// The longest that the phase of a movement goes on after a press for the movement:
    /// the whole of its turn, or both clearances of the movement, in whose last step the
    /// walk of another movement begins.
    pub fn own(&self, movement: usize) -> u32 {
        let times = self.movement(movement);
        let back = u32::from(times.clearance_one) + u32::from(times.clearance_two);
        let whole = self.ending(times.phase, Some(movement), self.green(times.phase), 0);
        whole.max(self.ending(times.phase, Some(movement), back, back))
    }

    /// The late start of a phase.
    pub fn late_start(&self, phase: u8) -> u32 {
        self.phase(phase).late_start.into()
    }

    /// The longest that a phase goes on to the next start, if all but walks let it end
    /// after some steps. Walks of its movements, except one, began at another step.
    fn ending(&self, phase: u8, except: Option<usize>, free: u32, walked: u32) -> u32 {
        let closing = self.closing(phase);
        let others = self.of_phase(phase).filter(|&other| Some(other) != except);
        let walks = others.map(|other| {
            let times = self.movement(other);
            let walk_ends = (walked + u32::from(times.walk)).max(free + 1);
            let clears = closing.max(times.clearance_two.into());
            walk_ends + u32::from(times.clearance_one) + clears
        });
        walks.fold(free + closing, u32::max)
    }

    /// Late start, minimum and maximum green of a phase.
    fn green(&self, phase: u8) -> u32 {
        let times = self.phase(phase);
        u32::from(times.late_start)
            + u32::from(times.minimum_green)
            + u32::from(times.maximum_green)
    }

    /// Early cut-off, yellow and all-red of a phase.
    fn closing(&self, phase: u8) -> u32 {
        let times = self.phase(phase);
        u32::from(self.early_cut_off(phase)) + u32::from(times.yellow) + u32::from(times.all_red)
    }

    fn phases(&self) -> impl Iterator<Item = u8> {
        0..self.phase_count() as u8
    }

    /// The movements of a phase.
    fn of_phase(&self, phase: u8) -> impl Iterator<Item = usize> + '_ {
        let movements = 0..self.movement_count();
        movements.filter(move |&movement| self.groups.movement_set[movement] == 1 << phase)
    }
}

/// Writes the waits of a personality, two bytes each: of each phase, then of each
/// movement. Gives the number of bytes. Bytes past them stay.
pub fn waits(personality: &[u8], buffer: &mut [u8]) -> Result<u32, Refusal> {
    let site = Site::read(personality)?;
    let length = 2 * (site.phase_count() + site.movement_count());
    let (slots, _) = buffer.as_chunks_mut::<2>();
    let Some(slots) = slots.get_mut(..length / 2) else {
        return Err(Refusal::without_place(Number::ShortBuffer));
    };
    let phases = site.phases().map(|phase| site.lock_wait(phase));
    let movements = (0..site.movement_count()).map(|movement| site.button_wait(movement));
    for (slot, wait) in slots.iter_mut().zip(phases.chain(movements)) {
        let wait = u16::try_from(wait).expect("a wait is at most the wait bound");
        *slot = wait.to_le_bytes();
    }
    Ok(length as u32)
}
