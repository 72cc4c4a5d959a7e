//! The starts of phases, and that none starts twice while a demand waits: request
//! fourteen.

use crate::demands::{registered_movements, registered_phases, Demand};
use crate::site::Site;
use crate::step::Step;
use crate::Breach;

/// The phases started since each demand that waits was registered.
#[derive(Clone, Debug)]
pub struct Starts {
    phases: Vec<Option<Since>>,
    movements: Vec<Option<Since>>,
    /// Most phases that started while a demand waited.
    pub most: u32,
}

/// The step that registered a demand, and the phases started from that step on. If
/// several steps registered it, the first of them: the others have seen no more.
#[derive(Clone, Copy, Debug)]
struct Since {
    registered: u64,
    /// Bit 0 is phase A.
    started: u8,
}

impl Starts {
    pub fn new(site: &Site) -> Starts {
        Starts {
            phases: vec![None; site.phases],
            movements: vec![None; site.movements.len()],
            most: 0,
        }
    }

    /// The step that registers a demand counts, and so does the one that meets it.
    pub fn step(&mut self, site: &Site, step: &Step) -> Result<(), Breach> {
        let now = Since {
            registered: step.number,
            started: 0,
        };
        for phase in registered_phases(site, step) {
            self.phases[phase].get_or_insert(now);
        }
        for movement in registered_movements(site, step) {
            self.movements[movement].get_or_insert(now);
        }
        if let Some(phase) = step.started() {
            self.start(phase, step.number)?;
        }
        for (phase, since) in self.phases.iter_mut().enumerate() {
            since.take_if(|_| step.minimum_green_begins(phase));
        }
        for (movement, since) in self.movements.iter_mut().enumerate() {
            since.take_if(|_| step.walk_begins(movement));
        }
        Ok(())
    }

    /// A phase starts: a demand that waits has not seen it start before.
    fn start(&mut self, phase: usize, step: u64) -> Result<(), Breach> {
        let locks = self.phases.iter_mut().enumerate();
        let locks = locks.map(|(phase, since)| (Demand::Lock(phase), since));
        let presses = self.movements.iter_mut().enumerate();
        let presses = presses.map(|(movement, since)| (Demand::Press(movement), since));
        for (demand, since) in locks.chain(presses) {
            let Some(since) = since else { continue };
            if since.started >> phase & 1 != 0 {
                return Err(Breach::StartsTwice {
                    step,
                    phase,
                    demand,
                    registered: since.registered,
                });
            }
            since.started |= 1 << phase;
            self.most = self.most.max(since.started.count_ones());
        }
        Ok(())
    }
}
