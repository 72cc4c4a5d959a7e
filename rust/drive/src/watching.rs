//! Driving a board under the eyes of a monitor.

use crate::Driver;
use generate::{any_second, unknown_inputs, Rng};
use model::packed::{number, rest, Board};
use model::{Refusal, Site, TimedState, SEALED_LEN, STATE_LEN};
use monitor::{Breach, Monitor, Seen};

/// What a run without a breach has shown.
#[derive(Clone, Copy, Debug, Default, PartialEq, Eq)]
pub struct Report {
    pub accepted: u64,
    pub refused: u64,
    pub green_starts: u64,
    pub demands_met: u64,
    /// Demands that wait when the run ends. They have not waited too long.
    pub demands_left: u64,
    pub longest_wait: u64,
    /// Of the demands met, the wait that came nearest to what it was allowed, and
    /// that.
    pub nearest_wait: (u64, u64),
    /// The same beside the wait of its own phase or movement.
    pub nearest_own_wait: (u64, u64),
    /// Most phases that started while a demand waited.
    pub most_starts: u32,
    /// The wait bound of the personality.
    pub bound: u64,
    /// Runs of at least twice the wait bound.
    pub long_runs: u64,
    /// Accepted retimings, and changes to the times that waited.
    pub retimings: u64,
    pub changes: u64,
    /// Times without power.
    pub power_downs: u64,
}

impl Report {
    /// What a monitor has seen, with so many refused calls and accepted retimings.
    pub(crate) fn of(monitor: &Monitor, refused: u64, retimings: u64) -> Report {
        Report {
            accepted: monitor.accepted(),
            refused,
            green_starts: monitor.green_starts(),
            demands_met: monitor.met(),
            demands_left: monitor.waiting(),
            longest_wait: monitor.longest_wait(),
            nearest_wait: monitor.nearest_wait(),
            nearest_own_wait: monitor.nearest_own_wait(),
            most_starts: monitor.most_starts(),
            bound: monitor.bound(),
            long_runs: u64::from(monitor.accepted() >= 2 * monitor.bound()),
            retimings,
            changes: monitor.changes(),
            power_downs: 0,
        }
    }

    /// Together with another run on the same site.
    pub(crate) fn and(&self, other: &Report) -> Report {
        let nearer = |(waited, allowed): (u64, u64), (others, of): (u64, u64)| {
            if waited * of > others * allowed {
                (waited, allowed)
            } else {
                (others, of)
            }
        };
        Report {
            accepted: self.accepted + other.accepted,
            refused: self.refused + other.refused,
            green_starts: self.green_starts + other.green_starts,
            demands_met: self.demands_met + other.demands_met,
            demands_left: self.demands_left + other.demands_left,
            longest_wait: self.longest_wait.max(other.longest_wait),
            nearest_wait: nearer(self.nearest_wait, other.nearest_wait),
            nearest_own_wait: nearer(self.nearest_own_wait, other.nearest_own_wait),
            most_starts: self.most_starts.max(other.most_starts),
            bound: other.bound,
            long_runs: self.long_runs + other.long_runs,
            retimings: self.retimings + other.retimings,
            changes: self.changes + other.changes,
            power_downs: self.power_downs + other.power_downs,
        }
    }
}

/// The refusals of a record that is not the one that was sealed.
const OTHER_VERSION: u64 = 27;
const DAMAGED: u64 = 28;
/// Of a hundred calls so many are wrong ones, to be refused.
const WRONG_CALLS: usize = 3;
/// Of a hundred retimings so many are followed by another one at once.
pub(crate) const TWO_IN_A_ROW: usize = 20;
/// Of a hundred times without power so many also try a damaged record.
const DAMAGED_RECORDS: usize = 30;

/// What is among the steps of a run, besides wrong calls.
#[derive(Clone, Copy, Debug, PartialEq, Eq)]
pub enum Among {
    Nothing,
    /// Retimings, accepted and refused ones: in some runs many, in others few.
    Retimings,
    /// Times without power: the state is sealed, forgotten and resumed. Some of these
    /// runs have retimings too.
    PowerDowns,
}

/// Runs a board on a personality from its fresh state for so many calls, wrong
/// calls among them. The outer error is a refused personality.
pub fn watch(
    among: Among,
    board: &dyn Board,
    personality: &[u8],
    driver: &mut Driver,
    rng: &mut Rng,
    calls: u64,
) -> Result<Result<Report, Breach>, Refusal> {
    let mut run = Run::new(board, personality)?;
    match among {
        Among::Nothing => {}
        Among::Retimings => run.calls_a_retiming = Some(rng.pick(&[10, 60, 300, 1_000])),
        Among::PowerDowns => {
            run.calls_a_retiming = rng.pick(&[None, Some(10), Some(60), Some(300)]);
            run.calls_a_power_down = Some(rng.pick(&[1, 10, 100]));
        }
    }
    Ok(run.go(driver, rng, calls))
}

struct Run<'a> {
    board: &'a dyn Board,
    personality: &'a [u8],
    site: Site<'a>,
    monitor: Monitor,
    state: [u8; STATE_LEN],
    refused: u64,
    retimings: u64,
    power_downs: u64,
    /// One call of about so many is a retiming, if any is.
    calls_a_retiming: Option<usize>,
    /// Before one call of about so many the power goes down, if ever.
    calls_a_power_down: Option<usize>,
}

impl<'a> Run<'a> {
    fn new(board: &'a dyn Board, personality: &'a [u8]) -> Result<Run<'a>, Refusal> {
        let site = Site::read(personality)?;
        Ok(Run {
            board,
            personality,
            monitor: Monitor::new(personality),
            state: [0; STATE_LEN],
            refused: 0,
            retimings: 0,
            power_downs: 0,
            calls_a_retiming: None,
            calls_a_power_down: None,
            site,
        })
    }

    fn go(&mut self, driver: &mut Driver, rng: &mut Rng, calls: u64) -> Result<Report, Breach> {
        let answer = self.board.fresh(self.personality, &mut self.state);
        if answer != 0 {
            return Err(self.wrong_answer(answer));
        }
        self.monitor.begins_with(&self.state)?;
        for _ in 0..calls {
            if let Some(calls) = self.calls_a_power_down {
                if rng.below(calls) == 0 {
                    self.power_down(rng)?;
                }
            }
            match self.calls_a_retiming {
                Some(calls) if rng.below(calls) == 0 => self.retimings(rng)?,
                _ if rng.percent(WRONG_CALLS) => self.wrong_call(rng)?,
                _ => self.right_call(driver)?,
            }
        }
        let (refused, retimings) = (self.refused, self.retimings);
        Ok(Report {
            power_downs: self.power_downs,
            ..Report::of(&self.monitor, refused, retimings)
        })
    }

    /// A time without power: nothing is left but the record, which gives back the state
    /// as it was.
    fn power_down(&mut self, rng: &mut Rng) -> Result<(), Breach> {
        let before = self.state;
        let mut sealed = [0xEE; SEALED_LEN];
        let answer = self.board.seal(self.personality, &before, &mut sealed);
        if answer != 0 {
            return Err(self.wrong_answer(answer));
        }
        self.state.fill_with(|| rng.byte());
        if rng.percent(DAMAGED_RECORDS) {
            self.damaged_record(rng, sealed)?;
        }
        let answer = self
            .board
            .resume(self.personality, &sealed, &mut self.state);
        if answer != 0 {
            return Err(self.wrong_answer(answer));
        }
        if self.state != before {
            let step = self.monitor.accepted();
            return Err(Breach::NotResumed { step });
        }
        self.power_downs += 1;
        Ok(())
    }

    /// A record with one bit turned over: it is refused, as one of another version if
    /// the bit is in the first byte.
    fn damaged_record(&mut self, rng: &mut Rng, sealed: [u8; SEALED_LEN]) -> Result<(), Breach> {
        let mut damaged = sealed;
        let anywhere = rng.below(SEALED_LEN);
        let at = rng.pick(&[0, anywhere, anywhere]);
        damaged[at] ^= 1 << rng.below(8);
        let expected = match at {
            0 => OTHER_VERSION,
            _ => DAMAGED,
        };
        let left = self.state;
        let answer = self
            .board
            .resume(self.personality, &damaged, &mut self.state);
        if answer != expected {
            return Err(self.wrong_answer(answer));
        }
        if self.state != left {
            return Err(self.refusal_writes());
        }
        self.refused += 1;
        Ok(())
    }

    /// A call that is to be accepted.
    fn right_call(&mut self, driver: &mut Driver) -> Result<(), Breach> {
        let before = self.state;
        let inputs = driver.inputs(&self.site, &self.decode()?.state);
        let mut colours = vec![0xEE; self.site.group_count()];
        let answer = self.call(inputs, &mut colours);
        if number(answer) != 0 {
            return Err(self.wrong_answer(answer));
        }
        let seen = Seen {
            before: &before,
            inputs,
            after: &self.state,
            colours: &colours,
            wait: rest(answer),
        };
        self.monitor.accepted_step(&seen)
    }

    /// A call with a bit too many or a buffer too short.
    fn wrong_call(&mut self, rng: &mut Rng) -> Result<(), Breach> {
        let before = self.state;
        let groups = self.site.group_count();
        let (inputs, length) = match rng.percent(50) {
            true => (unknown_inputs(rng, &self.site), groups),
            false => (0, rng.below(groups)),
        };
        let mut colours = vec![0xEE; length];
        let answer = self.call(inputs, &mut colours);
        if Some(answer) != self.monitor.step_refusal(inputs, length) {
            return Err(self.wrong_answer(answer));
        }
        if self.state != before || colours.iter().any(|&byte| byte != 0xEE) {
            return Err(self.refusal_writes());
        }
        self.refused += 1;
        Ok(())
    }

    /// A retiming, or several in a row.
    fn retimings(&mut self, rng: &mut Rng) -> Result<(), Breach> {
        loop {
            let new = any_second(rng, self.personality);
            let read = self.board.read(&new);
            match self.monitor.retiming_answer(&new, read) {
                0 => self.right_retiming(&new)?,
                refusal => self.refused_retiming(&new, refusal)?,
            }
            if !rng.percent(TWO_IN_A_ROW) {
                return Ok(());
            }
        }
    }

    fn right_retiming(&mut self, new: &[u8]) -> Result<(), Breach> {
        let before = self.state;
        let answer = self.board.retime(self.personality, &mut self.state, new);
        if answer != 0 {
            return Err(self.wrong_answer(answer));
        }
        self.retimings += 1;
        self.monitor.accepted_retiming(&before, &self.state, new)
    }

    fn refused_retiming(&mut self, new: &[u8], expected: u64) -> Result<(), Breach> {
        let before = self.state;
        let answer = self.board.retime(self.personality, &mut self.state, new);
        if answer != expected {
            return Err(self.wrong_answer(answer));
        }
        if self.state != before {
            return Err(self.refusal_writes());
        }
        self.refused += 1;
        Ok(())
    }

    fn call(&mut self, inputs: u64, colours: &mut [u8]) -> u64 {
        let personality = self.personality;
        self.board
            .step(personality, &mut self.state, inputs, colours)
    }

    fn decode(&self) -> Result<TimedState, Breach> {
        let step = self.monitor.accepted();
        TimedState::from_bytes(&self.state).ok_or(Breach::NoState { step })
    }

    fn refusal_writes(&self) -> Breach {
        let step = self.monitor.accepted();
        Breach::RefusalWrites { step }
    }

    fn wrong_answer(&self, answer: u64) -> Breach {
        let step = self.monitor.accepted();
        Breach::WrongAnswer { step, answer }
    }
}
