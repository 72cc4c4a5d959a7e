//! The cases: each follows from a seed and an index.

use crate::calls::Comparison;
use crate::difference::{Difference, Failure};
use crate::tally::Tally;
use drive::{watch, watch_cabinet, Among, Driver, Strategy};
use generate::{
    any_inputs, any_records, broken_state_bytes, damaged, invalid_timed_state, known_inputs,
    other_edition, record_of, scrambled, twice_damaged, unknown_inputs, valid_timed_state,
    Breakage, CabinetCall, Plan, Rng, RoadDamage, RoadPlan,
};
use model::packed::Board;
use model::{
    records_in, Record, RecordBytes, Site, TimedState, OUTPUTS, PLAIN_LEN, RECORDS, RECORD_LEN,
    RESULT_LEN, SEALED_LEN, STATE_LEN, STREAM_LEN,
};
use std::fmt;

/// What a case is about.
#[derive(Clone, Copy, Debug, PartialEq, Eq, PartialOrd, Ord)]
pub enum Kind {
    Accepted,
    /// Damaged so that this number refuses it.
    Damaged(u8),
    TwiceDamaged,
    Scrambled,
    OtherEdition,
    Run,
    SingleSteps,
    InvalidState,
    NoState,
    StateLength,
    UnknownInputs,
    BufferLength,
    ManyWrongs,
    Watched,
    Road,
    DamagedRoad,
    RoadBuffers,
    RoadWrongs,
    Cabinet,
    CabinetRows,
    CabinetBuffers,
    WatchedCabinet,
    RetimedRun,
    Retimings,
    RetimedElsewhere,
    RefusedSecond,
    BrokenTimes,
    RetimingWrongs,
    RetimedWatched,
    WhyRun,
    Whys,
    WhyWrongs,
    SealedRun,
    Seals,
    SealWrongs,
    DamagedSeals,
    OtherSeals,
    InvalidSeals,
    ResumeWrongs,
    ResumedWatched,
}

/// The kinds take turns, those that matter most more often.
const TURNS: [Kind; 61] = [
    Kind::Accepted,
    Kind::Damaged(1),
    Kind::Run,
    Kind::Damaged(2),
    Kind::SingleSteps,
    Kind::Damaged(3),
    Kind::InvalidState,
    Kind::Damaged(4),
    Kind::NoState,
    Kind::Damaged(5),
    Kind::StateLength,
    Kind::Damaged(6),
    Kind::UnknownInputs,
    Kind::Damaged(7),
    Kind::BufferLength,
    Kind::Damaged(8),
    Kind::ManyWrongs,
    Kind::Damaged(9),
    Kind::SingleSteps,
    Kind::Damaged(10),
    Kind::TwiceDamaged,
    Kind::Damaged(11),
    Kind::Scrambled,
    Kind::OtherEdition,
    Kind::Damaged(12),
    Kind::Run,
    Kind::Damaged(17),
    Kind::Damaged(18),
    Kind::Damaged(21),
    Kind::Watched,
    Kind::Road,
    Kind::DamagedRoad,
    Kind::Road,
    Kind::RoadBuffers,
    Kind::RoadWrongs,
    Kind::Cabinet,
    Kind::CabinetRows,
    Kind::CabinetBuffers,
    Kind::CabinetRows,
    Kind::WatchedCabinet,
    Kind::RetimedRun,
    Kind::Retimings,
    Kind::RetimedElsewhere,
    Kind::RefusedSecond,
    Kind::RetimedRun,
    Kind::BrokenTimes,
    Kind::RetimingWrongs,
    Kind::RetimedWatched,
    Kind::WhyRun,
    Kind::Whys,
    Kind::WhyWrongs,
    Kind::Whys,
    Kind::SealedRun,
    Kind::Seals,
    Kind::SealWrongs,
    Kind::DamagedSeals,
    Kind::OtherSeals,
    Kind::InvalidSeals,
    Kind::ResumeWrongs,
    Kind::DamagedSeals,
    Kind::ResumedWatched,
];

impl Kind {
    /// The kind of a case.
    pub fn of(index: u64) -> Kind {
        TURNS[(index % TURNS.len() as u64) as usize]
    }

    /// Every kind.
    pub fn all() -> Vec<Kind> {
        let mut kinds = TURNS.to_vec();
        kinds.sort();
        kinds.dedup();
        kinds
    }
}

impl fmt::Display for Kind {
    fn fmt(&self, f: &mut fmt::Formatter<'_>) -> fmt::Result {
        let words = match self {
            Kind::Accepted => "accepted personality",
            Kind::Damaged(number) => {
                return write!(f, "personality damaged to be refused with {number}");
            }
            Kind::TwiceDamaged => "personality damaged twice",
            Kind::Scrambled => "personality scrambled",
            Kind::OtherEdition => "personality of the other edition",
            Kind::Run => "run of steps, refused calls among them",
            Kind::SingleSteps => "single steps from random valid states",
            Kind::InvalidState => "invalid states",
            Kind::NoState => "bytes that are no state",
            Kind::StateLength => "states of other lengths",
            Kind::UnknownInputs => "inputs without a detector or button",
            Kind::BufferLength => "colour buffers short and long",
            Kind::ManyWrongs => "several wrongs in one call",
            Kind::Watched => "run watched for demand 3 and request fourteen",
            Kind::Road => "simulated roads",
            Kind::DamagedRoad => "simulated roads refused with 22",
            Kind::RoadBuffers => "state and result buffers of a road short and long",
            Kind::RoadWrongs => "several wrongs in one road",
            Kind::Cabinet => "lists of calls on a cabinet, retimings and refused calls among them",
            Kind::CabinetRows => "calls on cabinets of any content",
            Kind::CabinetBuffers => {
                "rows of other numbers of records, output buffers short and long"
            }
            Kind::WatchedCabinet => "sites of a cabinet watched for demand 3 and request fourteen",
            Kind::RetimedRun => "run of steps with retimings among them",
            Kind::Retimings => "retimings from random valid states",
            Kind::RetimedElsewhere => "retimings with more changed than times",
            Kind::RefusedSecond => "retimings with a personality that is refused",
            Kind::BrokenTimes => "states with wrong times",
            Kind::RetimingWrongs => "several wrongs in one retiming",
            Kind::RetimedWatched => "retimed run watched for demand 3 and request fourteen",
            Kind::WhyRun => "run of steps with the line after each",
            Kind::Whys => "lines of random valid states",
            Kind::WhyWrongs => "several wrongs in one call for a line",
            Kind::SealedRun => "run of steps with times without power among them",
            Kind::Seals => "random valid states sealed and resumed",
            Kind::SealWrongs => "several wrongs in one sealing",
            Kind::DamagedSeals => "sealed records damaged in every way",
            Kind::OtherSeals => "sealed records of another personality",
            Kind::InvalidSeals => "sealed records of states that may be invalid",
            Kind::ResumeWrongs => "several wrongs in one resuming",
            Kind::ResumedWatched => {
                "run with times without power watched for demand 3 and request fourteen"
            }
        };
        f.write_str(words)
    }
}

/// Runs one case, against the model or under the monitor.
pub fn run_case(
    board: &dyn Board,
    seed: u64,
    index: u64,
    tally: &mut Tally,
) -> Result<(), Box<Failure>> {
    let kind = Kind::of(index);
    tally.count_case(kind);
    let mut comparison = Comparison {
        board,
        rng: Rng::of_case(seed, index),
        tally,
    };
    comparison.case(kind).map_err(|difference| {
        Box::new(Failure {
            seed,
            index,
            kind,
            difference: *difference,
        })
    })
}

pub(crate) type Outcome = Result<(), Box<Difference>>;

impl Comparison<'_> {
    fn case(&mut self, kind: Kind) -> Outcome {
        match kind {
            Kind::Accepted => self.accepted(),
            Kind::Damaged(number) => {
                let personality = damaged(&mut self.rng, number);
                self.refused(&personality)
            }
            Kind::TwiceDamaged => {
                let personality = twice_damaged(&mut self.rng);
                self.refused(&personality)
            }
            Kind::Scrambled => {
                let personality = scrambled(&mut self.rng);
                self.refused(&personality)
            }
            Kind::OtherEdition => {
                let personality = other_edition(&mut self.rng);
                self.refused(&personality)
            }
            Kind::Run => self.run(),
            Kind::SingleSteps => self.single_steps(),
            Kind::InvalidState => self.invalid_states(),
            Kind::NoState => self.no_states(),
            Kind::StateLength => self.state_lengths(),
            Kind::UnknownInputs => self.unknown_inputs(),
            Kind::BufferLength => self.buffer_lengths(),
            Kind::ManyWrongs => self.many_wrongs(),
            Kind::Watched => self.watched(Among::Nothing),
            Kind::Road => self.roads(),
            Kind::DamagedRoad => self.damaged_roads(),
            Kind::RoadBuffers => self.road_buffers(),
            Kind::RoadWrongs => self.road_wrongs(),
            Kind::Cabinet => self.cabinet_lists(),
            Kind::CabinetRows => self.cabinet_rows(),
            Kind::CabinetBuffers => self.cabinet_buffers(),
            Kind::WatchedCabinet => self.watched_cabinet(),
            Kind::RetimedRun => self.retimed_run(),
            Kind::Retimings => self.retimings(),
            Kind::RetimedElsewhere => self.retimings_elsewhere(),
            Kind::RefusedSecond => self.refused_seconds(),
            Kind::BrokenTimes => self.broken_times(),
            Kind::RetimingWrongs => self.retiming_wrongs(),
            Kind::RetimedWatched => self.watched(Among::Retimings),
            Kind::WhyRun => self.why_run(),
            Kind::Whys => self.whys(),
            Kind::WhyWrongs => self.why_wrongs(),
            Kind::SealedRun => self.sealed_run(),
            Kind::Seals => self.seals(),
            Kind::SealWrongs => self.seal_wrongs(),
            Kind::DamagedSeals => self.damaged_seals(),
            Kind::OtherSeals => self.other_seals(),
            Kind::InvalidSeals => self.invalid_seals(),
            Kind::ResumeWrongs => self.resume_wrongs(),
            Kind::ResumedWatched => self.watched(Among::PowerDowns),
        }
    }

    fn accepted(&mut self) -> Outcome {
        let personality = Plan::random(&mut self.rng).bytes();
        self.reading(&personality)?;
        self.fresh(&personality, STATE_LEN)?;
        let mut state = fresh_bytes(&site_whole(&personality));
        self.step(&personality, &mut state, 0, 32)?;
        Ok(())
    }

    /// A personality likely to be refused: read, stepped and run with anything.
    fn refused(&mut self, personality: &[u8]) -> Outcome {
        self.reading(personality)?;
        self.fresh(personality, STATE_LEN)?;
        let other = Plan::random(&mut self.rng).bytes();
        let mut state = fresh_bytes(&site_whole(&other));
        let inputs = self.rng.draw();
        self.step(personality, &mut state, inputs, 32)?;
        self.retime(personality, &mut state, &other)?;
        self.why(personality, &state, inputs, 32)?;
        let sealed = self.seal(personality, &state, SEALED_LEN)?;
        self.resume(personality, &sealed, &mut state)?;
        let sealed = record_of(personality, &state);
        self.resume(personality, &sealed, &mut state)?;
        let length = self.rng.below(400);
        let mut state = self.rng.bytes(length);
        let colours_len = self.rng.below(40);
        self.fresh(personality, length)?;
        self.step(personality, &mut state, inputs, colours_len)?;
        self.retime(personality, &mut state, personality)?;
        self.why(personality, &state, inputs, colours_len)?;
        let length = self.rng.below(20);
        let road = RoadPlan {
            streams: self.rng.bytes(length),
            steps: inputs as u32,
        };
        let state = self.rng.bytes(STATE_LEN);
        self.road(personality, &road, &state, length)?;
        Ok(())
    }

    /// Steps one after the other, some of them refused.
    fn run(&mut self) -> Outcome {
        let personality = Plan::random(&mut self.rng).bytes();
        let site = site_whole(&personality);
        let strategy = self.rng.pick(&Strategy::ALL);
        let mut driver = Driver::new(strategy, &site, self.rng.clone());
        let mut state = fresh_bytes(&site);
        for _ in 0..400 {
            let before = TimedState::from_bytes(&state).expect("states of the model");
            let (inputs, length) = match self.rng.below(50) {
                0 => (any_inputs(&mut self.rng, &site), 32),
                1 => (0, self.rng.below(site.group_count())),
                _ => (driver.inputs(&site, &before.state), site.group_count()),
            };
            self.step(&personality, &mut state, inputs, length)?;
        }
        Ok(())
    }

    fn single_steps(&mut self) -> Outcome {
        self.on_site(30, |comparison, personality, site| {
            let mut state = valid_bytes(&mut comparison.rng, personality, site);
            let inputs = known_inputs(&mut comparison.rng, site);
            comparison.step(personality, &mut state, inputs, site.group_count())
        })
    }

    fn invalid_states(&mut self) -> Outcome {
        self.on_site(30, |comparison, personality, site| {
            let breakage = comparison.rng.pick(&Breakage::ALL);
            let Some(mut state) = invalid_bytes(&mut comparison.rng, personality, site, breakage)
            else {
                return Ok(0);
            };
            let inputs = known_inputs(&mut comparison.rng, site);
            comparison.step(personality, &mut state, inputs, site.group_count())
        })
    }

    /// Bytes broken on purpose, one random byte put in, or all random.
    fn no_states(&mut self) -> Outcome {
        self.on_site(30, |comparison, personality, site| {
            let mut state = match comparison.rng.below(4) {
                0 => broken_state_bytes(&mut comparison.rng, site),
                1 => comparison.rng.bytes(STATE_LEN),
                _ => {
                    let mut bytes = valid_bytes(&mut comparison.rng, personality, site);
                    bytes[comparison.rng.below(STATE_LEN)] =
                        comparison.rng.byte() & comparison.rng.byte();
                    bytes
                }
            };
            let inputs = known_inputs(&mut comparison.rng, site);
            comparison.step(personality, &mut state, inputs, 32)
        })
    }

    fn state_lengths(&mut self) -> Outcome {
        self.on_site(10, |comparison, personality, site| {
            let length = comparison.rng.below(700);
            comparison.fresh(personality, length)?;
            let mut state = valid_bytes(&mut comparison.rng, personality, site);
            let length = match comparison.rng.below(3) {
                0 => comparison
                    .rng
                    .pick(&[0, PLAIN_LEN, STATE_LEN - 1, STATE_LEN + 1]),
                _ => comparison.rng.below(700),
            };
            state.resize(length, 0);
            comparison.step(personality, &mut state, 0, 32)
        })
    }

    fn unknown_inputs(&mut self) -> Outcome {
        self.on_site(30, |comparison, personality, site| {
            let mut state = valid_bytes(&mut comparison.rng, personality, site);
            let inputs = unknown_inputs(&mut comparison.rng, site);
            comparison.step(personality, &mut state, inputs, site.group_count())
        })
    }

    fn buffer_lengths(&mut self) -> Outcome {
        self.on_site(30, |comparison, personality, site| {
            let mut state = valid_bytes(&mut comparison.rng, personality, site);
            let inputs = known_inputs(&mut comparison.rng, site);
            let groups = site.group_count();
            let anywhere = comparison.rng.below(80);
            let length = comparison
                .rng
                .pick(&[0, groups - 1, groups, groups + 1, anywhere]);
            comparison.step(personality, &mut state, inputs, length)
        })
    }

    /// A state that may be wrong, inputs that may be wrong, a buffer that may be
    /// short, on a personality that may be refused.
    fn many_wrongs(&mut self) -> Outcome {
        let twice = twice_damaged(&mut self.rng);
        self.on_site(30, |comparison, personality, site| {
            let rng = &mut comparison.rng;
            let breakage = rng.pick(&Breakage::ALL);
            let mut state = match invalid_bytes(rng, personality, site, breakage) {
                Some(state) if rng.percent(40) => state,
                _ => valid_bytes(rng, personality, site),
            };
            if rng.percent(10) {
                state.pop();
            }
            let inputs = any_inputs(rng, site);
            let length = rng.below(2 * site.group_count());
            let refused = rng.percent(20);
            let personality = if refused { &twice } else { personality };
            comparison.step(personality, &mut state, inputs, length)
        })
    }

    /// The board alone under the monitor.
    fn watched(&mut self, among: Among) -> Outcome {
        let personality = Plan::random(&mut self.rng).bytes();
        let site = site_whole(&personality);
        let strategy = self.rng.pick(&Strategy::ALL);
        let mut driver = Driver::new(strategy, &site, self.rng.clone());
        let rng = &mut self.rng;
        let watched = watch(among, self.board, &personality, &mut driver, rng, 1_000);
        match watched.expect("an accepted plan") {
            Ok(_) => Ok(()),
            Err(breach) => Err(Box::new(Difference::Breach {
                personality,
                breach,
            })),
        }
    }

    /// Accepted roads. The state buffer holds a valid state or any bytes, which do
    /// not matter, and the result buffer often has bytes to spare.
    fn roads(&mut self) -> Outcome {
        self.on_site(3, |comparison, personality, site| {
            let road = RoadPlan::random(&mut comparison.rng, site);
            let spare = comparison.rng.pick(&[0, 0, 1, 3, 4, 50]);
            let length = results_len(&road) + spare;
            let state = if comparison.rng.percent(50) {
                valid_bytes(&mut comparison.rng, personality, site)
            } else {
                comparison.rng.bytes(STATE_LEN)
            };
            comparison.road(personality, &road, &state, length)
        })
    }

    /// Roads refused with 22, each way in turn.
    fn damaged_roads(&mut self) -> Outcome {
        self.on_site(2, |comparison, personality, site| {
            let mut last = 0;
            for damage in RoadDamage::ALL {
                let mut road = RoadPlan::random(&mut comparison.rng, site);
                if road.damage(&mut comparison.rng, site, damage).is_some() {
                    let length = results_len(&road);
                    let state = comparison.rng.bytes(STATE_LEN);
                    last = comparison.road(personality, &road, &state, length)?;
                }
            }
            Ok(last)
        })
    }

    /// Short accepted roads into buffers of any length.
    fn road_buffers(&mut self) -> Outcome {
        self.on_site(20, |comparison, personality, site| {
            let rng = &mut comparison.rng;
            let mut road = RoadPlan::random(rng, site);
            road.steps %= 100;
            let needed = results_len(&road);
            let anywhere = rng.below(700);
            let state_len = match rng.below(3) {
                0 => rng.pick(&[0, STATE_LEN - 1, STATE_LEN + 1, anywhere]),
                _ => STATE_LEN,
            };
            let anywhere = rng.below(250);
            let length = rng.pick(&[0, needed.saturating_sub(1), needed, needed + 1, anywhere]);
            let state = rng.bytes(state_len);
            comparison.road(personality, &road, &state, length)
        })
    }

    /// A road that may be damaged once or twice, buffers that may be wrong, on a
    /// personality that may be refused.
    fn road_wrongs(&mut self) -> Outcome {
        let twice = twice_damaged(&mut self.rng);
        self.on_site(20, |comparison, personality, site| {
            let rng = &mut comparison.rng;
            let mut road = RoadPlan::random(rng, site);
            road.steps %= 100;
            for _ in 0..rng.below(3) {
                let damage = rng.pick(&RoadDamage::ALL);
                // A site without the means stays undamaged.
                let _ = road.damage(rng, site, damage);
            }
            if rng.percent(10) {
                let length = rng.below(250);
                road.streams = rng.bytes(length);
            }
            let state_len = rng.pick(&[STATE_LEN, STATE_LEN, STATE_LEN + 1, 0]);
            let needed = results_len(&road);
            let length = rng.pick(&[needed, needed, needed.saturating_sub(1), 0]);
            let refused = rng.percent(25);
            let personality = if refused { &twice } else { personality };
            let state = rng.bytes(state_len);
            comparison.road(personality, &road, &state, length)
        })
    }

    /// A list of calls on a cabinet whose records are free at first, with retimings of
    /// its sites among them. A few get an output buffer that is too short.
    fn cabinet_lists(&mut self) -> Outcome {
        let mut row = [[0; RECORD_LEN]; RECORDS];
        let spare = self.rng.pick(&[0, 0, 1, 20]);
        let mut outputs = self.rng.bytes(OUTPUTS + spare);
        for _ in 0..60 {
            let records = records_in(&row).expect("a whole row");
            let call = CabinetCall::random(&mut self.rng, &records);
            let length = match self.rng.percent(3) {
                true => self.rng.below(OUTPUTS),
                false => outputs.len(),
            };
            self.cabinet(&mut row, &call, &mut outputs[..length])?;
        }
        Ok(())
    }

    /// Calls on rows of any content, each on the row as it was.
    fn cabinet_rows(&mut self) -> Outcome {
        for _ in 0..4 {
            let records = any_records(&mut self.rng);
            for _ in 0..10 {
                let call = CabinetCall::random(&mut self.rng, &records);
                let anywhere = self.rng.below(2 * OUTPUTS);
                let length = self.rng.pick(&[OUTPUTS, OUTPUTS, OUTPUTS + 1, anywhere]);
                let mut outputs = self.rng.bytes(length);
                let mut row = records.each_ref().map(Record::to_bytes);
                self.cabinet(&mut row, &call, &mut outputs)?;
            }
        }
        Ok(())
    }

    /// Calls on rows that may have too few records or too many, with buffers that may be
    /// too short or too long.
    fn cabinet_buffers(&mut self) -> Outcome {
        for _ in 0..20 {
            let records = any_records(&mut self.rng);
            let call = CabinetCall::random_of_cabinet(&mut self.rng, &records);
            let rng = &mut self.rng;
            let any = rng.below(3 * RECORDS);
            let count = rng.pick(&[RECORDS, RECORDS, RECORDS - 1, RECORDS + 1, 0, any]);
            let row = records.iter().map(Record::to_bytes).cycle().take(count);
            let mut row: Vec<RecordBytes> = row.collect();
            let anywhere = rng.below(80);
            let length = rng.pick(&[0, OUTPUTS - 1, OUTPUTS, OUTPUTS + 1, anywhere]);
            let mut outputs = rng.bytes(length);
            self.cabinet(&mut row, &call, &mut outputs)?;
        }
        Ok(())
    }

    /// The board alone with several sites in a cabinet, under a monitor each.
    fn watched_cabinet(&mut self) -> Outcome {
        let most = self.rng.pick(&[4, 8, 8, 10]);
        let count = self.rng.range(1, RECORDS.min(OUTPUTS / most));
        let sites = (0..count).map(|_| Plan::small(&mut self.rng, most).bytes());
        let sites: Vec<Vec<u8>> = sites.collect();
        let watched = watch_cabinet(self.board, &sites, &mut self.rng, 1_000);
        watched.map(|_| ()).map_err(|(site, breach)| {
            Box::new(Difference::Breach {
                personality: sites[site].clone(),
                breach,
            })
        })
    }

    /// Some calls on one random accepted site.
    pub(crate) fn on_site(
        &mut self,
        calls: usize,
        call: impl Fn(&mut Self, &[u8], &Site) -> Result<u64, Box<Difference>>,
    ) -> Outcome {
        let personality = Plan::random(&mut self.rng).bytes();
        let site = site_whole(&personality);
        for _ in 0..calls {
            call(self, &personality, &site)?;
        }
        Ok(())
    }
}

/// The bytes that the results of a road take.
fn results_len(road: &RoadPlan) -> usize {
    road.streams.len() / STREAM_LEN * RESULT_LEN
}

/// The bytes of the fresh state.
pub(crate) fn fresh_bytes(site: &Site) -> Vec<u8> {
    TimedState::fresh(site).to_bytes().to_vec()
}

/// The bytes of a random valid state.
pub(crate) fn valid_bytes(rng: &mut Rng, personality: &[u8], site: &Site) -> Vec<u8> {
    valid_timed_state(rng, personality, site)
        .to_bytes()
        .to_vec()
}

/// The bytes of a random state that breaks a rule by the times that rule; none where
/// the site has nothing to break so.
pub(crate) fn invalid_bytes(
    rng: &mut Rng,
    personality: &[u8],
    site: &Site,
    breakage: Breakage,
) -> Option<Vec<u8>> {
    let timed = invalid_timed_state(rng, personality, site, breakage)?;
    Some(timed.to_bytes().to_vec())
}

pub(crate) fn site_whole(personality: &[u8]) -> Site<'_> {
    Site::read(personality).expect("an accepted plan")
}

#[cfg(test)]
mod tests {
    use super::*;
    use generate::AIMED;

    #[test]
    fn every_refusal_of_a_personality_has_its_cases() {
        for number in AIMED {
            assert!(TURNS.contains(&Kind::Damaged(number)));
        }
    }
}
