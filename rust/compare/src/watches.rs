//! Watched runs under every strategy and in cabinets, and what they show.

use drive::{watch, watch_cabinet, Among, Driver, Report, Strategy};
use generate::{Plan, Rng};
use model::packed::Board;
use model::{Site, OUTPUTS, RECORDS};
use monitor::Breach;
use std::fmt;

/// What the runs of one strategy, or in cabinets, have shown together.
#[derive(Clone, Debug)]
pub struct Watched {
    pub name: String,
    pub runs: u64,
    pub accepted: u64,
    pub refused: u64,
    pub green_starts: u64,
    pub demands_met: u64,
    /// Demands that waited when their run ended.
    pub demands_left: u64,
    /// Runs of at least twice the wait bound of their site, and those of them with a bound above
    /// the calls of most runs.
    pub long_runs: u64,
    pub patient_runs: u64,
    pub retimings: u64,
    pub changes: u64,
    pub power_downs: u64,
    /// Most phases that started while a demand waited.
    pub most_starts: u32,
    /// The longest wait as a part of what it was allowed: by the wait bound, and by the
    /// wait of its own phase or movement.
    pub nearest: f64,
    pub nearest_own: f64,
}

/// Calls of one run before the next site, unless it is a long one.
const RUN: u64 = 4_000;

/// The calls of a long run. It has at least twice as many accepted steps as the wait bound, so
/// that a demand of its first half that is never met is found; some calls are no accepted steps.
/// At a site with a bound above 24,000 steps it is shorter.
fn long_run(bound: u64) -> u64 {
    (bound * 5 / 2).clamp(RUN, 60_000)
}

/// Watches a board for about so many steps, shared among the strategies and the
/// cabinets. The first runs of a strategy are on the junction of two phases and
/// the largest site. Of three runs of a strategy one has retimings in it and one times
/// without power, and some sites of a cabinet are retimed. A third of the steps of a strategy
/// are in long runs.
pub fn run_watches(
    board: &dyn Board,
    seed: u64,
    steps: u64,
) -> Result<Vec<Watched>, (Vec<u8>, Breach)> {
    let share = (steps / (Strategy::ALL.len() as u64 + 1)).max(1);
    let mut all = Vec::new();
    for (index, strategy) in Strategy::ALL.into_iter().enumerate() {
        let rng = Rng::of_case(seed, index as u64);
        all.push(run_strategy(board, strategy, rng, share)?);
    }
    let rng = Rng::of_case(seed, Strategy::ALL.len() as u64);
    all.push(run_cabinets(board, rng, share)?);
    Ok(all)
}

/// Runs of four sites in a cabinet, each under strategies of its own.
fn run_cabinets(board: &dyn Board, mut rng: Rng, steps: u64) -> Result<Watched, (Vec<u8>, Breach)> {
    let mut watched = Watched::new("Cabinet".to_string());
    let mut left = steps;
    while left > 0 {
        let calls = left.min(RUN);
        let sites = [(); RECORDS].map(|()| Plan::small(&mut rng, OUTPUTS / RECORDS).bytes());
        let reports = watch_cabinet(board, &sites, &mut rng, calls);
        let reports = reports.map_err(|(site, breach)| (sites[site].clone(), breach))?;
        reports.iter().for_each(|report| watched.add(report));
        left -= calls;
    }
    Ok(watched)
}

fn run_strategy(
    board: &dyn Board,
    strategy: Strategy,
    mut rng: Rng,
    steps: u64,
) -> Result<Watched, (Vec<u8>, Breach)> {
    let mut watched = Watched::new(format!("{strategy:?}"));
    let mut left = steps;
    let mut in_long_runs = 0;
    while left > 0 {
        let plan = match watched.runs {
            0 | 4 | 5 => Plan::junction(),
            1..=3 => Plan::largest(),
            _ => Plan::random(&mut rng),
        };
        let among = match watched.runs % 3 {
            0 => Among::Nothing,
            1 => Among::Retimings,
            _ => Among::PowerDowns,
        };
        let personality = plan.bytes();
        let site = Site::read(&personality).expect("an accepted plan");
        let calls = match 3 * in_long_runs < steps - left {
            true => long_run(site.wait_bound().into()).min(left),
            false => RUN.min(left),
        };
        if calls > RUN {
            in_long_runs += calls;
        }
        let mut driver = Driver::new(strategy, &site, rng.clone());
        let report = watch(among, board, &personality, &mut driver, &mut rng, calls);
        match report.expect("an accepted plan") {
            Ok(report) => watched.add(&report),
            Err(breach) => return Err((personality, breach)),
        }
        left -= calls;
    }
    Ok(watched)
}

impl Watched {
    fn new(name: String) -> Watched {
        Watched {
            name,
            runs: 0,
            accepted: 0,
            refused: 0,
            green_starts: 0,
            demands_met: 0,
            demands_left: 0,
            long_runs: 0,
            patient_runs: 0,
            retimings: 0,
            changes: 0,
            power_downs: 0,
            most_starts: 0,
            nearest: 0.0,
            nearest_own: 0.0,
        }
    }

    fn add(&mut self, report: &Report) {
        self.runs += 1;
        self.accepted += report.accepted;
        self.refused += report.refused;
        self.green_starts += report.green_starts;
        self.demands_met += report.demands_met;
        self.demands_left += report.demands_left;
        self.long_runs += report.long_runs;
        if report.bound > RUN {
            self.patient_runs += report.long_runs;
        }
        self.retimings += report.retimings;
        self.changes += report.changes;
        self.power_downs += report.power_downs;
        self.most_starts = self.most_starts.max(report.most_starts);
        let (waited, allowed) = report.nearest_wait;
        self.nearest = self.nearest.max(waited as f64 / allowed as f64);
        let (waited, wait) = report.nearest_own_wait;
        self.nearest_own = self.nearest_own.max(waited as f64 / wait as f64);
    }
}

impl fmt::Display for Watched {
    fn fmt(&self, f: &mut fmt::Formatter<'_>) -> fmt::Result {
        write!(
            f,
            "{:8} {:>5} runs, {:>3} of them of twice the wait bound or more ({:>2} of a bound above {RUN}), \
             {:>9} steps, {:>7} refused calls, {:>7} greens begun, {:>7} demands met and {:>4} still waiting \
             at the end of their run, {:>6} retimings, {:>5} changes, {:>6} times without power, \
             longest wait {:.2} of its bound and {:.3} of its own wait, {} phases started in a wait",
            self.name,
            self.runs,
            self.long_runs,
            self.patient_runs,
            self.accepted,
            self.refused,
            self.green_starts,
            self.demands_met,
            self.demands_left,
            self.retimings,
            self.changes,
            self.power_downs,
            self.nearest,
            self.nearest_own,
            self.most_starts
        )
    }
}
