//! Taking times.

use std::time::Instant;

/// Calls timed together in one round: few enough that most rounds run without
/// an interruption.
const CALLS: usize = 1_000;

/// Something timed: done once a call, with the number of the call.
pub type Work<'a> = Box<dyn FnMut(usize) + 'a>;

/// The time of one call over several rounds, in ns.
pub struct Time {
    pub median: f64,
    pub best: f64,
    rounds: Vec<f64>,
}

/// The times of several works. Each round times all of them, one after the
/// other, so that they share what else the machine does.
pub fn times_of(rounds: usize, works: Vec<Work>) -> Vec<Time> {
    times_of_calls(rounds, CALLS, works)
}

/// The times of several works that take long, so that a round is one call of each.
pub fn times_of_long(rounds: usize, works: Vec<Work>) -> Vec<Time> {
    times_of_calls(rounds, 1, works)
}

fn times_of_calls(rounds: usize, calls: usize, mut works: Vec<Work>) -> Vec<Time> {
    let mut times = vec![Vec::new(); works.len()];
    for round in 0..=rounds {
        for (work, times) in works.iter_mut().zip(&mut times) {
            let time = round_ns(round * calls, calls, work);
            // The first round only warms up.
            if round > 0 {
                times.push(time);
            }
        }
    }
    times.into_iter().map(Time::of).collect()
}

fn round_ns(first: usize, calls: usize, work: &mut Work) -> f64 {
    let start = Instant::now();
    (first..first + calls).for_each(work);
    start.elapsed().as_nanos() as f64 / calls as f64
}

impl Time {
    fn of(rounds: Vec<f64>) -> Time {
        Time {
            median: median(rounds.clone()),
            best: rounds.iter().copied().fold(f64::INFINITY, f64::min),
            rounds,
        }
    }

    /// How many times as long as the other one: the median over the rounds, in
    /// each of which both were timed, one straight after the other.
    pub fn over(&self, other: &Time) -> f64 {
        median(
            self.rounds
                .iter()
                .zip(&other.rounds)
                .map(|(one, other)| one / other)
                .collect(),
        )
    }

    /// The same as text, with the ratio of the best rounds behind it.
    pub fn ratio(&self, other: &Time) -> String {
        let (median, best) = (self.over(other), self.best / other.best);
        format!("{median:.2} ({best:.2})")
    }
}

fn median(mut values: Vec<f64>) -> f64 {
    values.sort_by(f64::total_cmp);
    values[values.len() / 2]
}

/// The longest single calls seen, in ns, the clock's own time in them.
#[derive(Clone, Copy)]
pub struct Longest {
    /// Of all calls, interruptions by the machine in them.
    pub seen: u64,
    /// Of the calls at the best of their passes, which leaves interruptions out.
    pub repeated: u64,
}

/// Passes over the same calls.
const PASSES: usize = 9;

/// The longest of so many calls. Every pass starts its work anew, so that a call
/// of one number does the same in each.
pub fn longest_ns<'a>(calls: usize, work: impl Fn() -> Work<'a>) -> Longest {
    let mut best = vec![u64::MAX; calls];
    let mut seen = 0;
    for _ in 0..PASSES {
        let mut work = work();
        for (call, best) in best.iter_mut().enumerate() {
            let start = Instant::now();
            work(call);
            let time = start.elapsed().as_nanos() as u64;
            seen = seen.max(time);
            *best = time.min(*best);
        }
    }
    let repeated = best.into_iter().max().unwrap_or(0);
    Longest { seen, repeated }
}
