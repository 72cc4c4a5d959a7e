//! `watch`: random and adversarial inputs against the library, under the monitor of
//! demand 3.

use crate::check::bound_of;
use crate::demands::{Demand, Waiting, Who};
use crate::load::accepted;
use crate::out::{print_json, Out, Stop};
use crate::road::progress;
use crate::waits::own_waits;
use clap::ArgMatches;
use compare::Library;
use drive::{Driver, Strategy};
use generate::Rng;
use model::packed::Board;
use model::TimedState;
use monitor::{Monitor, Seen};
use serde_json::json;
use site::seconds;
use site::waits::Wait;
use std::sync::atomic::{AtomicBool, Ordering};
use std::sync::Arc;
use willowera::{Fields, STATE_LEN};

/// The steps of a run before the next strategy, from the fresh state.
const RUN: u64 = 4_000;

/// The longest wait of somebody, and the strategy that made it.
#[derive(Clone, Copy)]
struct Longest {
    who: Who,
    wait: u64,
    met: u64,
    strategy: Option<Strategy>,
}

/// What was seen so far.
struct Seeing {
    longest: Vec<Longest>,
    steps: u64,
    greens: u64,
    most_starts: u32,
}

impl Seeing {
    fn new(phases: usize, movements: usize) -> Seeing {
        let everybody = (0..phases)
            .map(Who::Phase)
            .chain((0..movements).map(Who::Movement));
        let none = |who| Longest {
            who,
            wait: 0,
            met: 0,
            strategy: None,
        };
        Seeing {
            longest: everybody.map(none).collect(),
            steps: 0,
            greens: 0,
            most_starts: 0,
        }
    }

    fn met(&mut self, demand: &Demand, strategy: Strategy) {
        let own = self.longest.iter_mut().find(|one| one.who == demand.who);
        if let (Some(own), Some(waited)) = (own, demand.waited()) {
            own.met += 1;
            if waited > own.wait || own.strategy.is_none() {
                own.wait = waited;
                own.strategy = Some(strategy);
            }
        }
    }
}

/// One run of a strategy; a breach in words.
fn watch_run(
    personality: &[u8],
    strategy: Strategy,
    rng: Rng,
    steps: u64,
    seeing: &mut Seeing,
) -> Result<(), String> {
    let site = model::Site::read(personality).map_err(|refusal| format!("{refusal:?}"))?;
    let mut driver = Driver::new(strategy, &site, rng);
    let mut monitor = Monitor::new(personality);
    let mut waiting = Waiting::new(site.phase_count(), site.movement_count());
    let mut state = [0; STATE_LEN];
    if Library.fresh(personality, &mut state) != 0 {
        return Err("the fresh state is refused".to_string());
    }
    let in_words = |breach: monitor::Breach| breach.to_string();
    monitor.begins_with(&state).map_err(in_words)?;
    for step in 1..=steps {
        let before = state;
        let decoded = TimedState::from_bytes(&before).ok_or("no state is handed back")?;
        let inputs = driver.inputs(&site, &decoded.state);
        let mut colours = vec![0xEE; site.group_count()];
        let answer = Library.step(personality, &mut state, inputs, &mut colours);
        if answer as u8 != 0 {
            return Err(format!("step {step}: refused with {}", answer as u8));
        }
        let seen = Seen {
            before: &before,
            inputs,
            after: &state,
            colours: &colours,
            wait: answer >> 8,
        };
        monitor.accepted_step(&seen).map_err(in_words)?;
        for demand in waiting.step(step, &Fields::of(&state)) {
            seeing.met(&demand, strategy);
        }
    }
    seeing.steps += steps;
    seeing.greens += monitor.green_starts();
    seeing.most_starts = seeing.most_starts.max(monitor.most_starts());
    Ok(())
}

pub fn watch(out: &Out, matches: &ArgMatches) -> Result<(), Stop> {
    let path: &String = matches.get_one("SITE").expect("required");
    let loaded = accepted(out, path)?;
    let own = own_waits(&loaded)?;
    let [steps, seed] =
        ["steps", "seed"].map(|name| *matches.get_one::<u64>(name).expect("a default"));
    let stopped = Arc::new(AtomicBool::new(false));
    let flag = Arc::clone(&stopped);
    ctrlc::set_handler(move || flag.store(true, Ordering::SeqCst))
        .map_err(|why| Stop::Unusable(format!("cannot watch for Ctrl-C: {why}")))?;
    let mut seeing = Seeing::new(loaded.site.phases.len(), loaded.site.movements.len());
    let bar = progress(steps, "watch");
    let mut breach = None;
    let mut run = 0;
    while seeing.steps < steps && breach.is_none() && !stopped.load(Ordering::SeqCst) {
        let strategy = Strategy::ALL[run as usize % Strategy::ALL.len()];
        let length = RUN.min(steps - seeing.steps);
        let told = watch_run(
            loaded.bytes(),
            strategy,
            Rng::of_case(seed, run),
            length,
            &mut seeing,
        );
        breach = told
            .err()
            .map(|what| format!("{what} (seed {seed}, run {run}, {strategy:?})"));
        bar.set_position(seeing.steps);
        run += 1;
    }
    bar.finish_and_clear();
    let stopped = stopped.load(Ordering::SeqCst);
    print(
        out,
        bound_of(&loaded),
        &own,
        &seeing,
        breach.as_deref(),
        stopped,
    );
    breach.map_or(Ok(()), |_| Err(Stop::Refused))
}

/// What was seen of everybody, in the order of their own waits.
fn print(
    out: &Out,
    bound: u64,
    own: &[Wait],
    seeing: &Seeing,
    breach: Option<&str>,
    stopped: bool,
) {
    let rows = || seeing.longest.iter().zip(own);
    let made_it = |one: &Longest| one.strategy.map(|strategy| format!("{strategy:?}"));
    if out.json {
        let row = |(one, own): (&Longest, &Wait)| json!({"who": own.who, "longest": one.wait, "wait": own.steps(), "met": one.met, "strategy": made_it(one)});
        print_json(&json!({
            "steps": seeing.steps, "greens": seeing.greens, "waitBound": bound, "breach": breach, "stopped": stopped,
            "mostStarts": seeing.most_starts, "waits": rows().map(row).collect::<Vec<_>>(),
        }));
        return;
    }
    let end = if stopped { ", stopped by Ctrl-C" } else { "" };
    say!(
        "{} steps{end}, {} greens begun, at most {} phases started while a demand waited",
        seeing.steps,
        seeing.greens,
        seeing.most_starts
    );
    match breach {
        Some(breach) => say!("{}: {breach}", out.paint("31;1", "breach")),
        None => say!(
            "{}: no conflicting greens, full clearances, every demand within its wait",
            out.good("no breach")
        ),
    }
    say!("\nwho       demands met  longest seen    its wait  part  inputs that made it");
    for (one, own) in rows() {
        let longest = match one.met {
            0 => "-".to_string(),
            _ => seconds(one.wait),
        };
        say!(
            "{:<10}{:>11}  {longest:>12}  {:>10}  {:.2}  {}",
            own.who,
            one.met,
            seconds(own.steps()),
            one.wait as f64 / own.steps() as f64,
            made_it(one).unwrap_or("-".to_string())
        );
    }
    say!("\nthe bound of the whole site is {}", seconds(bound));
}
