//! `waits`: the wait of each phase and of each movement, and the wait bound, each with its
//! parts; the phases before one's own.

use crate::check::bound_of;
use crate::load::{accepted, Loaded};
use crate::out::{print_json, value, Out, Stop};
use clap::ArgMatches;
use serde_json::json;
use site::waits::{parts, Wait};
use site::{letter, seconds, Phase, Setting, Site};

/// What the bound counts, for whoever reads it.
pub const COUNTS: &str =
    "From the step that registers a locked demand or a button demand, the minimum green or the walk begins \
     within this many accepted steps. A call without lock that drops away, and a vehicle behind a queue, are not counted.";

/// What the waits of phases and movements count.
pub const OWN_COUNTS: &str =
    "A demand of a phase that lasts (a lock, a call without lock that is held, a button) has its minimum green, and a button its walk, \
     in the step that registers it or in fewer further steps than this.";

/// The wait of each phase, then of each movement, with what it is made of. The numbers are
/// the library's; the parts, from the settings of the text, must add up to them.
pub fn own_waits(loaded: &Loaded) -> Result<Vec<Wait>, Stop> {
    let told = willowera::waits(loaded.bytes()).expect("an accepted personality has its waits");
    let told: Vec<u64> = told
        .phases
        .iter()
        .chain(&told.movements)
        .map(|wait| u64::from(*wait))
        .collect();
    let waits = site::waits::waits(&loaded.site);
    let sums: Vec<u64> = waits.iter().map(Wait::steps).collect();
    if sums == told {
        return Ok(waits);
    }
    let why = format!("the parts of the waits add up to {sums:?}, the library gives {told:?}");
    Err(Stop::Unusable(why))
}

/// The parts of a phase in the bound: L + M + X + 2 (A + E + Y + R + C).
pub struct Share {
    pub phase: usize,
    /// L, M, X, A, E, Y, R and C in steps.
    pub parts: [u64; 8],
}

pub const PARTS: [&str; 8] = ["L", "M", "X", "A", "E", "Y", "R", "C"];

impl Share {
    pub fn sum(&self) -> u64 {
        let (once, twice) = self.parts.split_at(3);
        once.iter().sum::<u64>() + 2 * twice.iter().sum::<u64>()
    }
}

/// The parts of each phase, from the settings of the text. They must add up to the
/// library's bound.
pub fn shares(loaded: &Loaded) -> Result<Vec<Share>, Stop> {
    let phases = loaded.site.phases.iter().enumerate();
    let shares: Vec<Share> = phases
        .map(|(at, phase)| share(&loaded.site, at, phase))
        .collect();
    let start = u64::from(loaded.site.start_red.steps);
    let (sum, bound) = (
        start + shares.iter().map(Share::sum).sum::<u64>(),
        bound_of(loaded),
    );
    if sum == bound {
        return Ok(shares);
    }
    let why = format!("the parts of the wait bound add up to {sum}, the library gives {bound}");
    Err(Stop::Unusable(why))
}

fn share(site: &Site, phase: usize, row: &Phase) -> Share {
    let steps = |setting| u64::from(row.steps(setting));
    let walks = site
        .movements_of(phase)
        .map(|one| one.times.map(|time| u64::from(time.steps)));
    let walks: Vec<[u64; 3]> = walks.collect();
    let longest = |of: fn(&[u64; 3]) -> u64| walks.iter().map(of).max().unwrap_or(0);
    Share {
        phase,
        parts: [
            steps(Setting::LATE_START),
            steps(Setting::MINIMUM_GREEN),
            steps(Setting::MAXIMUM_GREEN),
            longest(|times| times[0] + times[1]),
            site.early_steps(phase).into(),
            steps(Setting::YELLOW),
            steps(Setting::ALL_RED),
            longest(|times| times[2]),
        ],
    }
}

/// The phases that can come before one's own, in running order.
pub fn before(loaded: &Loaded, phase: usize) -> Vec<char> {
    let others = loaded.site.phases_before(phase).into_iter();
    others.map(letter).collect()
}

pub fn waits(out: &Out, matches: &ArgMatches) -> Result<(), Stop> {
    let path: &String = matches.get_one("SITE").expect("required");
    let loaded = accepted(out, path)?;
    let (bound, shares) = (bound_of(&loaded), shares(&loaded)?);
    let own = own_waits(&loaded)?;
    let start = u64::from(loaded.site.start_red.steps);
    if out.json {
        let phase = |share: &Share| {
            json!({"phase": letter(share.phase).to_string(), "share": share.sum(), "parts": share.parts,
                   "before": before(&loaded, share.phase).iter().collect::<String>()})
        };
        print_json(
            &json!({"waitBound": bound, "startRed": start, "parts": PARTS,
                           "phases": shares.iter().map(phase).collect::<Vec<_>>(), "counts": COUNTS,
                           "waits": own_json(&own), "waitsCount": OWN_COUNTS}),
        );
        return Ok(());
    }
    print_own(&own);
    say!("wait bound {} ({bound} steps)\n{COUNTS}\n", seconds(bound));
    say!("It is start red, and for each phase L + M + X + 2 (A + E + Y + R + C). A is the longest walk with its first");
    say!("clearance, C the longest second clearance. In seconds:\n");
    let head: String = PARTS.iter().map(|part| format!("{part:>7}")).collect();
    say!("phase    {head}   share   phases that may come first, each once");
    say!("start red{:>64.1}", start as f64 / 10.0);
    for share in &shares {
        let parts = share
            .parts
            .iter()
            .map(|part| format!("{:>7.1}", *part as f64 / 10.0));
        let parts: String = parts.collect();
        let first: Vec<String> = before(&loaded, share.phase)
            .iter()
            .map(char::to_string)
            .collect();
        say!(
            "{:<9}{parts}{:>8.1}   {}",
            letter(share.phase),
            share.sum() as f64 / 10.0,
            first.join(" ")
        );
    }
    say!("{:<65}{:>8.1}", "sum", bound as f64 / 10.0);
    Ok(())
}

fn own_json(own: &[Wait]) -> serde_json::Value {
    let mut list = value(&site::json::waits(own));
    for (json, wait) in list.as_array_mut().into_iter().flatten().zip(own) {
        json["wait"] = wait.steps().into();
    }
    list
}

fn print_own(own: &[Wait]) {
    say!("waits\n{OWN_COUNTS}\n");
    say!("who          wait  made of, in seconds");
    for wait in own {
        let steps = wait.steps() as f64 / 10.0;
        say!("{:<10}{steps:>7.1}  {}", wait.who, wait.words());
    }
    say!("");
    for part in parts(own) {
        let steps = part.steps() as f64 / 10.0;
        say!("{}: {steps:.1} = {}", part.what, part.words());
    }
    say!("");
}

#[cfg(test)]
mod tests {
    use super::*;

    /// Parts that do not add up to the numbers of the library are never shown.
    #[test]
    fn parts_that_do_not_add_up_stop() {
        let path = concat!(
            env!("CARGO_MANIFEST_DIR"),
            "/../examples/four_arms/site.txt"
        );
        let mut loaded = accepted(&Out::new(false), path).unwrap();
        assert!(own_waits(&loaded).is_ok());
        // One step more of M of A, then of X, in the bytes than in the text.
        for time in [14, 16] {
            loaded.built.bytes[time] += 1;
            assert!(willowera::read(loaded.bytes()).is_ok());
            match own_waits(&loaded) {
                Err(Stop::Unusable(why)) => assert!(why.contains("the library gives"), "{why}"),
                other => panic!("{}", other.is_ok()),
            }
            loaded.built.bytes[time] -= 1;
        }
    }
}
