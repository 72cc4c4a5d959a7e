//! What the wait of each phase and of each movement is made of (docs/RULES.md, R22), in the
//! words of the text. The library has the waits themselves; whoever shows these parts must
//! compare their sums with its numbers.

use crate::site::{letter, Setting, Site};

/// A time that counts, and its steps.
#[derive(Clone, Debug, PartialEq, Eq)]
pub struct Term {
    pub name: String,
    pub steps: u64,
}

/// A part of a wait: what passes, and the times that it takes.
#[derive(Clone, Debug, PartialEq, Eq)]
pub struct Part {
    pub what: String,
    pub terms: Vec<Term>,
}

/// Who waits, and the parts of the wait.
#[derive(Clone, Debug, PartialEq, Eq)]
pub struct Wait {
    /// `phase A`, or the group of the movement.
    pub who: String,
    pub parts: Vec<Part>,
}

impl Part {
    pub fn steps(&self) -> u64 {
        self.terms.iter().map(|term| term.steps).sum()
    }

    /// The times in seconds, such as `Y 3.0 + R 1.0`.
    pub fn words(&self) -> String {
        summed(self.terms.iter().map(|term| (&term.name, term.steps)))
    }
}

impl Wait {
    pub fn steps(&self) -> u64 {
        self.parts.iter().map(Part::steps).sum()
    }

    /// The parts in seconds, such as `A is left 4.0 + turn of B 20.0`.
    pub fn words(&self) -> String {
        summed(self.parts.iter().map(|part| (&part.what, part.steps())))
    }
}

fn summed<'a>(parts: impl Iterator<Item = (&'a String, u64)>) -> String {
    let words = parts.map(|(name, steps)| format!("{name} {}.{}", steps / 10, steps % 10));
    words.collect::<Vec<String>>().join(" + ")
}

/// The parts of some waits, each once, in the order in which they come.
pub fn parts(waits: &[Wait]) -> Vec<&Part> {
    let mut list: Vec<&Part> = Vec::new();
    for part in waits.iter().flat_map(|wait| &wait.parts) {
        if !list.contains(&part) {
            list.push(part);
        }
    }
    list
}

/// The waits of the phases, then of the movements.
pub fn waits(site: &Site) -> Vec<Wait> {
    let phases = 0..site.phases.len();
    let phase = |phase: usize| {
        let late = site.phases[phase].steps(Setting::LATE_START);
        let own = format!("late start of {}", letter(phase));
        let late = (late > 0).then(|| part(own, vec![term("L", late)]));
        let parts = std::iter::once(first(site, phase)).chain(turns(site, phase));
        Wait {
            who: format!("phase {}", letter(phase)),
            parts: parts.chain(late).collect(),
        }
    };
    let movement = |movement: usize| {
        let group = &site.groups[site.movements[movement].group];
        let phase = group.phases.trailing_zeros() as usize;
        let before = longest(first(site, phase), [own(site, phase, movement)]);
        Wait {
            who: group.name.clone(),
            parts: std::iter::once(before).chain(turns(site, phase)).collect(),
        }
    };
    let movements = (0..site.movements.len()).map(movement);
    phases.map(phase).chain(movements).collect()
}

fn part(what: impl Into<String>, terms: Vec<Term>) -> Part {
    Part {
        what: what.into(),
        terms,
    }
}

fn term(name: impl Into<String>, steps: u16) -> Term {
    Term {
        name: name.into(),
        steps: steps.into(),
    }
}

/// The first of the longest.
fn longest(first: Part, others: impl IntoIterator<Item = Part>) -> Part {
    let longer = |one: Part, other: Part| {
        if other.steps() > one.steps() {
            other
        } else {
            one
        }
    };
    others.into_iter().fold(first, longer)
}

/// Times of a phase; those of 0 steps are left out.
fn times(site: &Site, phase: usize, settings: &[Setting]) -> Vec<Term> {
    let time = |setting: &Setting| match *setting {
        Setting::EARLY_CUT_OFF => term("E", site.early_steps(phase)),
        setting => {
            let phase = site.phases.get(phase);
            term(
                setting.symbol(),
                phase.map_or(0, |phase| phase.steps(setting)),
            )
        }
    };
    settings
        .iter()
        .map(time)
        .filter(|one| one.steps > 0)
        .collect()
}

fn green(site: &Site, phase: usize) -> Vec<Term> {
    use Setting as S;
    times(
        site,
        phase,
        &[S::LATE_START, S::MINIMUM_GREEN, S::MAXIMUM_GREEN],
    )
}

fn leaving(site: &Site, phase: usize) -> Vec<Term> {
    use Setting as S;
    times(site, phase, &[S::EARLY_CUT_OFF, S::YELLOW, S::ALL_RED])
}

/// Walk, first and second clearance of a movement.
fn walk(site: &Site, movement: usize) -> [Term; 3] {
    let one = &site.movements[movement];
    let name = &site.groups[one.group].name;
    [(0, "W"), (1, "C1"), (2, "C2")]
        .map(|(at, time)| term(format!("{time} of {name}"), one.times[at].steps))
}

/// The movements of a phase, by number.
fn movements(site: &Site, phase: usize) -> impl Iterator<Item = usize> + '_ {
    let of = move |at: &usize| site.groups[site.movements[*at].group].in_phase(phase);
    (0..site.movements.len()).filter(of)
}

/// One turn of each other phase, in the order in which they may come.
fn turns(site: &Site, phase: usize) -> Vec<Part> {
    let turn = |other: usize| ending(site, other, None, (&green(site, other), &[]));
    let others = site.phases_before(phase).into_iter();
    others
        .map(|other| part(format!("turn of {}", letter(other)), turn(other).terms))
        .collect()
}

/// What may be under way when a demand of a phase comes: start red, or the leaving of any
/// phase but the next one in the running order, whose turn is then over.
fn first(site: &Site, phase: usize) -> Part {
    let start = part("start red", vec![term("start red", site.start_red.steps)]);
    let next = site.phases_before(phase).first().copied();
    let phases = (0..site.phases.len()).filter(|one| Some(*one) != next);
    longest(start, phases.map(|one| clearing(site, one)))
}

fn clearing(site: &Site, phase: usize) -> Part {
    let what = format!("{} is left", letter(phase));
    let second = |movement| {
        let [_, _, second] = walk(site, movement);
        part(what.clone(), vec![second])
    };
    let plain = part(what.clone(), leaving(site, phase));
    longest(plain, movements(site, phase).map(second))
}

/// The rest of the phase of a movement after a press: of its turn without the movement, or
/// of another walk that begins when the movement has cleared.
fn own(site: &Site, phase: usize, movement: usize) -> Part {
    let [_, one, two] = walk(site, movement);
    let back = [one, two];
    let rest = ending(site, phase, Some(movement), (&green(site, phase), &[]));
    let rest = longest(rest, [ending(site, phase, Some(movement), (&back, &back))]);
    let name = &site.groups[site.movements[movement].group].name;
    part(
        format!("rest of {} after a press for {name}", letter(phase)),
        rest.terms,
    )
}

/// How long a phase lasts if nothing but walks holds it after `free`. The walks, except that
/// of one movement, began after `walked`.
fn ending(
    site: &Site,
    phase: usize,
    except: Option<usize>,
    (free, walked): (&[Term], &[Term]),
) -> Part {
    let made = |parts: &[&[Term]]| part(String::new(), parts.concat());
    let leaving = leaving(site, phase);
    let held = |movement| {
        let [walk, one, two] = walk(site, movement);
        // The first clearance begins in the step after the one that lets the phase go.
        let walks = longest(
            made(&[free, &[term("a step", 1)]]),
            [made(&[walked, &[walk]])],
        );
        let clears = longest(made(&[&leaving]), [made(&[&[two]])]);
        made(&[&walks.terms, &[one], &clears.terms])
    };
    let others = movements(site, phase).filter(|one| Some(*one) != except);
    longest(made(&[free, &leaving]), others.map(held))
}
