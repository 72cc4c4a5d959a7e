//! A refusal of the library in words, with the lines of the text that caused it. This
//! looks in the site for what the library found; it refuses nothing itself.

use crate::build::Built;
use crate::refusal;
use crate::seconds;
use crate::site::{
    letter, letters, Group, Setting, Site, MARKS, MOVEMENT_SETTINGS, PHASE_SETTINGS,
};
use crate::words::Span;

/// A refusal in words. `others` are further places that it is about, each with a note.
#[derive(Clone, Debug, PartialEq, Eq)]
pub struct Told {
    pub number: u8,
    pub place: usize,
    pub span: Span,
    pub text: String,
    pub others: Vec<(Span, String)>,
}

/// Puts a refusal of a built site into words. If the site does not show what was refused,
/// the text is the general sentence of the number.
pub fn tell(site: &Site, built: &Built, number: u8, place: usize) -> Told {
    let teller = Teller {
        site,
        place,
        span: built.span(place),
    };
    let said = match number {
        refusal::WRONG_LENGTH => teller.length(),
        refusal::WRONG_COUNT => teller.count(),
        refusal::TIME_OUTSIDE => teller.time(),
        refusal::WRONG_GROUP => teller.group(),
        refusal::NINTH_PEDESTRIAN => teller.ninth(),
        refusal::PHASE_WITHOUT_GROUP => teller.empty_phase(),
        refusal::WRONG_CONFLICT => teller.conflict(),
        refusal::CONFLICT_IN_PHASE => teller.shared_phase(),
        refusal::WRONG_DETECTOR => teller.detector(),
        refusal::NO_EARLY_TIMES => teller.early_group(),
        refusal::WRONG_ORDER => teller.order(),
        refusal::UNCALLED_PHASE => teller.uncalled(),
        refusal::WRONG_STREAMS => teller.stream(),
        _ => None,
    };
    let said = said.unwrap_or_else(|| say(built.span(place), refusal::words(number)));
    Told {
        number,
        place,
        span: said.span,
        text: said.text,
        others: said.others,
    }
}

/// What is said of a refusal.
struct Said {
    span: Span,
    text: String,
    others: Vec<(Span, String)>,
}

fn say(span: Span, text: impl Into<String>) -> Said {
    Said {
        span,
        text: text.into(),
        others: Vec::new(),
    }
}

impl Said {
    fn note(mut self, span: Span, note: impl Into<String>) -> Said {
        self.others.push((span, note.into()));
        self
    }
}

/// The site, and what was refused: a byte, and the place in the text that made it.
struct Teller<'a> {
    site: &'a Site,
    place: usize,
    span: Span,
}

impl<'a> Teller<'a> {
    /// The place of the body of section 3, by the layout of docs/RULES.md, R2.3.
    fn groups_body(&self) -> usize {
        16 + 12 * self.site.phases.len()
    }

    /// The place of the body of section 4.
    fn conflicts_body(&self) -> usize {
        self.groups_body() + 2 * self.site.groups.len() + 4
    }

    /// The record of a section that was refused.
    fn record<T>(&self, body: usize, size: usize, records: &'a [T]) -> Option<(usize, &'a T)> {
        let at = self.place.checked_sub(body)? / size;
        records.get(at).map(|record| (at, record))
    }

    /// The phases of the site in words.
    fn phases(&self) -> String {
        match self.site.phases.len() {
            0 => "the site has no phases".to_string(),
            1 => "the site has phase A only".to_string(),
            count => format!("the site has phases A to {}", letter(count - 1)),
        }
    }

    fn length(&self) -> Option<Said> {
        let (site, span) = (self.site, self.span);
        if span == site.heading("order") {
            let (count, phases) = (site.order.as_ref()?.len(), site.phases.len());
            let text = format!("the order has {count} letters, and the site {phases} phases");
            return Some(say(span, text));
        }
        let (count, too_many) = (site.detectors.len(), site.detectors.get(48)?);
        let text = format!("{count} detectors; at most 48 are allowed");
        Some(say(too_many.span, text)).filter(|_| span == site.heading("detectors"))
    }

    fn count(&self) -> Option<Said> {
        let (phases, groups) = (&self.site.phases, &self.site.groups);
        let (too_many, text) = if self.place == 4 {
            let eighth = phases.get(7).map(|phase| phase.span);
            (
                eighth,
                format!("{} phases; 2 to 7 are allowed", phases.len()),
            )
        } else {
            let last = groups.get(32).map(|group| group.span);
            (
                last,
                format!("{} groups; 1 to 32 are allowed", groups.len()),
            )
        };
        Some(say(too_many.unwrap_or(self.span), text))
    }

    /// Whose time was refused, and the limits.
    fn time(&self) -> Option<Said> {
        let (owner, setting, steps) = self.timed()?;
        let edition = self.site.edition;
        let (low, high) = setting.limits(edition);
        let text = format!(
            "{owner}: {} is {} ({steps} steps); edition {edition} allows {} to {} ({low} to {high} steps)",
            setting.name(),
            seconds(steps.into()),
            seconds(low.into()),
            seconds(high.into()),
        );
        Some(say(self.span, text))
    }

    /// The owner, the setting and the value of the time that was refused.
    fn timed(&self) -> Option<(String, Setting, u16)> {
        let (site, span) = (self.site, self.span);
        if site.start_red.span == span {
            let steps = site.start_red.steps;
            return Some(("the site".to_string(), Setting::START_RED, steps));
        }
        for (at, phase) in site.phases.iter().enumerate() {
            let mut times = phase.times.iter().zip(PHASE_SETTINGS);
            if let Some((time, setting)) = times.find(|(time, _)| time.span == span) {
                return Some((format!("phase {}", letter(at)), setting, time.steps));
            }
        }
        for movement in &site.movements {
            let mut times = movement.times.iter().zip(MOVEMENT_SETTINGS);
            if let Some((time, setting)) = times.find(|(time, _)| time.span == span) {
                let owner = site.groups[movement.group].name.clone();
                return Some((owner, setting, time.steps));
            }
        }
        let mut early = site.early.iter().flatten().enumerate();
        let (at, time) = early.find(|(_, time)| time.span == span)?;
        Some((
            format!("phase {}", letter(at)),
            Setting::EARLY_CUT_OFF,
            time.steps,
        ))
    }

    fn group(&self) -> Option<Said> {
        let (_, group) = self.record(self.groups_body(), 2, &self.site.groups)?;
        let (name, count) = (&group.name, group.phases.count_ones());
        let missing = group.phases & !below(self.site.phases.len());
        let text = if missing != 0 {
            format!("{name} has phase {}; {}", letters(missing), self.phases())
        } else if count == 0 {
            format!("{name} is a pedestrian group with no phase; it must have exactly one")
        } else {
            format!("{name} is a pedestrian group with {count} phases; it must have exactly one")
        };
        Some(say(group.phases_span, text))
    }

    fn ninth(&self) -> Option<Said> {
        let mut walking = self
            .site
            .groups
            .iter()
            .filter(|group| group.is_pedestrian());
        let group = walking.nth(8)?;
        let text = format!(
            "{} is the ninth pedestrian group; at most 8 are allowed",
            group.name
        );
        Some(say(group.span, text))
    }

    fn empty_phase(&self) -> Option<Said> {
        let site = self.site;
        let served = |phase: &usize| site.groups.iter().any(|group| group.in_phase(*phase));
        let phase = (0..site.phases.len()).find(|phase| !served(phase))?;
        let text = format!("phase {} is in the set of no group", letter(phase));
        let said = say(site.phases[phase].span, text);
        Some(said.note(site.heading("groups"), "one of these groups must have it"))
    }

    /// The group of the row of conflicts that was refused.
    fn conflicting(&self) -> Option<(usize, &'a Group)> {
        self.record(self.conflicts_body(), 4, &self.site.groups)
    }

    /// A conflict with itself, or with a group whose row does not answer.
    fn conflict(&self) -> Option<Said> {
        let (at, group) = self.conflicting()?;
        let name = &group.name;
        let wrong = |(other, _): &&(usize, Span)| {
            *other == at || !self.site.groups[*other].conflicts_with(at)
        };
        let (other, span) = group.conflicts.iter().find(wrong)?;
        if *other == at {
            return Some(say(*span, format!("{name} conflicts with itself")));
        }
        let other = &self.site.groups[*other];
        let named = &other.name;
        let text = format!("{name} lists {named}, but the row of {named} does not list {name}");
        Some(say(*span, text).note(other.row, format!("{name} is missing here")))
    }

    fn shared_phase(&self) -> Option<Said> {
        let (site, (_, one)) = (self.site, self.conflicting()?);
        let shares = |(other, _): &&(usize, Span)| site.groups[*other].phases & one.phases != 0;
        let (other, span) = one.conflicts.iter().find(shares)?;
        let two = &site.groups[*other];
        let shared = letters(one.phases & two.phases);
        let many = if shared.len() > 1 { "phases" } else { "phase" };
        let text = format!(
            "{} and {} conflict and are both in {many} {shared}",
            one.name, two.name
        );
        let first = (one.phases & two.phases).trailing_zeros() as usize;
        let said = say(*span, text)
            .note(one.phases_span, format!("the phases of {}", one.name))
            .note(two.phases_span, format!("the phases of {}", two.name));
        let phase = site.phases.get(first)?;
        Some(said.note(phase.span, format!("phase {}", letter(first))))
    }

    fn detector(&self) -> Option<Said> {
        let body = self.conflicts_body() + 4 * self.site.groups.len() + 4;
        let (at, detector) = self.record(body, 2, &self.site.detectors)?;
        let phase = letter(detector.phase.into());
        let text = format!("detector {at} is of phase {phase}; {}", self.phases());
        Some(say(detector.phase_span, text))
    }

    fn early_group(&self) -> Option<Said> {
        let (_, group) = self.record(self.groups_body(), 2, &self.site.groups)?;
        let (name, mark) = (&group.name, MARKS[usize::from(group.mark)]);
        let text =
            format!("{name} has the mark `{mark}`, but the text has no heading `early-cut-off`");
        Some(say(group.mark_span, text))
    }

    /// The letter that the order has twice or that the site does not have, and the first
    /// phase that is missing.
    fn order(&self) -> Option<Said> {
        let (site, order) = (self.site, self.site.order.as_ref()?);
        let listed = |phase: &usize| order.iter().any(|(one, _)| usize::from(*one) == *phase);
        let missing = (0..site.phases.len()).find(|phase| !listed(phase))?;
        let twice = |at: usize| {
            order[..at]
                .iter()
                .any(|(earlier, _)| *earlier == order[at].0)
        };
        let wrong = |at: &usize| usize::from(order[*at].0) >= site.phases.len() || twice(*at);
        let at = (0..order.len()).find(wrong)?;
        let (phase, span) = order[at];
        let what = if twice(at) {
            "twice".to_string()
        } else {
            format!("({})", self.phases())
        };
        let (wrong, missed) = (letter(phase.into()), letter(missing));
        let text = format!("the order has phase {wrong} {what}, and phase {missed} is missing");
        let note = format!("phase {missed} is not in the order");
        Some(say(span, text).note(site.phases[missing].span, note))
    }

    fn uncalled(&self) -> Option<Said> {
        let site = self.site;
        let called = |phase: &usize| {
            let own = |one: &crate::Detector| usize::from(one.phase) == *phase && one.calls();
            let walk = |group: &Group| group.is_pedestrian() && group.in_phase(*phase);
            site.detectors.iter().any(own) || site.groups.iter().any(walk)
        };
        let phase = (0..site.phases.len()).find(|phase| !called(phase))?;
        let text = format!(
            "phase {} has no calling detector and no pedestrian group: nobody can call it",
            letter(phase)
        );
        let silent = site
            .detectors
            .iter()
            .filter(|one| usize::from(one.phase) == phase);
        let said = say(site.phases[phase].span, text);
        Some(silent.fold(said, |said, one| {
            said.note(one.mode_span, "this detector does not call")
        }))
    }

    /// The first stream that the road does not take, or else the number of steps.
    fn stream(&self) -> Option<Said> {
        let road = &self.site.road;
        let mut streams = road.streams.iter().enumerate();
        let found = streams.find_map(|(at, stream)| Some(say(stream.span, self.wrong(at)?)));
        let steps = road.steps();
        let text = format!("{steps} steps are refused; at most 180000 are allowed");
        Some(found.unwrap_or_else(|| say(self.site.heading("streams"), text)))
    }

    /// What is wrong with a stream.
    fn wrong(&self, at: usize) -> Option<String> {
        let (site, stream) = (self.site, self.site.road.streams[at]);
        let (detector, count) = (stream.detector, site.detectors.len());
        let group = &site.groups[usize::from(stream.group)];
        if at >= 48 {
            Some("more than 48 streams".to_string())
        } else if usize::from(detector) >= count {
            Some(format!(
                "there is no detector {detector}: the site has {count}, counted from 0"
            ))
        } else if group.is_pedestrian() {
            Some(format!("{} is not a vehicle group", group.name))
        } else if stream.rate > 1800 {
            Some(format!(
                "{} vehicles per hour; at most 1800 are allowed",
                stream.rate
            ))
        } else {
            None
        }
    }
}

/// The bits of the first phases.
fn below(phases: usize) -> u8 {
    ((1_u32 << phases.min(8)) - 1) as u8
}
