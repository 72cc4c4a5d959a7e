//! Warnings: what the library accepts and what is probably wrong, each with its line.

use crate::seconds;
use crate::site::{letter, letters, Setting, Site, EARLY_CUT_OFF, LATE_START};
use crate::words::Span;

/// The kinds of warnings.
#[derive(Clone, Copy, Debug, PartialEq, Eq)]
pub enum Kind {
    StatedBound,
    NoConflicts,
    NeverConflict,
    NoPhase,
    GapZero,
    LongClearance,
    MarkWithoutEffect,
    MaximumBelowMinimum,
    ShortYellow,
    TimeWithoutEffect,
    ListedTwice,
    YellowNotJudged,
}

impl Kind {
    pub const ALL: [Kind; 12] = [
        Kind::StatedBound,
        Kind::NoConflicts,
        Kind::NeverConflict,
        Kind::NoPhase,
        Kind::GapZero,
        Kind::LongClearance,
        Kind::MarkWithoutEffect,
        Kind::MaximumBelowMinimum,
        Kind::ShortYellow,
        Kind::TimeWithoutEffect,
        Kind::ListedTwice,
        Kind::YellowNotJudged,
    ];

    /// The name of the kind for programs.
    pub fn name(self) -> &'static str {
        match self {
            Kind::StatedBound => "stated-bound",
            Kind::NoConflicts => "no-conflicts",
            Kind::NeverConflict => "never-conflict",
            Kind::NoPhase => "no-phase",
            Kind::GapZero => "gap-zero",
            Kind::LongClearance => "long-clearance",
            Kind::MarkWithoutEffect => "mark-without-effect",
            Kind::MaximumBelowMinimum => "maximum-below-minimum",
            Kind::ShortYellow => "short-yellow",
            Kind::TimeWithoutEffect => "time-without-effect",
            Kind::ListedTwice => "listed-twice",
            Kind::YellowNotJudged => "yellow-not-judged",
        }
    }

    /// Whether it only says what was not looked at: a note, and no warning.
    pub fn is_note(self) -> bool {
        self == Kind::YellowNotJudged
    }
}

/// A warning and its line.
#[derive(Clone, Debug, PartialEq, Eq)]
pub struct Warning {
    pub kind: Kind,
    pub span: Span,
    pub text: String,
}

/// The speeds in km/h and the grades in percent of the library's table of yellow times. They
/// are for messages: the library decides, and a test asks it.
pub const YELLOW_SPEEDS: (i32, i32) = (40, 110);
pub const YELLOW_GRADES: (i32, i32) = (-10, 10);

/// The speeds and grades of approaches, for which the library is asked for a yellow time.
pub fn speeds(site: &Site) -> Vec<(u32, i32)> {
    let speed = |approach: &crate::Approach| approach.speed.map(|speed| (speed, approach.grade));
    site.approaches.iter().filter_map(speed).collect()
}

/// The warnings of an accepted site, in the order of the text. `bound` is the wait bound
/// that the library gives, `yellow` its yellow time for a speed in km/h and a grade in
/// percent, None if it refuses them.
pub fn warnings(site: &Site, bound: u64, yellow: &dyn Fn(u32, i32) -> Option<u64>) -> Vec<Warning> {
    let mut list = List {
        site,
        warnings: Vec::new(),
    };
    list.stated_bound(bound);
    list.conflicts();
    list.rows();
    list.marks();
    list.detectors();
    list.phases();
    list.movements();
    list.yellows(yellow);
    list.speeds(yellow);
    let mut warnings = list.warnings;
    warnings.sort_by_key(|warning| (warning.span.line, warning.span.column));
    warnings
}

struct List<'a> {
    site: &'a Site,
    warnings: Vec<Warning>,
}

impl<'a> List<'a> {
    fn warn(&mut self, kind: Kind, span: Span, text: String) {
        self.warnings.push(Warning { kind, span, text });
    }

    fn stated_bound(&mut self, bound: u64) {
        if let Some((stated, span)) = self.site.stated_bound {
            if stated != bound {
                let text =
                    format!("the text states a wait bound of {stated}; the library gives {bound}");
                self.warn(Kind::StatedBound, span, text);
            }
        }
    }

    /// Groups that are red in a phase although they conflict with no group of it: a
    /// conflict is missing, or the group could be green there. Two crossings never
    /// conflict, and a group in no phase has a warning of its own.
    fn conflicts(&mut self) {
        let site = self.site;
        if site.groups.iter().all(|group| group.conflicts.is_empty()) {
            let span = site.heading("conflicts");
            let text = "no groups conflict: nothing is kept apart".to_string();
            return self.warn(Kind::NoConflicts, span, text);
        }
        for (at, group) in site.groups.iter().enumerate() {
            if group.phases == 0 {
                continue;
            }
            let (mut phases, mut names) = (String::new(), Vec::new());
            for phase in (0..site.phases.len()).filter(|phase| !group.in_phase(*phase)) {
                let others = self.kept_apart(at, phase);
                phases.extend(others.first().map(|_| letter(phase)));
                names.extend(others.iter().map(|one| site.groups[*one].name.as_str()));
            }
            if !names.is_empty() {
                let mut seen = Vec::new();
                names.retain(|name| {
                    !seen.contains(name) && {
                        seen.push(*name);
                        true
                    }
                });
                let text = format!(
                    "{} is red in {phases} but conflicts with no group of {phases}: if that is meant, add `not {}`",
                    group.name,
                    names.join(" ")
                );
                self.warn(Kind::NeverConflict, group.row, text);
            }
        }
    }

    /// The groups of a phase that never conflict with a group, if none of the phase does;
    /// without those that are named behind `not`.
    fn kept_apart(&self, at: usize, phase: usize) -> Vec<usize> {
        let site = self.site;
        let group = &site.groups[at];
        let others = site.groups.iter().enumerate().filter(|(_, other)| {
            let crossings = group.is_pedestrian() && other.is_pedestrian();
            other.in_phase(phase) && other.phases & group.phases == 0 && !crossings
        });
        let others: Vec<usize> = others.map(|(other, _)| other).collect();
        let known = |other: &usize| {
            let names =
                |list: &[(usize, Span)], one: usize| list.iter().any(|(group, _)| *group == one);
            names(&group.apart, *other) || names(&site.groups[*other].apart, at)
        };
        if others.iter().any(|other| group.conflicts_with(*other)) {
            return Vec::new();
        }
        others.into_iter().filter(|other| !known(other)).collect()
    }

    /// Groups that a row of conflicts names twice.
    fn rows(&mut self) {
        let site = self.site;
        for group in &site.groups {
            let named = group.conflicts.iter().chain(&group.apart);
            let named: Vec<&(usize, Span)> = named.collect();
            for (at, (other, span)) in named.iter().enumerate() {
                let before = named[..at].iter().position(|(one, _)| one == other);
                let conflicts = group.conflicts.len();
                let (own, name) = (&group.name, &site.groups[*other].name);
                let text = match before {
                    Some(before) if before < conflicts && at >= conflicts => {
                        format!("the row of {own} has {name} as a conflict and behind `not`: it is a conflict")
                    }
                    Some(_) => format!("the row of {own} has {name} twice"),
                    None => continue,
                };
                self.warn(Kind::ListedTwice, *span, text);
            }
        }
    }

    /// Vehicle groups in no phase, and marks without effect.
    fn marks(&mut self) {
        let site = self.site;
        let phases = || 0..site.phases.len();
        for group in site.groups.iter().filter(|group| !group.is_pedestrian()) {
            let name = &group.name;
            if group.phases == 0 {
                let text = format!("{name} is in no phase: it is always red");
                self.warn(Kind::NoPhase, group.phases_span, text);
                continue;
            }
            let own = letters(group.phases);
            let late = |p: &usize| site.phases[*p].steps(Setting::LATE_START) > 0;
            if group.mark == LATE_START && !phases().any(|p| group.in_phase(p) && late(&p)) {
                let text =
                    format!("{name} has the mark `late-start`, but late start is 0 in {own}");
                self.warn(Kind::MarkWithoutEffect, group.mark_span, text);
            }
            let early = |p: &usize| site.early_steps(*p) > 0;
            if group.mark == EARLY_CUT_OFF && !phases().any(|p| group.in_phase(p) && early(&p)) {
                let text = format!(
                    "{name} has the mark `early-cut-off`, but early cut-off green is 0 in {own}"
                );
                self.warn(Kind::MarkWithoutEffect, group.mark_span, text);
            }
        }
    }

    /// Extending detectors of a phase whose gap is 0.
    fn detectors(&mut self) {
        for (at, detector) in self.site.detectors.iter().enumerate() {
            let phase = self.site.phases.get(usize::from(detector.phase));
            let gap = phase.map_or(1, |phase| phase.steps(Setting::GAP));
            if detector.extends() && gap == 0 {
                let letter = letter(detector.phase.into());
                let text =
                    format!("detector {at} extends phase {letter}, but the gap of {letter} is 0");
                self.warn(Kind::GapZero, detector.mode_span, text);
            }
        }
    }

    /// A maximum below the minimum, and times that no group waits for.
    fn phases(&mut self) {
        let site = self.site;
        for (at, phase) in site.phases.iter().enumerate() {
            let letter = letter(at);
            let (least, most) = (
                phase.steps(Setting::MINIMUM_GREEN),
                phase.time(Setting::MAXIMUM_GREEN),
            );
            if most.steps < least {
                let text = format!(
                    "maximum green of {letter} is {}, below its minimum green of {}",
                    seconds(most.steps.into()),
                    seconds(least.into())
                );
                self.warn(Kind::MaximumBelowMinimum, most.span, text);
            }
            let marked = |mark: u8| {
                site.groups
                    .iter()
                    .any(|group| group.mark == mark && group.in_phase(at))
            };
            let late = phase.time(Setting::LATE_START);
            if late.steps > 0 && !marked(LATE_START) {
                let text = format!("late start of {letter} has no effect: no group of {letter} has the mark `late-start`");
                self.warn(Kind::TimeWithoutEffect, late.span, text);
            }
            let early = site
                .early
                .as_ref()
                .and_then(|early| early.get(at))
                .copied()
                .unwrap_or_default();
            if early.steps > 0 && !marked(EARLY_CUT_OFF) {
                let text = format!(
                    "early cut-off green of {letter} has no effect: no group of {letter} has the mark `early-cut-off`"
                );
                self.warn(Kind::TimeWithoutEffect, early.span, text);
            }
        }
    }

    /// A second clearance that lasts longer than the phase takes to leave.
    fn movements(&mut self) {
        let site = self.site;
        for (at, phase) in site.phases.iter().enumerate() {
            let steps = |setting| u32::from(phase.steps(setting));
            let early = u32::from(site.early_steps(at));
            let leaving = early + steps(Setting::YELLOW) + steps(Setting::ALL_RED);
            for movement in site.movements_of(at) {
                let second = movement.times[2];
                if u32::from(second.steps) > leaving {
                    let text = format!(
                        "second clearance of {} is {}, longer than the {} that {} takes to leave: it holds all-red",
                        site.groups[movement.group].name,
                        seconds(second.steps.into()),
                        seconds(leaving.into()),
                        letter(at)
                    );
                    self.warn(Kind::LongClearance, second.span, text);
                }
            }
        }
    }

    /// A yellow below the library's for the speed of an approach of the phase.
    fn yellows(&mut self, yellow: &dyn Fn(u32, i32) -> Option<u64>) {
        let site = self.site;
        for (at, phase) in site.phases.iter().enumerate() {
            let groups = site.groups.iter();
            let vehicles = groups.filter(|group| group.in_phase(at) && !group.is_pedestrian());
            let asked = vehicles.filter_map(|group| {
                let approach = &site.approaches[group.place.approach?];
                let speed = approach.speed?;
                let yellow = yellow(speed, approach.grade)?;
                Some((yellow, &group.name, &approach.name, speed, approach.grade))
            });
            if let Some((steps, group, approach, speed, grade)) = asked.max_by_key(|asked| asked.0)
            {
                let written = phase.time(Setting::YELLOW);
                if u64::from(written.steps) < steps {
                    let text = format!(
                        "yellow of {} is {}; {group} on {approach} needs {} at {speed} km/h and {grade} %",
                        letter(at),
                        seconds(written.steps.into()),
                        seconds(steps)
                    );
                    self.warn(Kind::ShortYellow, written.span, text);
                }
            }
        }
    }

    /// Approaches with vehicles whose speed or grade the library has no yellow time for.
    fn speeds(&mut self, yellow: &dyn Fn(u32, i32) -> Option<u64>) {
        let site = self.site;
        for (at, approach) in site.approaches.iter().enumerate() {
            let vehicles = |group: &crate::Group| {
                !group.is_pedestrian() && group.phases != 0 && group.place.approach == Some(at)
            };
            let refused = |speed: &u32| yellow(*speed, approach.grade).is_none();
            let speed = approach.speed.filter(refused);
            if let (Some(speed), true) = (speed, site.groups.iter().any(vehicles)) {
                let [speeds, grades] =
                    [YELLOW_SPEEDS, YELLOW_GRADES].map(|(low, high)| format!("{low} to {high}"));
                let text = format!(
                    "the yellow for {} could not be judged at {speed} km/h and {} %: the library's table is for {speeds} km/h and {grades} %",
                    approach.name, approach.grade
                );
                self.warn(Kind::YellowNotJudged, approach.span, text);
            }
        }
    }
}
