//! Sites, messages and bytes as JSON, for the page and for `--json`.

use crate::site::{letter, letters, Place, Site, ARROWS, CALLS, MARKS};
use crate::waits::{Part, Term, Wait};
use crate::words::{Mistake, Span};
use crate::{Built, Told, Warning};
use std::fmt::Write;

/// A text with its quotation marks.
pub fn string(text: &str) -> String {
    let mut json = String::from("\"");
    for letter in text.chars() {
        match letter {
            '"' => json.push_str("\\\""),
            '\\' => json.push_str("\\\\"),
            c if c < ' ' => {
                // Writing to a string does not fail.
                let _ = write!(json, "\\u{:04x}", c as u32);
            }
            c => json.push(c),
        }
    }
    json.push('"');
    json
}

/// A list of values that are JSON already.
pub fn list(values: impl IntoIterator<Item = String>) -> String {
    let values: Vec<String> = values.into_iter().collect();
    format!("[{}]", values.join(","))
}

/// An object of values that are JSON already.
pub fn object(fields: &[(&str, String)]) -> String {
    let fields = fields
        .iter()
        .map(|(name, value)| format!("{}:{value}", string(name)));
    let fields: Vec<String> = fields.collect();
    format!("{{{}}}", fields.join(","))
}

fn or_null<T>(value: Option<T>, json: impl FnOnce(T) -> String) -> String {
    value.map_or("null".to_string(), json)
}

fn number(value: impl std::fmt::Display) -> String {
    value.to_string()
}

/// `{"line":1,"column":1,"length":4}`
pub fn span(span: Span) -> String {
    object(&[
        ("line", number(span.line)),
        ("column", number(span.column)),
        ("length", number(span.length)),
    ])
}

/// A mistake of a text.
pub fn mistake(mistake: &Mistake) -> String {
    object(&[
        ("severity", string("error")),
        ("span", span(mistake.span)),
        ("text", string(&mistake.to_string())),
        ("found", string(&mistake.found)),
        ("expected", string(&mistake.expected)),
    ])
}

/// A refusal in words.
pub fn told(told: &Told) -> String {
    let other =
        |(place, note): &(Span, String)| object(&[("span", span(*place)), ("text", string(note))]);
    object(&[
        ("severity", string("refusal")),
        ("number", number(told.number)),
        ("place", number(told.place)),
        ("span", span(told.span)),
        ("text", string(&told.text)),
        ("others", list(told.others.iter().map(other))),
    ])
}

/// A warning, or a note.
pub fn warning(warning: &Warning) -> String {
    let severity = if warning.kind.is_note() {
        "note"
    } else {
        "warning"
    };
    object(&[
        ("severity", string(severity)),
        ("kind", string(warning.kind.name())),
        ("span", span(warning.span)),
        ("text", string(&warning.text)),
    ])
}

/// What the waits are made of: who waits, and the parts with their times in steps.
pub fn waits(waits: &[Wait]) -> String {
    let term = |term: &Term| object(&[("name", string(&term.name)), ("steps", number(term.steps))]);
    let part = |part: &Part| {
        object(&[
            ("what", string(&part.what)),
            ("terms", list(part.terms.iter().map(term))),
        ])
    };
    let wait = |wait: &Wait| {
        object(&[
            ("who", string(&wait.who)),
            ("parts", list(wait.parts.iter().map(part))),
        ])
    };
    list(waits.iter().map(wait))
}

/// Bytes as a list of numbers, and the place of each as `[line, column, length]`.
pub fn built(built: &Built) -> String {
    let place = |span: &Span| format!("[{},{},{}]", span.line, span.column, span.length);
    object(&[
        ("bytes", list(built.bytes.iter().map(number))),
        ("spans", list(built.spans.iter().map(place))),
    ])
}

fn place(site: &Site, place: &Place) -> Vec<(&'static str, String)> {
    let approach = place.approach.map(|at| site.approaches[at].name.as_str());
    let lanes = |(first, last): (u8, u8)| format!("[{first},{last}]");
    let arrows = place.arrows.iter().map(|arrow| string(ARROWS[*arrow]));
    vec![
        ("label", or_null(place.name.as_deref(), string)),
        ("approach", or_null(approach, string)),
        ("lanes", or_null(place.lanes, lanes)),
        ("arrows", list(arrows)),
        ("metres", or_null(place.metres, number)),
        ("length", or_null(place.length, number)),
    ]
}

/// What a text says, for a picture of the junction.
pub fn site(site: &Site) -> String {
    object(&[
        ("name", or_null(site.name.as_deref(), string)),
        (
            "traffic",
            string(if site.side == crate::Side::Left {
                "left"
            } else {
                "right"
            }),
        ),
        ("edition", number(site.edition)),
        ("startRed", number(site.start_red.steps)),
        ("phases", phases(site)),
        ("groups", groups(site)),
        ("detectors", detectors(site)),
        ("movements", movements(site)),
        ("order", list(site.running_order().into_iter().map(number))),
        ("approaches", approaches(site)),
        ("steps", number(site.road.steps())),
        ("streams", streams(site)),
    ])
}

fn phases(site: &Site) -> String {
    let phase = |(at, phase): (usize, &crate::Phase)| {
        object(&[
            ("letter", string(&letter(at).to_string())),
            ("label", or_null(phase.name.as_deref(), string)),
            (
                "times",
                list(phase.times.iter().map(|time| number(time.steps))),
            ),
            ("early", number(site.early_steps(at))),
            ("line", number(phase.span.line)),
        ])
    };
    list(site.phases.iter().enumerate().map(phase))
}

fn groups(site: &Site) -> String {
    let group = |group: &crate::Group| {
        let mut fields = vec![
            ("name", string(&group.name)),
            ("phases", string(&letters(group.phases))),
            ("mark", string(MARKS[usize::from(group.mark)])),
            (
                "conflicts",
                list(group.conflicts.iter().map(|(other, _)| number(other))),
            ),
            ("line", number(group.span.line)),
        ];
        fields.extend(place(site, &group.place));
        object(&fields)
    };
    list(site.groups.iter().map(group))
}

fn detectors(site: &Site) -> String {
    let detector = |detector: &crate::Detector| {
        let call = usize::from(detector.mode & !crate::EXTENDS);
        let mut fields = vec![
            ("phase", string(&letter(detector.phase.into()).to_string())),
            ("call", string(CALLS[call])),
            ("extends", detector.extends().to_string()),
            ("line", number(detector.span.line)),
        ];
        fields.extend(place(site, &detector.place));
        object(&fields)
    };
    list(site.detectors.iter().map(detector))
}

fn movements(site: &Site) -> String {
    let movement = |(at, movement): (usize, &crate::Movement)| {
        let mut fields = vec![
            ("group", number(movement.group)),
            ("name", string(&site.groups[movement.group].name)),
            (
                "times",
                list(movement.times.iter().map(|time| number(time.steps))),
            ),
            ("line", number(movement.span.line)),
        ];
        fields.extend(place(site, site.button_place(at)));
        object(&fields)
    };
    list(site.movements.iter().enumerate().map(movement))
}

fn approaches(site: &Site) -> String {
    let approach = |approach: &crate::Approach| {
        object(&[
            ("name", string(&approach.name)),
            ("speed", or_null(approach.speed, number)),
            ("grade", number(approach.grade)),
            ("bearing", or_null(approach.bearing, number)),
            ("lanes", or_null(approach.lanes, number)),
        ])
    };
    list(site.approaches.iter().map(approach))
}

fn streams(site: &Site) -> String {
    let stream = |stream: &crate::Stream| {
        object(&[
            ("detector", number(stream.detector)),
            ("group", number(stream.group)),
            ("rate", number(stream.rate)),
            ("line", number(stream.span.line)),
        ])
    };
    list(site.road.streams.iter().map(stream))
}
