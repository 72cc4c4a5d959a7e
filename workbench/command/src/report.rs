//! `report`: one HTML page for the file of a site.

use crate::check::{bound_of, summary, warnings_of};
use crate::load::{accepted, refused, with_streams, Loaded};
use crate::out::{print_json, write, Out, Stop};
use crate::phases::diagram;
use crate::road::{picture, road_frames, Queues};
use crate::svg::escaped;
use crate::timeline::{timeline, Picture};
use crate::waits::{before, own_waits, shares, Share, COUNTS, OWN_COUNTS, PARTS};
use clap::ArgMatches;
use serde_json::json;
use site::{
    letter, letters, seconds, Setting, CALLS, EXTENDS, MARKS, MOVEMENT_SETTINGS, PHASE_SETTINGS,
    ROAD_STEPS,
};

/// The steps of a strip of the timeline, and from one look at the road to the next.
const STRIP: u64 = 6_000;
const STRIDE: u32 = 10;

pub fn report(out: &Out, matches: &ArgMatches) -> Result<(), Stop> {
    let path: &String = matches.get_one("SITE").expect("required");
    let loaded = accepted(out, path)?;
    let told = with_streams(out, matches.get_one("streams"), &loaded)?;
    let mut parts = vec![
        head(&loaded),
        warned(&loaded),
        section("phases", "Phases", &diagram(&loaded.site)),
        section("groups", "Groups and detectors", &groups(&loaded)),
        section("conflicts", "Conflicts", &conflicts(&loaded)),
        section(
            "settings",
            "Settings against their limits",
            &settings(&loaded),
        ),
        section("waits", "Waits", &(own(&loaded)? + &waits(&loaded)?)),
    ];
    if !told.site.road.streams.is_empty() {
        parts.extend(roads(out, &loaded, &told)?);
    }
    parts.push(section(
        "commands",
        "Commands that made this page",
        &commands(&loaded, matches),
    ));
    let title = escaped(&loaded.name());
    let page = format!(
        "<!DOCTYPE html>\n<html lang=\"en\">\n<head>\n<meta charset=\"utf-8\">\n<title>{title}</title>\n<style>{STYLE}</style>\n</head>\n\
         <body>\n<main>\n{}\n</main>\n</body>\n</html>\n",
        parts.join("\n")
    );
    let file: Option<&String> = matches.get_one("out");
    if out.json {
        if file.is_some() {
            write(file, page.as_bytes())?;
        }
        print_json(&json!({"accepted": true, "out": file, "length": page.len()}));
        return Ok(());
    }
    write(file, page.as_bytes())
}

const STYLE: &str = "
body{font:14px/1.5 'DejaVu Sans',Verdana,sans-serif;color:#1f2933;background:#fff;margin:0}
main{max-width:1240px;margin:0 auto;padding:24px}
h1{font-size:24px;margin:0 0 4px}h2{font-size:17px;margin:34px 0 10px;border-bottom:1px solid #e4e7eb;padding-bottom:4px}
p{margin:6px 0;max-width:80ch}.quiet{color:#52606d}.good{color:#26805a;font-weight:bold}
table{border-collapse:collapse;font-size:12.5px}th,td{padding:3px 9px;text-align:left;border-bottom:1px solid #e4e7eb}
td.n,th.n{text-align:right;font-variant-numeric:tabular-nums}
table.matrix td,table.matrix th{border:1px solid #e4e7eb;padding:1px 5px;text-align:center;font-size:11px;min-width:17px}
td.x{background:#f3c6c6;font-weight:bold}td.s{background:#e4e7eb}td.same{background:#dff0e4}td.not{background:#eef2f7;color:#7b8794}
.wide{overflow-x:auto}svg{max-width:100%;height:auto}code{background:#f0f2f4;padding:1px 4px;border-radius:3px}
.limit{position:relative;display:inline-block;width:120px;height:8px;background:#e4e7eb;border-radius:4px;vertical-align:middle}
.limit i{position:absolute;top:-2px;width:4px;height:12px;background:#3f6fc4;border-radius:2px}
ul.warnings li{margin:3px 0}
@media print{h2{break-after:avoid}}";

fn section(id: &str, title: &str, body: &str) -> String {
    format!(
        "<section id=\"{id}\">\n<h2>{title}</h2>\n<div class=\"wide\">\n{body}</div>\n</section>"
    )
}

fn row(cells: impl IntoIterator<Item = String>) -> String {
    format!("<tr>{}</tr>\n", cells.into_iter().collect::<String>())
}

fn cell(text: &str) -> String {
    format!("<td>{}</td>", escaped(text))
}

fn number(text: impl ToString) -> String {
    format!("<td class=\"n\">{}</td>", text.to_string())
}

fn heads(names: &[&str]) -> String {
    row(names
        .iter()
        .map(|name| format!("<th scope=\"col\">{name}</th>")))
}

fn head(loaded: &Loaded) -> String {
    format!(
        "<h1>{}</h1>\n<p><span class=\"good\">Accepted</span> by the proved library (interface version {}). {}.</p>\n\
         <p class=\"quiet\">{}</p>",
        escaped(&loaded.name()),
        willowera::version(),
        escaped(&summary(loaded, bound_of(loaded))).replacen('e', "E", 1),
        escaped(&loaded.path)
    )
}

fn warned(loaded: &Loaded) -> String {
    let warnings = warnings_of(loaded);
    if warnings.is_empty() {
        return "<p>No warnings.</p>".to_string();
    }
    let item = |one: &site::Warning| {
        let note = if one.kind.is_note() { ", note" } else { "" };
        format!(
            "<li>line {}{note}: {}</li>\n",
            one.span.line,
            escaped(&one.text)
        )
    };
    let items: String = warnings.iter().map(item).collect();
    section(
        "warnings",
        "Warnings",
        &format!("<ul class=\"warnings\">\n{items}</ul>\n"),
    )
}

fn groups(loaded: &Loaded) -> String {
    let site = &loaded.site;
    let group = |group: &site::Group| {
        row([
            cell(&group.name),
            cell(&letters(group.phases)),
            cell(MARKS[usize::from(group.mark)]),
            cell(&group.place.words(site)),
        ])
    };
    let groups: String = site.groups.iter().map(group).collect();
    let detector = |(at, detector): (usize, &site::Detector)| {
        let call = CALLS[usize::from(detector.mode & !EXTENDS)];
        let mode = if detector.extends() {
            format!("{call}, extending")
        } else {
            call.to_string()
        };
        row([
            number(at),
            cell(&letter(detector.phase.into()).to_string()),
            cell(&mode),
            cell(&detector.place.words(site)),
        ])
    };
    let detectors: String = site.detectors.iter().enumerate().map(detector).collect();
    format!(
        "<table>{}{groups}</table>\n<br>\n<table>{}{detectors}</table>\n",
        heads(&["Group", "Phases", "Mark", "Place"]),
        heads(&["Detector", "Phase", "Mode", "Place"])
    )
}

fn conflicts(loaded: &Loaded) -> String {
    let groups = &loaded.site.groups;
    let names = groups
        .iter()
        .map(|group| format!("<th scope=\"col\">{}</th>", escaped(&group.name)));
    let mut table = row(std::iter::once("<th></th>".to_string()).chain(names));
    for (at, group) in groups.iter().enumerate() {
        let cells = groups.iter().enumerate().map(|(other, two)| {
            let (class, text) = if at == other {
                ("s", "")
            } else if group.conflicts_with(other) {
                ("x", "×")
            } else if group.phases & two.phases != 0 {
                ("same", "=")
            } else {
                ("not", "·")
            };
            format!("<td class=\"{class}\">{text}</td>")
        });
        let name = format!("<th scope=\"row\">{}</th>", escaped(&group.name));
        table.push_str(&row(std::iter::once(name).chain(cells)));
    }
    format!(
        "<table class=\"matrix\">{table}</table>\n<p class=\"quiet\">× conflict, never green together; = share a phase; · no conflict and no common phase.</p>\n"
    )
}

/// A time, its limits, and where it lies between them.
fn setting(owner: &str, setting: Setting, steps: u16, edition: u8) -> String {
    let (low, high) = setting.limits(edition);
    let part = 100.0 * f64::from(steps.saturating_sub(low)) / f64::from((high - low).max(1));
    row([
        cell(owner),
        cell(&match setting {
            Setting::START_RED => setting.name().to_string(),
            _ => format!("{}, {}", setting.symbol(), setting.name()),
        }),
        number(seconds(steps.into())),
        number(format!(
            "{} to {}",
            seconds(low.into()),
            seconds(high.into())
        )),
        format!(
            "<td><span class=\"limit\"><i style=\"left:{:.0}px\"></i></span></td>",
            part * 1.16
        ),
    ])
}

fn settings(loaded: &Loaded) -> String {
    let site = &loaded.site;
    let edition = site.edition;
    let mut rows = setting("site", Setting::START_RED, site.start_red.steps, edition);
    for (at, phase) in site.phases.iter().enumerate() {
        let owner = letter(at).to_string();
        for (time, one) in phase.times.iter().zip(PHASE_SETTINGS) {
            rows.push_str(&setting(&owner, one, time.steps, edition));
        }
        if site.early.is_some() {
            rows.push_str(&setting(
                &owner,
                Setting::EARLY_CUT_OFF,
                site.early_steps(at),
                edition,
            ));
        }
    }
    for movement in &site.movements {
        let owner = &site.groups[movement.group].name;
        for (time, one) in movement.times.iter().zip(MOVEMENT_SETTINGS) {
            rows.push_str(&setting(owner, one, time.steps, edition));
        }
    }
    format!(
        "<table>{}{rows}</table>\n",
        heads(&["Of", "Setting", "Value", "Limits", ""])
    )
}

/// The wait of each phase and of each movement, and what it is made of.
fn own(loaded: &Loaded) -> Result<String, Stop> {
    let own = own_waits(loaded)?;
    let told = |name: &str, steps: u64, made: String| {
        let steps = format!("{:.1}", steps as f64 / 10.0);
        row([cell(name), number(steps), cell(&made)])
    };
    let waits: String = own
        .iter()
        .map(|wait| told(&wait.who, wait.steps(), wait.words()))
        .collect();
    let parts: String = site::waits::parts(&own)
        .iter()
        .map(|part| told(&part.what, part.steps(), part.words()))
        .collect();
    Ok(format!(
        "<p>{OWN_COUNTS} In seconds:</p>\n<table>{}{waits}</table>\n<br>\n<table>{}{parts}</table>\n<p>One bound for the whole site:</p>\n",
        heads(&["Who", "Wait", "Made of"]),
        heads(&["Part", "At most", "Made of"])
    ))
}

fn waits(loaded: &Loaded) -> Result<String, Stop> {
    let bound = bound_of(loaded);
    let share = |share: &Share| {
        let parts = share
            .parts
            .iter()
            .map(|part| number(format!("{:.1}", *part as f64 / 10.0)));
        let mut cells = vec![cell(&letter(share.phase).to_string())];
        cells.extend(parts);
        cells.push(number(format!("{:.1}", share.sum() as f64 / 10.0)));
        let first: Vec<String> = before(loaded, share.phase)
            .iter()
            .map(char::to_string)
            .collect();
        cells.push(cell(&first.join(" ")));
        row(cells)
    };
    let rows: String = shares(loaded)?.iter().map(share).collect();
    let mut names = vec!["Phase"];
    names.extend(PARTS);
    names.extend(["Share", "May come first, each once"]);
    Ok(format!(
        "<p><strong>{}</strong> ({bound} steps). {COUNTS}</p>\n<p>Start red {}, and for each phase L + M + X + 2 (A + E + Y + R + C), in seconds:</p>\n<table>{}{rows}</table>\n",
        seconds(bound),
        seconds(loaded.site.start_red.steps.into()),
        heads(&names)
    ))
}

/// The road of the streams: a table, the queues and the timeline in strips.
fn roads(out: &Out, loaded: &Loaded, told: &Loaded) -> Result<Vec<String>, Stop> {
    let road = &told.site.road;
    let steps = road.steps();
    let queues = Queues::of(loaded, road, steps).map_err(|refusal| refused(out, told, refusal))?;
    let last = queues
        .looks
        .last()
        .map(|look| look.vehicles.clone())
        .unwrap_or_default();
    let stream = |(at, stream): (usize, &site::Stream)| {
        let (queued, gone) = last[at];
        let name = &loaded.site.groups[usize::from(stream.group)].name;
        let figures = [
            u64::from(stream.rate),
            u64::from(queued + gone),
            queued.into(),
            gone.into(),
            queues.longest(at).into(),
        ];
        let cells = [number(stream.detector), cell(name)]
            .into_iter()
            .chain(figures.map(number));
        row(cells)
    };
    let rows: String = road.streams.iter().enumerate().map(stream).collect();
    let names = [
        "Detector",
        "Group",
        "Per hour",
        "Arrived",
        "Queued",
        "Gone",
        "Longest queue seen",
    ];
    let table = format!("<table>{}{rows}</table>\n", heads(&names));
    let title = format!("Queues over {}", seconds(steps.into()));
    let queued = picture(loaded, road, &queues, &title);
    let shown = steps.min(ROAD_STEPS);
    let frames = road_frames(loaded, road, 1, shown, STRIDE).map_err(Stop::Unusable)?;
    let strips = (0..u64::from(shown).div_ceil(STRIP)).map(|strip| {
        let (from, to) = (strip * STRIP + 1, ((strip + 1) * STRIP).min(shown.into()));
        let title = format!("Minutes {} to {}", strip * 10, (strip + 1) * 10);
        let strip = Picture {
            title: &title,
            from,
            to,
            stride: STRIDE.into(),
        };
        timeline(&loaded.site, &frames, &strip)
    });
    let strips: String = strips.collect();
    let note = "<p class=\"quiet\">The library's simulated road, looked at every second, for an hour at most.</p>\n";
    Ok(vec![
        section("road", "The road", &format!("{table}{queued}")),
        section(
            "timeline",
            "Timeline of the streams",
            &format!("{note}{strips}"),
        ),
    ])
}

fn commands(loaded: &Loaded, matches: &ArgMatches) -> String {
    let path = &loaded.path;
    let streams = matches
        .get_one::<String>("streams")
        .map(|file| format!(" --streams {file}"));
    let streams = streams.unwrap_or_default();
    let mut lines = vec![
        format!("willowera report {path}{streams}"),
        format!("willowera check {path}"),
        format!("willowera waits {path}"),
    ];
    if !loaded.site.road.streams.is_empty() || !streams.is_empty() {
        lines.push(format!("willowera road {path}{streams}"));
    }
    let items: String = lines
        .iter()
        .map(|line| format!("<p><code>{}</code></p>\n", escaped(line)))
        .collect();
    items
}
