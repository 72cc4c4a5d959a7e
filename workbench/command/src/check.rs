//! `check`: the verdict of the library, also on the site's own streams, then warnings.

use crate::frames::road_at;
use crate::load::{accepted, refused, Loaded};
use crate::out::{print_json, value, Out, Severity, Stop};
use clap::ArgMatches;
use serde_json::json;
use site::{seconds, Warning};

pub fn check(out: &Out, matches: &ArgMatches) -> Result<(), Stop> {
    let path: &String = matches.get_one("SITE").expect("required");
    let loaded = accepted(out, path)?;
    let road = &loaded.site.road;
    if !road.streams.is_empty() {
        road_at(loaded.bytes(), road, road.steps())
            .map_err(|refusal| refused(out, &loaded, refusal))?;
    }
    let bound = bound_of(&loaded);
    let warnings = warnings_of(&loaded);
    let count = warnings.iter().filter(|one| !one.kind.is_note()).count();
    if out.json {
        let list: Vec<_> = warnings
            .iter()
            .map(|one| value(&site::json::warning(one)))
            .collect();
        print_json(&json!({
            "accepted": true, "path": loaded.path, "bytes": loaded.bytes().len(),
            "waitBound": bound, "messages": list, "site": value(&site::json::site(&loaded.site)),
        }));
    } else {
        say!(
            "{}: {}, {}",
            loaded.path,
            out.good("accepted"),
            summary(&loaded, bound)
        );
        for one in &warnings {
            let severity = if one.kind.is_note() {
                Severity::Note
            } else {
                Severity::Warning
            };
            out.message(severity, &loaded.path, &loaded.text, one.span, &one.text);
        }
        match count {
            0 => {}
            1 => say!("1 warning"),
            _ => say!("{count} warnings"),
        }
    }
    if matches.get_flag("strict") && count > 0 {
        return Err(Stop::Refused);
    }
    Ok(())
}

/// The wait bound that the library gives for an accepted site.
pub fn bound_of(loaded: &Loaded) -> u64 {
    willowera::wait_bound(loaded.bytes()).expect("an accepted personality has a bound")
}

/// The warnings, with the library's yellow times.
pub fn warnings_of(loaded: &Loaded) -> Vec<Warning> {
    let yellow = |speed, grade| willowera::yellow(speed, grade).ok();
    site::warnings(&loaded.site, bound_of(loaded), &yellow)
}

/// The sizes of a site in words.
pub fn summary(loaded: &Loaded, bound: u64) -> String {
    let site = &loaded.site;
    format!(
        "edition {}: {} phases, {} groups, {} detectors, {} movements, {} bytes, wait bound {} ({bound} steps)",
        site.edition,
        site.phases.len(),
        site.groups.len(),
        site.detectors.len(),
        site.movements.len(),
        loaded.bytes().len(),
        seconds(bound)
    )
}
