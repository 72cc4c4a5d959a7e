//! `retime`: whether a site may follow another one while running, and what differs.

use crate::check::bound_of;
use crate::load::{accepted, Loaded};
use crate::out::{print_json, Out, Severity, Stop};
use clap::ArgMatches;
use serde_json::json;
use site::seconds;

/// The library's answer to the new times, from the fresh state of the first.
fn answer(first: &Loaded, second: &Loaded) -> Result<(), willowera::Refusal> {
    let mut controller = willowera::Controller::new(first.bytes())?;
    controller.retime(second.bytes())
}

pub fn retime(out: &Out, matches: &ArgMatches) -> Result<(), Stop> {
    let path = |name| matches.get_one::<String>(name).expect("required");
    let first = accepted(out, path("SITE"))?;
    let second = accepted(out, path("NEW"))?;
    let refusal = answer(&first, &second).err();
    let differences = site::differences(&first.site, &second.site);
    if out.json {
        let list = differences
            .iter()
            .map(|(text, span, time)| json!({"text": text, "line": span.line, "time": time}));
        print_json(&json!({
            "accepted": refusal.is_none(), "number": refusal.map_or(0, |refusal| refusal.number),
            "differences": list.collect::<Vec<_>>(),
            "waitBound": [bound_of(&first), bound_of(&second)],
        }));
    } else {
        match refusal {
            None => say!(
                "{}: {} may follow while {} runs",
                out.good("accepted"),
                second.path,
                first.path
            ),
            Some(refusal) => {
                let words = site::refusal::words(refusal.number);
                say!("{}: refused {}: {words}", second.path, refusal.number);
            }
        }
        for (text, span, time) in &differences {
            if *time {
                say!("{}:{}: {text}", second.path, span.line);
            } else {
                let text = format!("{text} differ");
                out.message(Severity::Refusal, &second.path, &second.text, *span, &text);
            }
        }
        if differences.is_empty() {
            say!("nothing differs");
        }
        let (old, new) = (bound_of(&first), bound_of(&second));
        say!(
            "wait bound {} before, {} after; {} through the change",
            seconds(old),
            seconds(new),
            seconds(old + new)
        );
    }
    refusal.map_or(Ok(()), |_| Err(Stop::Refused))
}
