//! `run`: what a site shows for an input script.

use crate::frames::{frames, Frame, INTERVALS, INTERVAL_LETTERS};
use crate::load::{accepted, refused, script, Loaded};
use crate::out::{print_json, write, Out, Stop};
use crate::timeline::{timeline, Picture};
use clap::ArgMatches;
use serde_json::json;
use site::{letter, letters, seconds};

/// The steps of a run without inputs.
const STEPS: u64 = 600;
/// The longest run: an hour, as in the trace program.
const MOST_STEPS: u64 = 36_000;

pub fn run(out: &Out, matches: &ArgMatches) -> Result<(), Stop> {
    let path: &String = matches.get_one("SITE").expect("required");
    let loaded = accepted(out, path)?;
    let mut inputs = match matches.get_one::<String>("inputs") {
        Some(path) => script(out, path, &loaded.site)?.inputs,
        None => vec![0; STEPS as usize],
    };
    if let Some(&steps) = matches.get_one::<u64>("steps") {
        if steps > MOST_STEPS {
            return Err(Stop::Unusable(format!(
                "{steps} steps; at most {MOST_STEPS}"
            )));
        }
        inputs.resize(steps as usize, 0);
    }
    let frames =
        frames(loaded.bytes(), &inputs).map_err(|refusal| refused(out, &loaded, refusal))?;
    if let Some(file) = matches.get_one::<String>("svg") {
        let title = format!("{}: {} steps", loaded.name(), frames.len());
        let picture = timeline(
            &loaded.site,
            &frames,
            &Picture::whole(&title, frames.len() as u64),
        );
        write(Some(file), picture.as_bytes())?;
    }
    if matches.get_flag("trace") {
        write(None, trace(&frames).as_bytes())
    } else {
        let all = matches.get_flag("all");
        let chosen = frames
            .iter()
            .enumerate()
            .filter(|(at, _)| all || changes(&frames, *at));
        let chosen: Vec<&Frame> = chosen.map(|(_, frame)| frame).collect();
        print(out, &loaded, &chosen)
    }
}

/// The lines of the trace program (docs/RULES.md, R13.2).
fn trace(frames: &[Frame]) -> String {
    let mut text = String::from("step phase interval groups\n");
    for frame in frames {
        let groups: String = frame.letters().collect();
        let phase = letter(frame.fields().phase().into());
        let interval = INTERVAL_LETTERS[frame.interval()];
        text.push_str(&format!("{} {phase} {interval} {groups}\n", frame.step));
    }
    text
}

/// Whether a step shows something new, apart from counts and ages.
fn changes(frames: &[Frame], at: usize) -> bool {
    let seen = |frame: &Frame| {
        let fields = frame.fields();
        let demands = (fields.locked_demands(), fields.button_demands());
        let held = frame.line.contains("no other demand");
        (
            fields.phase(),
            fields.interval(),
            fields.target(),
            demands,
            frame.inputs,
            held,
        )
    };
    let last = at + 1 == frames.len();
    let new =
        |before: &Frame| seen(before) != seen(&frames[at]) || before.colours != frames[at].colours;
    at.checked_sub(1)
        .is_none_or(|before| last || new(&frames[before]))
}

/// The demands of a state: locked phases, and the groups of demanded movements.
fn demanded(loaded: &Loaded, frame: &Frame) -> String {
    let fields = frame.fields();
    let mut words: Vec<String> = Vec::new();
    if fields.locked_demands() != 0 {
        words.push(letters(fields.locked_demands()));
    }
    let pressed = |at: &usize| fields.button_demands() >> at & 1 != 0;
    let movements = (0..loaded.site.movements.len()).filter(pressed);
    words.extend(movements.map(|at| {
        loaded.site.groups[loaded.site.movements[at].group]
            .name
            .clone()
    }));
    if words.is_empty() {
        "-".to_string()
    } else {
        words.join(" ")
    }
}

/// The detectors that are occupied and the buttons that are pressed.
fn inputs(frame: &Frame) -> String {
    let detectors = (0..48)
        .filter(|bit| frame.inputs >> bit & 1 != 0)
        .map(|bit| format!("d{bit}"));
    let buttons = (0..8).filter(|bit| frame.inputs >> (48 + bit) & 1 != 0);
    let words: Vec<String> = detectors
        .chain(buttons.map(|bit| format!("b{bit}")))
        .collect();
    words.join(" ")
}

fn print(out: &Out, loaded: &Loaded, frames: &[&Frame]) -> Result<(), Stop> {
    if out.json {
        let row = |frame: &&Frame| {
            let fields = frame.fields();
            json!({
                "step": frame.step, "inputs": frame.inputs.to_string(),
                "phase": letter(fields.phase().into()).to_string(), "interval": INTERVALS[frame.interval()],
                "age": fields.age(), "groups": frame.letters().collect::<String>(),
                "target": fields.target().map(|phase| letter(phase.into()).to_string()),
                "gap": fields.gap_count(), "maximum": fields.maximum_count(),
                "demands": demanded(loaded, frame), "line": frame.line,
            })
        };
        print_json(&json!(frames.iter().map(row).collect::<Vec<_>>()));
        return Ok(());
    }
    let width = loaded.site.groups.len().max(6);
    let names: Vec<&str> = loaded
        .site
        .groups
        .iter()
        .map(|group| group.name.as_str())
        .collect();
    say!("groups: {}", names.join(" "));
    say!(
        "{:>6} {:>9}  ph interval       {:<width$}  to  gap  max  {:<10} {:<14} panel",
        "step",
        "time",
        "groups",
        "demands",
        "inputs"
    );
    for frame in frames {
        let fields = frame.fields();
        let target = fields.target().map_or('-', |phase| letter(phase.into()));
        let lights: String = frame.letters().map(|one| out.light(one)).collect();
        let pad = " ".repeat(width - frame.colours.len());
        let row = format!(
            "{:>6} {:>9}  {}  {:<14} {lights}{pad}  {target}  {:>4} {:>4}  {:<10} {:<14} {}",
            frame.step,
            seconds(frame.step.into()),
            letter(fields.phase().into()),
            INTERVALS[frame.interval()],
            fields.gap_count(),
            fields.maximum_count(),
            demanded(loaded, frame),
            inputs(frame),
            frame.line,
        );
        say!("{}", row.trim_end());
    }
    Ok(())
}
