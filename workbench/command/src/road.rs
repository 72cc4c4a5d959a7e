//! `road`: the simulated road of the library for a site's streams.

use crate::frames::{road_at, road_frame, Frame, RoadAt};
use crate::load::{accepted, refused, with_streams, Loaded};
use crate::out::{print_json, write, Out, Stop};
use crate::svg::{clock, shortened, time_tick, Svg};
use crate::timeline::{timeline, Picture};
use clap::ArgMatches;
use indicatif::{ProgressBar, ProgressStyle};
use serde_json::json;
use site::{seconds, Road};

/// How often the road is looked at.
const LOOKS: u32 = 360;
/// The steps of the timeline.
const SHOWN: u32 = 3_000;

/// A progress bar that shows in a terminal only.
pub fn progress(length: u64, what: &'static str) -> ProgressBar {
    let bar = ProgressBar::new(length);
    let style = ProgressStyle::with_template("{msg} {bar:40} {percent}% {eta}");
    bar.set_style(style.unwrap_or_else(|_| ProgressStyle::default_bar()));
    bar.set_message(what);
    bar
}

/// The queues of a road: after how many steps, and the vehicles of each stream.
pub struct Queues {
    pub steps: Vec<u32>,
    pub looks: Vec<RoadAt>,
}

impl Queues {
    /// Calls the library's road with rising numbers of steps.
    pub fn of(loaded: &Loaded, road: &Road, steps: u32) -> Result<Queues, willowera::Refusal> {
        let every = (steps / LOOKS).max(1);
        let mut at: Vec<u32> = (0..=steps).step_by(every as usize).collect();
        if at.last() != Some(&steps) {
            at.push(steps);
        }
        let bar = progress(at.len() as u64, "road");
        let look = |steps: &u32| {
            bar.inc(1);
            road_at(loaded.bytes(), road, *steps)
        };
        let looks: Result<Vec<RoadAt>, _> = at.iter().map(look).collect();
        bar.finish_and_clear();
        Ok(Queues {
            steps: at,
            looks: looks?,
        })
    }

    /// The queues of a stream at each look.
    pub fn queue(&self, stream: usize) -> Vec<u16> {
        self.looks
            .iter()
            .map(|look| look.vehicles[stream].0)
            .collect()
    }

    pub fn longest(&self, stream: usize) -> u16 {
        self.queue(stream).into_iter().max().unwrap_or(0)
    }
}

pub fn road(out: &Out, matches: &ArgMatches) -> Result<(), Stop> {
    let path: &String = matches.get_one("SITE").expect("required");
    let loaded = accepted(out, path)?;
    let mut told = with_streams(out, matches.get_one("streams"), &loaded)?;
    if told.site.road.streams.is_empty() {
        let why = "the site has no streams: add the heading `streams`, or name a road text with --streams";
        return Err(Stop::Unusable(why.to_string()));
    }
    if let Some(&steps) = matches.get_one::<u64>("steps") {
        told.site.road.steps = Some(u32::try_from(steps).unwrap_or(u32::MAX));
    }
    let road = &told.site.road;
    let steps = road.steps();
    // A refusal comes before the first look.
    road_at(loaded.bytes(), road, steps).map_err(|refusal| refused(out, &told, refusal))?;
    let queues =
        Queues::of(&loaded, road, steps).map_err(|refusal| refused(out, &told, refusal))?;
    if let Some(file) = matches.get_one::<String>("svg") {
        let title = format!("{}: queues", loaded.name());
        write(
            Some(file),
            picture(&loaded, road, &queues, &title).as_bytes(),
        )?;
    }
    if let Some(file) = matches.get_one::<String>("timeline") {
        let last = steps.clamp(1, SHOWN);
        let frames = road_frames(&loaded, road, 1, last, 1).map_err(Stop::Unusable)?;
        let title = format!(
            "{}: the first {} of its streams",
            loaded.name(),
            seconds(last.into())
        );
        let shown = Picture::whole(&title, last.into());
        write(
            Some(file),
            timeline(&loaded.site, &frames, &shown).as_bytes(),
        )?;
    }
    print(out, &loaded, road, &queues);
    Ok(())
}

/// The frames of a road from one step to another, at every so many steps.
pub fn road_frames(
    loaded: &Loaded,
    road: &Road,
    from: u32,
    to: u32,
    stride: u32,
) -> Result<Vec<Frame>, String> {
    let at = |steps| road_at(loaded.bytes(), road, steps).map_err(|refusal| refusal.to_string());
    let bar = progress(u64::from((to + 1 - from) / stride), "timeline");
    let mut frames = Vec::new();
    let mut last: Option<(u32, RoadAt)> = None;
    for step in (from..=to).step_by(stride as usize) {
        let before = match last.take() {
            Some((steps, before)) if steps + 1 == step => before,
            _ => at(step - 1)?,
        };
        let after = at(step)?;
        frames.push(road_frame(loaded.bytes(), road, &before, &after, step)?);
        last = Some((step, after));
        bar.inc(1);
    }
    bar.finish_and_clear();
    Ok(frames)
}

/// A queue as a row of blocks.
fn sparkline(queue: &[u16], highest: u16) -> String {
    const BLOCKS: [char; 8] = ['▁', '▂', '▃', '▄', '▅', '▆', '▇', '█'];
    let size = queue.len().div_ceil(60).max(1);
    let block = |part: &[u16]| {
        let most = part.iter().max().copied().unwrap_or(0);
        BLOCKS[(usize::from(most) * 7)
            .div_ceil(usize::from(highest.max(1)))
            .min(7)]
    };
    queue.chunks(size).map(block).collect()
}

fn print(out: &Out, loaded: &Loaded, road: &Road, queues: &Queues) {
    let last = queues
        .looks
        .last()
        .expect("a road is looked at once at least");
    let steps = *queues.steps.last().expect("as many as looks");
    let name = |group: u8| loaded.site.groups[usize::from(group)].name.as_str();
    if out.json {
        let stream = |(at, stream): (usize, &site::Stream)| {
            let (queued, gone) = last.vehicles[at];
            json!({"detector": stream.detector, "group": name(stream.group), "rate": stream.rate,
                   "arrived": queued + gone, "queued": queued, "gone": gone,
                   "longest": queues.longest(at), "queue": queues.queue(at)})
        };
        let streams: Vec<_> = road.streams.iter().enumerate().map(stream).collect();
        print_json(&json!({"steps": steps, "looks": queues.steps, "streams": streams}));
        return;
    }
    let highest = (0..road.streams.len())
        .map(|at| queues.longest(at))
        .max()
        .unwrap_or(0);
    say!(
        "{} of the road, looked at {} times",
        seconds(steps.into()),
        queues.steps.len()
    );
    say!("detector  group    rate  arrived  queued    gone  longest  queue (highest {highest})");
    for (at, stream) in road.streams.iter().enumerate() {
        let (queued, gone) = last.vehicles[at];
        say!(
            "{:>8}  {:<5} {:>7}  {:>7}  {:>6}  {:>6}  {:>7}  {}",
            stream.detector,
            name(stream.group),
            stream.rate,
            queued + gone,
            queued,
            gone,
            queues.longest(at),
            sparkline(&queues.queue(at), highest)
        );
    }
}

/// The height of a stream's row in the picture.
const ROW: f64 = 46.0;

/// The queue of each stream over time, one row for each, all to the same scale.
pub fn picture(loaded: &Loaded, road: &Road, queues: &Queues, title: &str) -> String {
    let (left, top, width) = (230.0, 56.0, 1100.0);
    let steps = f64::from(*queues.steps.last().unwrap_or(&1)).max(1.0);
    let longest = (0..road.streams.len()).map(|at| queues.longest(at)).max();
    let highest = f64::from(longest.unwrap_or(0).max(1));
    let bottom = top + ROW * road.streams.len() as f64;
    let mut svg = Svg::default();
    let title = format!("{title} (vehicles; a row is {highest:.0} vehicles high)");
    svg.title(12.0, 22.0, &title);
    let length = steps / 10.0;
    let step = time_tick(length, 14.0);
    let mut at = 0.0;
    while at <= length + 1e-9 {
        let x = left + at / length * width;
        svg.line((x, top - 8.0), (x, bottom), "stroke=\"#e4e7eb\"");
        svg.mark(x, top - 12.0, &clock(at, length));
        at += step;
    }
    for (at, stream) in road.streams.iter().enumerate() {
        let base = top + ROW * (at + 1) as f64 - 6.0;
        let group = &loaded.site.groups[usize::from(stream.group)];
        svg.label(12.0, base - 18.0, &group.name);
        let words = format!("detector {}, {} per hour", stream.detector, stream.rate);
        svg.note(48.0, base - 18.0, &words);
        let (longest, name) = (
            queues.longest(at),
            group.place.name.as_deref().unwrap_or_default(),
        );
        let words = format!("longest {longest}, {name}");
        svg.faint(48.0, base - 5.0, &shortened(&words, 30));
        let looks = queues.steps.iter().zip(queues.queue(at));
        let point = |(steps_at, queued): (&u32, u16)| {
            let x = left + f64::from(*steps_at) / steps * width;
            (x, base - f64::from(queued) / highest * (ROW - 10.0))
        };
        let mut points: Vec<(f64, f64)> = vec![(left, base)];
        points.extend(looks.map(point));
        points.push((left + width, base));
        svg.polygon(
            &points,
            "fill=\"#a9c5f5\" stroke=\"#3f6fc4\" stroke-width=\"1\" stroke-linejoin=\"round\"",
        );
        svg.line(
            (left, base),
            (left + width, base),
            "stroke=\"#9aa5b1\" stroke-width=\"0.8\"",
        );
    }
    svg.end(left + width + 28.0, bottom + 10.0, &title)
}
