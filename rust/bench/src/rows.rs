//! What is timed of a site, row by row.

use crate::calls::{Calls, BOARDS, WITH_C};
use crate::clock::{longest_ns, times_of, Longest, Time, Work};
use crate::site::{Bench, INPUTS};

/// Makes the work of a set of calls on a site.
type Worker = for<'a> fn(&'a Bench, &'a Calls) -> Work<'a>;

/// A row: its name, its work, the sets that are timed, and the highest ratio of the
/// library to the model that is asked for.
struct Row(&'static str, Worker, &'static [Calls], Option<f64>);

const ROWS: [Row; 10] = [
    Row("read", Bench::reader, BOARDS, None),
    Row("step", Bench::stepper, WITH_C, Some(1.0)),
    Row("retimed step", Bench::retimed_stepper, WITH_C, Some(1.0)),
    Row("times waiting", Bench::waiting_stepper, WITH_C, Some(1.0)),
    Row("cabinet step", Bench::cabinet_stepper, BOARDS, Some(1.0)),
    Row("retime", Bench::retimer, BOARDS, Some(1.3)),
    Row("line", Bench::teller, BOARDS, None),
    Row("seal", Bench::sealer, BOARDS, None),
    Row("resume", Bench::resumer, BOARDS, None),
    Row("waits", Bench::waiter, BOARDS, None),
];

/// The columns after the name, with their widths. Without the library there is one.
const COLUMNS: [(&str, usize); 6] = [
    ("model", 18),
    ("library", 18),
    ("ratio", 14),
    ("at most", 14),
    ("C", 18),
    ("library to C", 14),
];

/// Times the site and prints what was seen.
pub fn print(bench: &Bench, rounds: usize) {
    println!();
    println!("{}: {} bytes", bench.name, bench.personality.len());
    let columns = if BOARDS.len() > 1 { COLUMNS.len() } else { 1 };
    let headings = COLUMNS.map(|(heading, _)| heading.to_string());
    print_row("", &headings[..columns]);
    for Row(name, worker, sets, bar) in ROWS {
        let works = sets.iter().map(|calls| worker(bench, calls));
        print_row(name, &cells(&times_of(rounds, works.collect()), bar));
    }
    let bits = 8 * bench.personality.len();
    print_longest("longest step", bench, Bench::stepper, INPUTS);
    print_longest("longest damaged", bench, Bench::damager, bits);
    let inner = times_of(rounds, vec![bench.inner_stepper()]);
    print_row("inner step", &cells(&inner, None));
}

/// Prints the longest of so many calls.
fn print_longest(name: &str, bench: &Bench, worker: Worker, count: usize) {
    let cells = BOARDS.iter().map(|calls| {
        let Longest { seen, repeated } = longest_ns(count, || worker(bench, calls));
        format!("{seen} ({repeated})")
    });
    print_row(name, &cells.collect::<Vec<_>>());
}

/// The cells of a row: the times of the model, of the library and in C, as far as they
/// are there.
fn cells(times: &[Time], bar: Option<f64>) -> Vec<String> {
    let mut cells = vec![shown(&times[0])];
    if let [model, library, in_c @ ..] = times {
        let judged = judged(library.over(model), bar);
        cells.extend([shown(library), library.ratio(model), judged]);
        for in_c in in_c {
            cells.extend([shown(in_c), library.ratio(in_c)]);
        }
    }
    cells
}

/// What is asked for, and whether it is missed.
fn judged(ratio: f64, bar: Option<f64>) -> String {
    match bar {
        None => String::new(),
        Some(bar) if ratio > bar => format!("missed: {bar:.1}"),
        Some(bar) => format!("{bar:.1}"),
    }
}

fn print_row(name: &str, cells: &[String]) {
    let mut line = format!("{name:17}");
    for (cell, (_, width)) in cells.iter().zip(COLUMNS) {
        line += &format!("{cell:>width$}");
    }
    println!("{}", line.trim_end());
}

fn shown(time: &Time) -> String {
    format!("{:.1} ({:.1})", time.median, time.best)
}
