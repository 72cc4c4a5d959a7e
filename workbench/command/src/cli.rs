//! The arguments.

use clap::{value_parser, Arg, ArgAction, Command};

const AFTER: &str = "SITE is a site text, a folder with a site.txt, or a personality (bytes).\n\
                     Exit status: 0 fine; 1 a mistake in a text, a refusal or a breach; 2 wrong use or an unreadable file.";

pub fn command() -> Command {
    Command::new("willowera")
        .version(env!("CARGO_PKG_VERSION"))
        .about("See a site, try it and explain it before it is built")
        .after_help(AFTER)
        .subcommand_required(true)
        .arg_required_else_help(true)
        .subcommand(check())
        .subcommand(build())
        .subcommand(show())
        .subcommand(waits())
        .subcommand(run())
        .subcommand(road())
        .subcommand(watch())
        .subcommand(retime())
        .subcommand(report())
}

fn part(name: &'static str, about: &'static str) -> Command {
    let json = Arg::new("json").long("json").action(ArgAction::SetTrue);
    Command::new(name)
        .about(about)
        .after_help(AFTER)
        .arg(json.help("Prints JSON for programs"))
}

fn with_site(name: &'static str, about: &'static str) -> Command {
    let site = Arg::new("SITE")
        .required(true)
        .help("The site text or the personality");
    part(name, about).arg(site)
}

fn flag(name: &'static str, help: &'static str) -> Arg {
    Arg::new(name)
        .long(name)
        .action(ArgAction::SetTrue)
        .help(help)
}

fn file(name: &'static str, help: &'static str) -> Arg {
    Arg::new(name).long(name).value_name("FILE").help(help)
}

fn number(name: &'static str, help: &'static str) -> Arg {
    Arg::new(name)
        .long(name)
        .value_name("N")
        .value_parser(value_parser!(u64))
        .help(help)
}

fn check() -> Command {
    with_site(
        "check",
        "Accepted, or the refusal in words with its line; then warnings",
    )
    .arg(flag("strict", "Exit status 1 if there are warnings"))
}

fn build() -> Command {
    with_site("build", "Writes the personality of a site text")
        .arg(file("out", "The file; standard output without it").short('o'))
        .arg(
            Arg::new("c")
                .long("c")
                .value_name("NAME")
                .help("Writes a C array of this name"),
        )
        .arg(flag("anyway", "Also if the library refuses it"))
}

fn show() -> Command {
    let bytes = Arg::new("SITE").required(true).value_name("BYTES");
    part("show", "Writes the text of a personality")
        .arg(bytes.help("The personality"))
        .arg(file("out", "The file; standard output without it").short('o'))
}

fn waits() -> Command {
    with_site(
        "waits",
        "The wait of each phase and movement and the wait bound, with their parts; the phases before one's own",
    )
}

fn run() -> Command {
    with_site("run", "Steps the site and prints what changes: phase, interval, colours, target, counts, demands and the panel's line")
        .arg(file("inputs", "Which detectors are occupied and which buttons pressed in which steps"))
        .arg(number("steps", "The number of steps; those of the inputs without it, else 600"))
        .arg(flag("all", "Prints every step"))
        .arg(flag("trace", "Prints the lines of the trace program"))
        .arg(file("svg", "Writes a timeline as a picture"))
}

fn road() -> Command {
    with_site(
        "road",
        "The simulated road for the site's streams: a table, and the queues as they grow",
    )
    .arg(file(
        "streams",
        "A road text in place of the site's own streams",
    ))
    .arg(number(
        "steps",
        "The number of steps; those of the streams without it",
    ))
    .arg(file("svg", "Writes the queues as a picture"))
    .arg(file(
        "timeline",
        "Writes a timeline of the first 3000 steps as a picture",
    ))
}

fn watch() -> Command {
    with_site(
        "watch",
        "Adversarial and random inputs against the library, with the monitor of demand 3 watching; the longest wait of each phase and movement beside its own",
    )
    .arg(number("steps", "The number of steps").default_value("1000000"))
    .arg(number("seed", "The seed of the random inputs").default_value("1"))
}

fn retime() -> Command {
    let new = Arg::new("NEW")
        .required(true)
        .help("The site with the new times");
    with_site(
        "retime",
        "Whether one may follow the other while running, and what differs",
    )
    .arg(new)
}

fn report() -> Command {
    with_site(
        "report",
        "One HTML page: phases, conflicts, settings, waits, an hour of the site's streams",
    )
    .arg(file("out", "The file; standard output without it").short('o'))
    .arg(file(
        "streams",
        "A road text in place of the site's own streams",
    ))
}
