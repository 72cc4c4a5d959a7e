//! The command `willowera`: a site text or a personality, checked, built, run and
//! explained. Every verdict, colour, wait, setting, road and panel line comes from a call
//! of the proved library.
//!
//! Exit status: 0 fine; 1 a mistake in a text, a refusal or a breach; 2 wrong use or a
//! file that cannot be read or written.

#![forbid(unsafe_code)]

#[macro_use]
mod out;

mod check;
mod cli;
mod convert;
mod demands;
mod frames;
mod load;
mod phases;
mod report;
mod retime;
mod road;
mod run;
mod svg;
mod timeline;
mod waits;
mod watch;

use out::{Out, Stop};
use std::process::ExitCode;

fn main() -> ExitCode {
    let matches = cli::command().get_matches();
    let Some((name, matches)) = matches.subcommand() else {
        return ExitCode::from(2);
    };
    let out = Out::new(matches.get_flag("json"));
    if willowera::version() != willowera::VERSION {
        eprintln!("the library has another version of the interface than this program");
        return ExitCode::from(2);
    }
    let end = match name {
        "check" => check::check(&out, matches),
        "build" => convert::build(&out, matches),
        "show" => convert::show(&out, matches),
        "waits" => waits::waits(&out, matches),
        "run" => run::run(&out, matches),
        "road" => road::road(&out, matches),
        "watch" => watch::watch(&out, matches),
        "retime" => retime::retime(&out, matches),
        _ => report::report(&out, matches),
    };
    match end {
        Ok(()) => ExitCode::SUCCESS,
        Err(Stop::Refused) => ExitCode::from(1),
        Err(Stop::Unusable(why)) => {
            eprintln!("willowera: {why}");
            ExitCode::from(2)
        }
    }
}
