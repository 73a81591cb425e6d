//! Every call of the library against the oracle, on random arguments, until the
//! time is up. A seed fixes the cases and their order.

mod calls;
mod cases;
mod draw;
mod encoding;
mod generator;
mod job_line;
mod judge;
mod lent;
mod shared;
mod slicer;
mod tally;
mod three;
mod watch;
mod waveform;

use cases::Cases;
use oracle::annex_c;
use std::process::{Command, ExitCode};
use std::time::{Duration, SystemTime, UNIX_EPOCH};
use watch::End;

const ANNEX_C: &str = include_str!("../../../data/annex-c.csv");

const USAGE: &str = "usage: random [--seconds S] [--seed N] [--case N]
  --seconds S  how long, 20 without it
  --seed N     the seed, from the clock without it
  --case N     this case alone";

/// The first word of the command line in the process that makes the calls.
const WATCHED: &str = "watched";

/// What the command line asks for.
struct Options {
    watched: bool,
    seconds: u64,
    seed: u64,
    case: Option<u64>,
}

fn main() -> ExitCode {
    let arguments: Vec<String> = std::env::args().skip(1).collect();
    let Some(options) = options(&arguments) else {
        eprintln!("{USAGE}");
        return ExitCode::from(2);
    };
    let annex_c = annex_c::parse(ANNEX_C).expect("the data file is annex C");
    let cases = Cases {
        annex_c: &annex_c,
        seed: options.seed,
    };
    let passed = match options.case {
        Some(case) => cases.one(case),
        None if options.watched => cases.all(Duration::from_secs(options.seconds), watch::note),
        None => return watched(&options, &cases),
    };
    match passed {
        Ok(text) => {
            println!("{text}");
            ExitCode::SUCCESS
        }
        Err(text) => {
            println!("{text}");
            ExitCode::FAILURE
        }
    }
}

/// All cases, in a process of their own.
fn watched(options: &Options, cases: &Cases) -> ExitCode {
    println!("seed {}", options.seed);
    let program = std::env::current_exe().expect("this program has a path");
    let mut command = Command::new(program);
    command.args([WATCHED, "--seconds", &options.seconds.to_string()]);
    command.args(["--seed", &options.seed.to_string()]);
    let end = watch::watch(&mut command, |line| println!("{line}"));
    match end.expect("this program can be run") {
        End::Passed => return ExitCode::SUCCESS,
        End::Failed => {}
        End::Crashed(how, None) => println!("CRASHED before the first case: {how}"),
        End::Crashed(how, Some(case)) => {
            println!("CRASHED in case {case}: {how}\n  {}", cases.again(case))
        }
    }
    ExitCode::FAILURE
}

fn options(arguments: &[String]) -> Option<Options> {
    let clock = SystemTime::now().duration_since(UNIX_EPOCH).ok()?;
    let watched = arguments.first().is_some_and(|word| word == WATCHED);
    let mut options = Options {
        watched,
        seconds: 20,
        seed: clock.as_nanos() as u64,
        case: None,
    };
    for pair in arguments[usize::from(watched)..].chunks(2) {
        let [name, value] = pair else {
            return None;
        };
        let value = value.parse().ok()?;
        match name.as_str() {
            "--seconds" => options.seconds = value,
            "--seed" => options.seed = value,
            "--case" => options.case = Some(value),
            _ => return None,
        }
    }
    Some(options)
}
