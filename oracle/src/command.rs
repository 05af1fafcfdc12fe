//! The command line of a comparison, whatever the subject.

use std::io::stdout;
use std::process::ExitCode;
use std::time::Instant;

use crate::compare::{Options, run};
use crate::subject::Subject;

const USAGE: &str = "[--seed N] [--scale PERCENT] [--threads N] [--only NAME,NAME] [--trace FILE]";

/// Compares the subjects that `make` makes with the oracle, as the command's words say.
pub fn compare<S: Subject>(name: &str, make: impl Fn() -> S + Sync) -> ExitCode {
    let Some(options) = options() else {
        eprintln!("usage: {name} {USAGE}");
        return ExitCode::from(2);
    };
    println!("seed {}, scale {} %, threads {}", options.seed, options.scale, options.threads);
    let start = Instant::now();
    let result = run(make, &options, &mut stdout());
    let seconds = start.elapsed().as_secs_f64();
    match result {
        Ok(counts) => {
            let asked: u64 = counts.values().map(|count| count.asked).sum();
            let left_out: u64 = counts.values().map(|count| count.left_out).sum();
            println!("{asked} questions, {left_out} left out, no disagreement, {seconds:.1} s");
            ExitCode::SUCCESS
        }
        Err(disagreement) => {
            println!("{disagreement}");
            ExitCode::FAILURE
        }
    }
}

fn options() -> Option<Options> {
    let mut options = Options::default();
    let mut words = std::env::args().skip(1);
    while let Some(word) = words.next() {
        let value = words.next()?;
        match word.as_str() {
            "--seed" => options.seed = value.parse().ok()?,
            "--scale" => options.scale = value.parse().ok()?,
            "--threads" => options.threads = value.parse().ok()?,
            "--only" => options.only = value.split(',').map(str::to_string).collect(),
            "--trace" => options.trace = Some(value.into()),
            _ => return None,
        }
    }
    Some(options)
}
