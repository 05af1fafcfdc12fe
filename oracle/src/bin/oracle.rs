//! One plan on standard input, one answer on standard output.

use std::io::{Read, Write};
use std::process::ExitCode;

use mossladder_oracle::listing::refused;
use mossladder_oracle::paths::steps;
use mossladder_oracle::plan::read;
use mossladder_oracle::pushdown::pushdown;
use mossladder_oracle::question::{Question, plan_line, row, unhex};
use mossladder_oracle::simplify::Answer;
use mossladder_oracle::subject::{Oracle, Subject};

const USAGE: &str = "usage: oracle [--hex] COMMAND < PLAN
  facts [N]           the listing of operator N, or of the last one
  read                the plan as canonical bytes, or the refusal
  simplify N          keep or replace, and the plan with the appended nodes
  apply N E...        predicates E... applied to the facts of operator N, in order
  eval E ROWHEX       expression E on a row of literal records, one for each column
  pushdown N          request T-05: keep or replace, and the plan with the appended nodes
--hex: the plan is hex digits, blanks between them are passed over";

/// Some minutes of optd's time.
const PATIENCE: u64 = 100_000_000;

fn main() -> ExitCode {
    // optd recurses over expressions: 1,024 levels are more than a small stack has room for.
    let thread = std::thread::Builder::new().stack_size(256 << 20);
    let run = thread.spawn(run).expect("a thread can be started");
    match run.join().expect("the answer was given") {
        Some(answer) => {
            std::io::stdout().write_all(answer.as_bytes()).expect("standard output is open");
            ExitCode::SUCCESS
        }
        None => {
            eprintln!("{USAGE}");
            ExitCode::from(2)
        }
    }
}

fn run() -> Option<String> {
    let mut arguments: Vec<String> = std::env::args().skip(1).collect();
    let hex = arguments.first().is_some_and(|first| first == "--hex");
    if hex {
        arguments.remove(0);
    }
    let mut file = Vec::new();
    let words: Vec<&str> = arguments.iter().map(String::as_str).collect();
    if words.is_empty() {
        return None;
    }
    std::io::stdin().read_to_end(&mut file).expect("standard input is open");
    if hex {
        file = unhex(std::str::from_utf8(&file).ok()?)?;
    }
    if let ["pushdown", n] = words.as_slice() {
        return Some(pushed(&file, n.parse().ok()?));
    }
    let question = match words.as_slice() {
        ["facts"] => Question::Derive { file, operator: None },
        ["facts", n] => Question::Derive { file, operator: Some(n.parse().ok()?) },
        ["read"] => Question::Read { file },
        ["simplify", n] => Question::Simplify { file, operator: n.parse().ok()? },
        ["apply", n, predicates @ ..] => {
            let predicates: Result<Vec<u16>, _> = predicates.iter().map(|e| e.parse()).collect();
            Question::Apply { file, operator: n.parse().ok()?, predicates: predicates.ok()? }
        }
        ["eval", e, bytes] => {
            Question::Evaluate { file, expr: e.parse().ok()?, row: row(&unhex(bytes)?)? }
        }
        _ => return None,
    };
    if let Ok(plan) = read(question.file())
        && steps(&plan, &question) > PATIENCE
    {
        return Some(
            "optd would not end: its steps double with each level of sharing\n".to_string(),
        );
    }
    Some(Oracle.answer(&question))
}

fn pushed(file: &[u8], operator: u16) -> String {
    let answer = read(file).and_then(|plan| pushdown(&plan, operator));
    match answer {
        Err(refusal) => refused(refusal),
        Ok((Answer::Keep, plan)) => format!("keep\n{}", plan_line(&plan)),
        Ok((Answer::Replace(by), plan)) => format!("replace {by}\n{}", plan_line(&plan)),
    }
}
