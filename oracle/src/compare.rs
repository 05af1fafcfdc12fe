//! The comparison of a subject with the oracle over the families of inputs.

use std::collections::BTreeMap;
use std::fmt::Write as _;
use std::io::Write;
use std::ops::ControlFlow;
use std::path::{Path, PathBuf};
use std::sync::Mutex;
use std::sync::atomic::{AtomicBool, AtomicUsize, Ordering};
use std::thread;
use std::time::{Duration, Instant};

use crate::families::{FAMILIES, Family};
use crate::paths::{STEPS, steps};
use crate::plan;
use crate::question::{Question, hex};
use crate::random::Random;
use crate::reduce::reduce;
use crate::subject::{Oracle, Subject};

pub struct Options {
    pub seed: u64,
    /// Seeded families make this many hundredths of their usual count.
    pub scale: usize,
    /// The families to run; all of them where this is empty.
    pub only: Vec<String>,
    /// How many threads ask. Which questions are asked does not depend on it.
    pub threads: usize,
    /// Where each question is written before it is asked, so that a subject that dies leaves its
    /// question behind.
    pub trace: Option<PathBuf>,
}

impl Default for Options {
    fn default() -> Self {
        Self { seed: 1, scale: 100, only: Vec::new(), threads: 1, trace: None }
    }
}

#[derive(Debug, Default, Clone)]
pub struct Count {
    pub asked: u64,
    /// Questions that optd would never finish.
    pub left_out: u64,
    pub operations: BTreeMap<&'static str, u64>,
    /// Answers by their first word, with the number of a refusal.
    pub answers: BTreeMap<String, u64>,
    pub oracle: Duration,
    pub subject: Duration,
}

impl Count {
    fn add(&mut self, other: &Count) {
        self.asked += other.asked;
        self.left_out += other.left_out;
        for (name, n) in &other.operations {
            *self.operations.entry(name).or_default() += n;
        }
        for (name, n) in &other.answers {
            *self.answers.entry(name.clone()).or_default() += n;
        }
        self.oracle += other.oracle;
        self.subject += other.subject;
    }
}

pub struct Disagreement {
    pub family: &'static str,
    pub seed: u64,
    pub found: Question,
    pub smallest: Question,
    pub oracle: String,
    pub subject: String,
}

impl std::fmt::Display for Disagreement {
    fn fmt(&self, f: &mut std::fmt::Formatter<'_>) -> std::fmt::Result {
        let found = &self.found;
        writeln!(f, "disagreement in {} (seed {:#018x})", self.family, self.seed)?;
        writeln!(f, "found:    {} {}", found.operation(), hex(&found.input()))?;
        let smallest = &self.smallest;
        writeln!(f, "smallest: {} {}", smallest.operation(), hex(&smallest.input()))?;
        writeln!(f, "arguments {}", hex(&smallest.arguments()))?;
        writeln!(f, "file      {}", apart(smallest.file()))?;
        writeln!(f, "oracle:\n{}subject:\n{}", self.oracle, self.subject)
    }
}

/// The file in hex, a blank between records.
fn apart(file: &[u8]) -> String {
    let parts = crate::records::Records::of(file);
    let mut out = String::new();
    for record in &parts.records {
        let _ = write!(out, "{:02x}{} ", record.kind, hex(&record.body));
    }
    out + &hex(&parts.tail)
}

/// Whether optd ends on this question in reasonable time.
pub fn askable(question: &Question) -> bool {
    match plan::read(question.file()) {
        Ok(plan) => steps(&plan, question) <= STEPS,
        Err(_) => true,
    }
}

/// A family, or a part of one by seed: as much as the family makes at a scale of 100, with a stream of its own.
struct Task {
    family: &'static Family,
    part: usize,
    many: usize,
}

fn tasks(options: &Options) -> Vec<Task> {
    let asked = |family: &&Family| {
        options.only.is_empty() || options.only.iter().any(|name| name == family.name)
    };
    let mut tasks = Vec::new();
    for family in FAMILIES.iter().filter(asked) {
        let mut left = family.count * options.scale / 100;
        let mut part = 0;
        loop {
            let many = left.min(family.count);
            tasks.push(Task { family, part, many });
            left -= many;
            part += 1;
            if left == 0 {
                break;
            }
        }
    }
    tasks
}

pub type Counts = BTreeMap<&'static str, Count>;

/// Asks both sides everything. Ends at the first disagreement, which it reduces. Each thread makes a
/// subject of its own.
pub fn run<S: Subject>(
    make: impl Fn() -> S + Sync,
    options: &Options,
    out: &mut (dyn Write + Send),
) -> Result<Counts, Box<Disagreement>> {
    let tasks = tasks(options);
    let shared = Shared {
        options,
        tasks: &tasks,
        next: AtomicUsize::new(0),
        ended: AtomicBool::new(false),
        report: Mutex::new(Report { out, counts: Counts::new(), wrong: None }),
    };
    let threads = if options.trace.is_some() { 1 } else { options.threads.max(1) };
    thread::scope(|scope| {
        for _ in 0..threads {
            // optd recurses, and so do the plans' walks
            let builder = thread::Builder::new().stack_size(256 << 20);
            let work = || shared.work(&mut make());
            builder.spawn_scoped(scope, work).expect("a thread can be started");
        }
    });
    let report = shared.report.into_inner().expect("no thread died");
    match report.wrong {
        None => Ok(report.counts),
        Some(wrong) => Err(wrong),
    }
}

struct Report<'a> {
    out: &'a mut (dyn Write + Send),
    counts: Counts,
    wrong: Option<Box<Disagreement>>,
}

/// What the threads of a run have in common.
struct Shared<'a> {
    options: &'a Options,
    tasks: &'a [Task],
    next: AtomicUsize,
    /// A disagreement was found.
    ended: AtomicBool,
    report: Mutex<Report<'a>>,
}

impl Shared<'_> {
    fn work(&self, subject: &mut dyn Subject) {
        while !self.ended.load(Ordering::Relaxed) {
            let Some(task) = self.tasks.get(self.next.fetch_add(1, Ordering::Relaxed)) else {
                return;
            };
            self.task(subject, task);
        }
    }

    fn task(&self, subject: &mut dyn Subject, task: &Task) {
        let family = task.family;
        let seed = seed_of(self.options.seed, family.name, task.part);
        let mut comparing = Comparing {
            subject,
            ended: &self.ended,
            trace: self.options.trace.as_deref(),
            count: Count::default(),
            wrong: None,
        };
        let mut random = Random::new(seed);
        let _ = (family.run)(&mut random, task.many, &mut |question| comparing.ask(question));
        let (count, wrong) = (comparing.count, comparing.wrong);
        let found = wrong.map(|found| Box::new(disagreement(subject, family.name, seed, found)));
        let mut report = self.report.lock().expect("no thread died");
        print(report.out, family, task.part, seed, &count);
        report.counts.entry(family.name).or_default().add(&count);
        report.wrong = report.wrong.take().or(found);
    }
}

/// Each part of a family has a stream of its own, so that a family can be run alone.
fn seed_of(seed: u64, name: &str, part: usize) -> u64 {
    let mixed = name.bytes().fold(seed, |mixed, byte| Random::new(mixed ^ u64::from(byte)).bits());
    let mixed = Random::new(mixed).bits();
    if part == 0 { mixed } else { Random::new(mixed ^ part as u64).bits() }
}

struct Comparing<'a> {
    subject: &'a mut dyn Subject,
    ended: &'a AtomicBool,
    trace: Option<&'a Path>,
    count: Count,
    wrong: Option<Question>,
}

impl Comparing<'_> {
    fn ask(&mut self, question: Question) -> ControlFlow<()> {
        if self.ended.load(Ordering::Relaxed) {
            return ControlFlow::Break(());
        }
        if !askable(&question) {
            self.count.left_out += 1;
            return ControlFlow::Continue(());
        }
        if let Some(path) = self.trace {
            let line = format!("{} {}\n", question.operation(), hex(&question.input()));
            std::fs::write(path, line).expect("the trace can be written");
        }
        let start = Instant::now();
        let expected = Oracle.answer(&question);
        let middle = Instant::now();
        let got = self.subject.answer(&question);
        self.count.oracle += middle - start;
        self.count.subject += middle.elapsed();
        self.count.asked += 1;
        *self.count.operations.entry(question.operation()).or_default() += 1;
        *self.count.answers.entry(class(&expected)).or_default() += 1;
        if got == expected {
            return ControlFlow::Continue(());
        }
        self.ended.store(true, Ordering::Relaxed);
        self.wrong = Some(question);
        ControlFlow::Break(())
    }
}

/// An answer's first word, with the number where it is a refusal, and the flag where it is facts.
pub fn class(answer: &str) -> String {
    let line = answer.lines().next().unwrap_or("");
    let words: Vec<&str> = line.split(' ').collect();
    match words.as_slice() {
        ["refused", number, ..] => format!("refused {number}"),
        ["facts", _, "1"] => "flagged".to_string(),
        [first, ..] => first.to_string(),
        [] => String::new(),
    }
}

fn print(out: &mut dyn Write, family: &Family, part: usize, seed: u64, count: &Count) {
    let Family { name, what, .. } = family;
    let part = if part == 0 { String::new() } else { format!(" (part {part})") };
    let list = |pairs: Vec<String>| pairs.join(", ");
    let operations = count.operations.iter().map(|(name, n)| format!("{name} {n}")).collect();
    let answers = count.answers.iter().map(|(name, n)| format!("{name} {n}")).collect();
    let text = format!(
        "{name}: {what}{part}\n  seed {seed:#018x}; {} asked ({}); {} left out; oracle {:.2} s, subject {:.2} s\n  answers: {}\n",
        count.asked,
        list(operations),
        count.left_out,
        count.oracle.as_secs_f64(),
        count.subject.as_secs_f64(),
        list(answers),
    );
    out.write_all(text.as_bytes()).expect("the report can be written");
}

fn disagreement(
    subject: &mut dyn Subject,
    family: &'static str,
    seed: u64,
    found: Question,
) -> Disagreement {
    let smallest = reduce(&found, &mut |question| {
        askable(question) && Oracle.answer(question) != subject.answer(question)
    });
    let (oracle, subject) = (Oracle.answer(&smallest), subject.answer(&smallest));
    Disagreement { family, seed, found, smallest, oracle, subject }
}
