//! A question on which two sides differ, made as small as dropping and lowering can make it while
//! they still differ.

use crate::plan::Literal;
use crate::question::Question;
use crate::records::{Field, Record, Records, Sort, fields, item_kind, sort};

/// Whether the two sides still differ on a question.
pub type Differs<'a> = dyn FnMut(&Question) -> bool + 'a;

pub fn reduce(question: &Question, differs: &mut Differs) -> Question {
    let mut best = question.clone();
    loop {
        let before = best.clone();
        drop_records(&mut best, differs);
        drop_arguments(&mut best, differs);
        hoist(&mut best, differs);
        lower(&mut best, differs);
        drop_bytes(&mut best, differs);
        if best == before {
            return best;
        }
    }
}

/// Takes the candidate where it is smaller and the sides still differ on it.
fn try_one(best: &mut Question, candidate: Question, differs: &mut Differs) -> bool {
    let (old, new) = (best.input(), candidate.input());
    let smaller = (new.len(), &new) < (old.len(), &old);
    let taken = smaller && differs(&candidate);
    if taken {
        *best = candidate;
    }
    taken
}

/// Runs of records, long runs first.
fn drop_records(best: &mut Question, differs: &mut Differs) {
    let mut length = Records::of(best.file()).records.len();
    while length > 0 {
        let mut start = 0;
        while start < Records::of(best.file()).records.len() {
            let candidate = without(best, |place| (start..start + length).contains(&place));
            if !try_one(best, candidate, differs) {
                start += length;
            }
        }
        length /= 2;
    }
}

/// The question without these records: handles, counts and the row follow. A handle of a record that
/// is gone becomes the one before it.
pub fn without(question: &Question, gone: impl Fn(usize) -> bool) -> Question {
    let mut parts = Records::of(question.file());
    let owners = owners(&parts);
    let dropped: Vec<bool> = (0..parts.records.len())
        .map(|i| gone(i) || owners[i].is_some_and(|(owner, _)| gone(owner)))
        .collect();
    for i in 0..parts.records.len() {
        if dropped[i]
            && let Some((owner, at)) = owners[i]
        {
            let count = parts.records[owner].number(at);
            parts.records[owner].set(at, count.saturating_sub(1));
        }
    }
    let maps = Maps::of(&parts, &dropped);
    let mut kept = Vec::new();
    for (record, dropped) in parts.records.iter().zip(&dropped) {
        if *dropped {
            continue;
        }
        let mut record = record.clone();
        for field in fields(record.kind) {
            if let Field::Handle(sort, at) = *field {
                let handle = record.number(at);
                record.set(at, maps.renumbered(sort, handle));
            }
        }
        kept.push(record);
    }
    parts.records = kept;
    maps.question(&question.with_file(parts.bytes()))
}

/// For each item the record that counts it and where the count stands there.
fn owners(parts: &Records) -> Vec<Option<(usize, usize)>> {
    let mut owners = vec![None; parts.records.len()];
    for (i, record) in parts.records.iter().enumerate() {
        let mut next = i + 1;
        for field in fields(record.kind) {
            let Field::Count(at) = *field else {
                continue;
            };
            let wanted = item_kind(record.kind, *field);
            let mut left = record.number(at);
            while left > 0 && parts.records.get(next).is_some_and(|item| item.kind == wanted) {
                owners[next] = Some((i, at));
                left -= 1;
                next += 1;
            }
        }
    }
    owners
}

/// For each sort of handle, which of the old ones are gone.
struct Maps {
    gone: [Vec<bool>; 3],
}

impl Maps {
    fn of(parts: &Records, dropped: &[bool]) -> Self {
        let mut gone = [Vec::new(), Vec::new(), Vec::new()];
        for (record, dropped) in parts.records.iter().zip(dropped) {
            if let Some(sort) = sort(record.kind) {
                gone[sort as usize].push(*dropped);
            }
        }
        Self { gone }
    }

    fn renumbered(&self, sort: Sort, handle: u16) -> u16 {
        let gone = &self.gone[sort as usize];
        let place = usize::from(handle);
        if place >= gone.len() {
            // A handle that is not there stays as far beyond the end as it was.
            let lost = gone.iter().filter(|gone| **gone).count() as u16;
            return if handle > 0x7fff { handle } else { handle - lost };
        }
        let kept_before = gone[..place].iter().filter(|gone| !**gone).count() as u16;
        if gone[place] { kept_before.saturating_sub(1) } else { kept_before }
    }

    fn question(&self, question: &Question) -> Question {
        let mut question = question.clone();
        match &mut question {
            Question::Read { .. } | Question::Derive { operator: None, .. } => {}
            Question::Derive { operator: Some(operator), .. }
            | Question::Simplify { operator, .. } => {
                *operator = self.renumbered(Sort::Operator, *operator);
            }
            Question::Apply { operator, predicates, .. } => {
                *operator = self.renumbered(Sort::Operator, *operator);
                for predicate in predicates {
                    *predicate = self.renumbered(Sort::Expr, *predicate);
                }
            }
            Question::Evaluate { expr, row, .. } => {
                *expr = self.renumbered(Sort::Expr, *expr);
                let gone = &self.gone[Sort::Column as usize];
                let mut number = 0;
                row.retain(|_| {
                    number += 1;
                    !gone.get(number - 1).copied().unwrap_or(false)
                });
            }
        }
        question
    }
}

/// Predicates left out, values of a row made NULL.
fn drop_arguments(best: &mut Question, differs: &mut Differs) {
    let mut place = 0;
    loop {
        let mut candidate = best.clone();
        let there = match &mut candidate {
            Question::Apply { predicates, .. } if place < predicates.len() => {
                predicates.remove(place);
                true
            }
            Question::Evaluate { row, .. } if place < row.len() => {
                row[place] = Literal::Null(row[place].kind());
                true
            }
            _ => false,
        };
        if !there {
            return;
        }
        if !try_one(best, candidate, differs) || matches!(best, Question::Evaluate { .. }) {
            place += 1;
        }
    }
}

/// In place of a handle, a handle that the record there holds.
fn hoist(best: &mut Question, differs: &mut Differs) {
    let mut place = 0;
    while place < Records::of(best.file()).records.len() {
        let parts = Records::of(best.file());
        let record = &parts.records[place];
        let mut candidates = Vec::new();
        for field in fields(record.kind) {
            let Field::Handle(sort, at) = *field else {
                continue;
            };
            for lower in below(&parts, sort, record.number(at)) {
                let mut parts = parts.clone();
                parts.records[place].set(at, lower);
                candidates.push(best.with_file(parts.bytes()));
            }
        }
        if !candidates.into_iter().any(|candidate| try_one(best, candidate, differs)) {
            place += 1;
        }
    }
    hoist_arguments(best, differs);
}

fn hoist_arguments(best: &mut Question, differs: &mut Differs) {
    loop {
        let parts = Records::of(best.file());
        let mut candidates = Vec::new();
        match &*best {
            Question::Derive { operator: Some(operator), .. }
            | Question::Simplify { operator, .. }
            | Question::Apply { operator, .. } => {
                for lower in below(&parts, Sort::Operator, *operator) {
                    let mut candidate = best.clone();
                    match &mut candidate {
                        Question::Derive { operator, .. } => *operator = Some(lower),
                        Question::Simplify { operator, .. } | Question::Apply { operator, .. } => {
                            *operator = lower;
                        }
                        _ => {}
                    }
                    candidates.push(candidate);
                }
            }
            Question::Evaluate { expr, .. } => {
                for lower in below(&parts, Sort::Expr, *expr) {
                    let mut candidate = best.clone();
                    if let Question::Evaluate { expr, .. } = &mut candidate {
                        *expr = lower;
                    }
                    candidates.push(candidate);
                }
            }
            _ => {}
        }
        if let Question::Apply { predicates, .. } = &*best {
            for (number, predicate) in predicates.iter().enumerate() {
                for lower in below(&parts, Sort::Expr, *predicate) {
                    let mut candidate = best.clone();
                    if let Question::Apply { predicates, .. } = &mut candidate {
                        predicates[number] = lower;
                    }
                    candidates.push(candidate);
                }
            }
        }
        if !candidates.into_iter().any(|candidate| try_one(best, candidate, differs)) {
            return;
        }
    }
}

/// The handles of the same sort that a handle's record and its items hold, and handle 0.
fn below(parts: &Records, wanted: Sort, handle: u16) -> Vec<u16> {
    let mut found = vec![0];
    let of_sort = parts.records.iter().enumerate().filter(|(_, r)| sort(r.kind) == Some(wanted));
    let Some((place, _)) = of_sort.clone().nth(handle.into()) else {
        return found;
    };
    let items = parts.records[place + 1..].iter().take_while(|record| record.is_item());
    for record in std::iter::once(&parts.records[place]).chain(items) {
        for field in fields(record.kind) {
            if let Field::Handle(sort, at) = *field
                && sort == wanted
            {
                found.push(record.number(at));
            }
        }
    }
    found.retain(|lower| *lower < handle);
    found.sort();
    found.dedup();
    found
}

/// Each record in a plainer form: shorter kinds, and codes, names and literals made 0.
fn lower(best: &mut Question, differs: &mut Differs) {
    let count = Records::of(best.file()).records.len();
    for place in 0..count {
        let parts = Records::of(best.file());
        let Some(record) = parts.records.get(place) else {
            return;
        };
        for plainer in plainer(record) {
            let mut parts = parts.clone();
            parts.records[place] = plainer;
            if try_one(best, best.with_file(parts.bytes()), differs) {
                break;
            }
        }
    }
}

fn plainer(record: &Record) -> Vec<Record> {
    let body = &record.body;
    let mut found: Vec<Record> = Vec::new();
    let mut add = |kind: u8, body: &[u8]| found.push(Record { kind, body: body.to_vec() });
    match record.kind {
        // A number may do as a Boolean, a Scan as a ConstScan, a join as a product of its inputs.
        0x12..=0x15 => {
            add(0x11, &[0]);
            add(0x12, &[0; 4]);
        }
        0x30 => add(0x31, &body[2..4]),
        0x3c => add(0x3b, &body[3..7]),
        0x3d => add(0x3b, &body[2..6]),
        _ => {}
    }
    for body in lower_bodies(record.kind, body) {
        add(record.kind, &body);
    }
    found
}

fn lower_bodies(kind: u8, body: &[u8]) -> Vec<Vec<u8>> {
    let mut found = Vec::new();
    if (0x12..=0x15).contains(&kind) {
        found.push(vec![0; body.len()]);
        let mut one = vec![0; body.len()];
        one[body.len() - 1] = 1;
        found.push(one);
    }
    for field in fields(kind) {
        match *field {
            Field::Code(at) => {
                for code in 0..body[at] {
                    let mut lower = body.to_vec();
                    lower[at] = code;
                    found.push(lower);
                }
            }
            Field::Number(at) => {
                let mut lower = body.to_vec();
                lower[at..at + 2].copy_from_slice(&[0, 0]);
                found.push(lower);
            }
            _ => {}
        }
    }
    found
}

/// Single bytes, and the file's end, where the file is small.
fn drop_bytes(best: &mut Question, differs: &mut Differs) {
    let mut place = 0;
    while place < best.file().len() && best.file().len() < 400 {
        let mut cut = best.file().to_vec();
        cut.truncate(place);
        if try_one(best, best.with_file(cut), differs) {
            return;
        }
        let mut file = best.file().to_vec();
        file.remove(place);
        if !try_one(best, best.with_file(file), differs) {
            place += 1;
        }
    }
}
