//! A recorded stream: "a 16-bit length and the script, then records of a 16-bit length and a step".

use crate::mistake::Mistake;
use crate::planted::Planted;
use crate::script::{self, Refusal};
use crate::step::{Judge, Step};
use crate::table::Table;

/// What a stream comes to.
pub enum Stream {
    /// "input that stops before the whole script is there"
    Cut,
    ScriptRefused(Refusal),
    Ran(Recording),
}

/// A stream whose script was accepted.
pub struct Recording {
    pub table: Table,
    /// "The history is the list of accepted steps."
    pub steps: Vec<Step>,
    /// For each record: nothing if it was accepted, else its refusal.
    pub refusals: Vec<Option<Refusal>>,
    /// "Input that stops inside a record or its length"
    pub cut: bool,
}

pub fn read(bytes: &[u8], mistake: Mistake) -> Stream {
    if mistake == Mistake::LongScriptBeforeCut && bytes.first().is_some_and(|high| *high > 16) {
        return Stream::ScriptRefused(1);
    }
    let Some((script, rest)) = first_record(bytes) else {
        return Stream::Cut;
    };
    match script::read(script, mistake) {
        Ok(table) => Stream::Ran(run(table, rest, mistake)),
        Err(refusal) => Stream::ScriptRefused(refusal),
    }
}

/// A length ("most significant byte first") and as many bytes, and what follows; none if they are not there.
pub fn first_record(bytes: &[u8]) -> Option<(&[u8], &[u8])> {
    let length = usize::from(*bytes.first()?) << 8 | usize::from(*bytes.get(1)?);
    let behind = &bytes[2..];
    (behind.len() >= length).then(|| behind.split_at(length))
}

/// The records of a stream behind its script, and whether it stops inside one.
pub fn records(mut bytes: &[u8]) -> (Vec<&[u8]>, bool) {
    let mut records = Vec::new();
    while let Some((record, rest)) = first_record(bytes) {
        records.push(record);
        bytes = rest;
    }
    (records, !bytes.is_empty())
}

/// Each record is accepted or refused; the steps accepted so far are all that a record is judged by.
fn run(table: Table, bytes: &[u8], mistake: Mistake) -> Recording {
    let (mut records, cut) = records(bytes);
    if mistake == Mistake::EmptyRecordEndsStream {
        records.truncate(records.iter().position(|r| r.is_empty()).unwrap_or(records.len()));
    }
    let mut steps: Vec<Step> = Vec::new();
    let mut refusals = Vec::new();
    let mut planted = Planted::new(mistake);
    for record in records {
        let last = planted.last_time(steps.last().map(|step| step.time));
        let judge = Judge { imports: &table.imports, last, mistake };
        let mut step = Step::empty();
        let judged = judge.read(record, &mut step);
        refusals.push(judged.err());
        match judged {
            Ok(()) => steps.push(planted.accepted(step)),
            Err(_) => planted.refused(step, &table.imports),
        }
    }
    if mistake == Mistake::CutRecordCounted && cut {
        refusals.push(Some(21));
    }
    Recording { table, steps, refusals, cut }
}
