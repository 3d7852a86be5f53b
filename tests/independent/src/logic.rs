//! The logic over the history: "Results are defined from it alone, with nothing that a monitor keeps."
//!
//! The rows of all accepted steps are worked out from the list of those steps. A row holds one result for
//! each entry. What an entry says of the past it looks up in the steps and rows before it; nothing else is
//! handed from one row to the next.

use crate::mistake::Mistake;
use crate::step::Step;
use crate::table::{Entry, Table};
use crate::truth::Truth;

/// The result of an entry in a step. An update and an alarm have an event's, a property a condition's.
#[derive(Clone, Copy, PartialEq, Eq, Debug)]
pub enum Outcome {
    Condition(Truth),
    Event(bool),
    Number(Option<i64>),
}

pub type Row = Vec<Outcome>;

/// The results of every entry at every accepted step.
pub fn rows(table: &Table, steps: &[Step], mistake: Mistake) -> Vec<Row> {
    let mut rows: Vec<Row> = Vec::with_capacity(steps.len());
    for now in 0..steps.len() {
        rows.push(Vec::with_capacity(table.entries.len()));
        // "Entries are taken in script order within a step."
        for entry in &table.entries {
            let history = History { table, steps, rows: &rows, now, mistake };
            let outcome = history.outcome(entry);
            rows[now].push(outcome);
        }
    }
    rows
}

/// The steps up to `now`, the rows before it, and the results in this step of the entries before this one.
pub struct History<'a> {
    pub table: &'a Table,
    pub steps: &'a [Step],
    pub rows: &'a [Row],
    pub now: usize,
    pub mistake: Mistake,
}

impl History<'_> {
    fn outcome(&self, entry: &Entry) -> Outcome {
        match entry.kind as usize {
            0..=8 => Outcome::Condition(self.condition(entry)),
            9..=14 => Outcome::Event(self.event(entry)),
            15..=21 => Outcome::Number(self.number(entry)),
            // "An update has the result of its event"; "An alarm is raised where its event occurs."
            22 | 23 => Outcome::Event(self.occurs(self.now, entry.place(0))),
            _ => Outcome::Condition(self.truth(self.now, entry.place(0))),
        }
    }

    /// The result of a condition entry at a step.
    pub fn truth(&self, step: usize, entry: usize) -> Truth {
        match self.rows[step][entry] {
            Outcome::Condition(truth) => truth,
            other => unreachable!("entry {entry} is no condition: {other:?}"),
        }
    }

    /// Whether an event entry occurs at a step.
    pub fn occurs(&self, step: usize, entry: usize) -> bool {
        match self.rows[step][entry] {
            Outcome::Event(occurs) => occurs,
            other => unreachable!("entry {entry} is no event: {other:?}"),
        }
    }

    /// The result of a number entry at a step.
    pub fn amount(&self, step: usize, entry: usize) -> Option<i64> {
        match self.rows[step][entry] {
            Outcome::Number(number) => number,
            other => unreachable!("entry {entry} is no number: {other:?}"),
        }
    }

    /// This step, then the one before, back to the first.
    pub fn back_from_now(&self) -> impl Iterator<Item = usize> {
        (0..self.now + 1).rev()
    }
}
