//! Shortening an input that shows a difference: steps, entries and bytes are left out as long as it still does.

use crate::compare::Which;
use crate::draft::{record, ScriptDraft};
use crate::mistake::Mistake;
use crate::program::{difference, Program};
use crate::script;
use crate::stream::{first_record, records};
use crate::table::{Operand, Table};
use std::time::{Duration, Instant};

/// The time that shortening may take, and one run of the program in it.
const LIMIT: Duration = Duration::from_secs(60);
pub const LIMIT_OF_RUN: Duration = Duration::from_secs(5);

struct Shortener {
    which: Which,
    program: Program,
    best: Vec<u8>,
    started: Instant,
}

pub fn shortened(which: Which, program: &Program, input: &[u8]) -> Vec<u8> {
    let program = program.clone().within(LIMIT_OF_RUN);
    let mut shortener = Shortener { which, program, best: input.to_vec(), started: Instant::now() };
    loop {
        let before = shortener.best.clone();
        shortener.drop_records();
        shortener.drop_entries();
        shortener.drop_labels();
        shortener.drop_bytes();
        shortener.zero_bytes();
        if shortener.best == before || shortener.is_over() {
            return shortener.best;
        }
    }
}

impl Shortener {
    fn is_over(&self) -> bool {
        self.started.elapsed() >= LIMIT
    }

    /// Takes the candidate if it is another one that still differs.
    fn try_out(&mut self, candidate: Vec<u8>) -> bool {
        if candidate == self.best || self.is_over() {
            return false;
        }
        let Ok(run) = self.program.run(&candidate) else {
            return false;
        };
        let differs = difference(&self.which.expected(&candidate), &run).is_some();
        if differs {
            self.best = candidate;
        }
        differs
    }

    /// The script of the best input so far, and the bytes behind it.
    fn parts(&self) -> Option<(Vec<u8>, Vec<u8>)> {
        if self.which == Which::Inspect {
            return Some((self.best.clone(), Vec::new()));
        }
        let (script, rest) = first_record(&self.best)?;
        Some((script.to_vec(), rest.to_vec()))
    }

    fn joined(&self, script: &[u8], rest: &[u8]) -> Vec<u8> {
        if self.which == Which::Inspect {
            return script.to_vec();
        }
        let mut bytes = record(script);
        bytes.extend(rest);
        bytes
    }

    /// Leaves out runs of records: first half of them at once, at last one by one.
    fn drop_records(&mut self) {
        let Some((_, rest)) = self.parts() else {
            return;
        };
        let mut length = records(&rest).0.len();
        while length > 0 {
            let mut at = 0;
            while self.without_records(at, length) {
                at += length;
            }
            length /= 2;
        }
    }

    /// Tries to leave out the records from `at` on, as often as it works; false behind the last record.
    fn without_records(&mut self, at: usize, length: usize) -> bool {
        loop {
            let Some((script, rest)) = self.parts() else {
                return false;
            };
            let all = records(&rest).0;
            if at >= all.len() {
                return false;
            }
            let kept = all.iter().take(at).chain(all.iter().skip(at + length));
            let mut shorter: Vec<u8> = kept.flat_map(|step| record(step)).collect();
            let whole: usize = all.iter().map(|step| step.len() + 2).sum();
            shorter.extend(&rest[whole..]);
            let candidate = self.joined(&script, &shorter);
            if !self.try_out(candidate) {
                return true;
            }
        }
    }

    /// Leaves out entries that no other entry names.
    fn drop_entries(&mut self) {
        for entry in (0..128).rev() {
            let Some((table, rest)) = self.table() else {
                return;
            };
            let Some(smaller) = without_entry(&table, entry) else {
                continue;
            };
            let candidate = self.joined(&ScriptDraft::of(&smaller).pack(), &rest);
            self.try_out(candidate);
        }
    }

    fn drop_labels(&mut self) {
        for place in 0..128 {
            let Some((mut table, rest)) = self.table() else {
                return;
            };
            let Some(label) = table.labels.get_mut(place) else {
                return;
            };
            label.clear();
            let candidate = self.joined(&ScriptDraft::of(&table).pack(), &rest);
            self.try_out(candidate);
        }
    }

    fn table(&self) -> Option<(Table, Vec<u8>)> {
        let (script, rest) = self.parts()?;
        let table = script::read(&script, Mistake::None).ok()?;
        Some((table, rest))
    }

    /// Leaves out runs of bytes.
    fn drop_bytes(&mut self) {
        let mut length = self.best.len() / 2;
        while length > 0 {
            let mut at = 0;
            while at < self.best.len() {
                let end = (at + length).min(self.best.len());
                let mut candidate = self.best.clone();
                candidate.drain(at..end);
                if !self.try_out(candidate) {
                    at += length;
                }
            }
            length /= 2;
        }
    }

    fn zero_bytes(&mut self) {
        for at in 0..self.best.len() {
            let mut candidate = self.best.clone();
            candidate[at] = 0;
            self.try_out(candidate);
        }
    }
}

/// The table without one entry; none if another entry names it, or it is the only one.
fn without_entry(table: &Table, entry: usize) -> Option<Table> {
    let named = table.entries.iter().any(|other| other.operand_entries().contains(&entry));
    if named || entry >= table.entries.len() || table.entries.len() == 1 {
        return None;
    }
    let mut smaller = table.clone();
    if table.entries[entry].kind.has_label() {
        smaller.labels.remove(table.label_place(entry));
    }
    smaller.entries.remove(entry);
    for other in smaller.entries.iter_mut() {
        for (place, operand) in other.kind.operands().iter().enumerate() {
            let is_behind = other.operands[place] > entry as i64;
            if matches!(operand, Operand::Entry(_)) && is_behind {
                other.operands[place] -= 1;
            }
        }
    }
    Some(smaller)
}
