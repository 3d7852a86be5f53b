//! What each kind of number means over the history: kinds 15 to 21.

use crate::logic::History;
use crate::mistake::Mistake;
use crate::step::Report;
use crate::table::{Entry, Kind, GREATEST_NUMBER, LEAST_NUMBER};

impl History<'_> {
    pub fn number(&self, entry: &Entry) -> Option<i64> {
        let a = entry.place(0);
        let b = entry.place(1);
        match entry.kind {
            Kind::Constant => Some(entry.operands[0]),
            Kind::Variable => self.read(a),
            Kind::Sum => self.reckoned(a, b, |a, b| a + b),
            Kind::Difference if self.mistake == Mistake::DifferenceTurnedRound => {
                self.reckoned(b, a, |a, b| a - b)
            }
            Kind::Difference => self.reckoned(a, b, |a, b| a - b),
            // "Clock is the time of this step."
            Kind::Clock => Some(self.steps[self.now].time as i64),
            Kind::Value => self.value(a),
            _ => self.time_of(a),
        }
    }

    /// "A sum or difference outside the number range is undefined."
    fn reckoned(&self, a: usize, b: usize, reckon: impl Fn(i64, i64) -> i64) -> Option<i64> {
        let exact = reckon(self.amount(self.now, a)?, self.amount(self.now, b)?);
        let is_number = (LEAST_NUMBER..=GREATEST_NUMBER).contains(&exact);
        if self.mistake == Mistake::SumWraps && !is_number {
            return Some(crate::bits::number(exact as u64 & ((1 << 48) - 1)));
        }
        if self.mistake == Mistake::SumOneTooWide && exact == GREATEST_NUMBER + 1 {
            return Some(exact);
        }
        is_number.then_some(exact)
    }

    /// "Value is the value reported in this step, else undefined."
    fn value(&self, import: usize) -> Option<i64> {
        if self.mistake == Mistake::ValueRemembered {
            let mut reports = self.back_from_now().map(|step| self.steps[step].reports[import]);
            return reports.find_map(|report| report).and_then(carried);
        }
        self.steps[self.now].reports[import].and_then(carried)
    }

    /// "Time of E is the time of its latest occurrence, this step included; undefined before any."
    fn time_of(&self, event: usize) -> Option<i64> {
        let mut occurrences = self.back_from_now().filter(|&step| self.occurs(step, event));
        if self.mistake == Mistake::TimeLeavesOutThisStep && self.occurs(self.now, event) {
            occurrences.next();
        }
        occurrences.next().map(|step| self.steps[step].time as i64)
    }

    /// "A variable read at entry k sees the updates at entries before k of this step, then those of
    /// earlier steps, then the initial value." The latest update of a step is the one seen.
    fn read(&self, variable: usize) -> Option<i64> {
        let updates = self.table.updates_of(variable);
        let latest = self.back_from_now().find_map(|step| self.given(step, &updates));
        if self.mistake == Mistake::UndefinedStartIsZero {
            return latest.unwrap_or(self.table.variables[variable].or(Some(0)));
        }
        latest.unwrap_or(self.table.variables[variable])
    }

    /// What the last of these updates that was done at a step gave: "that number, undefined included".
    fn given(&self, step: usize, updates: &[usize]) -> Option<Option<i64>> {
        if self.mistake == Mistake::ConditionsBeforeUpdates && step == self.now {
            return None;
        }
        let gives = |&update: &usize| self.gives(step, update);
        if self.mistake == Mistake::FirstUpdateWins {
            return updates.iter().find_map(gives);
        }
        updates.iter().rev().find_map(gives)
    }

    /// What one update gave at a step, if it stands before what is being worked out, and its event occurred.
    fn gives(&self, step: usize, update: usize) -> Option<Option<i64>> {
        let entry = &self.table.entries[update];
        let worked_out = self.rows[step].len();
        let by_then = entry.place(0).max(entry.place(2)) < worked_out;
        let sees_later = self.mistake == Mistake::ReadSeesLaterUpdate && by_then;
        let stands_before = update < worked_out;
        if !(stands_before || sees_later) || !self.occurs(step, entry.place(0)) {
            return None;
        }
        let number = self.amount(step, entry.place(2));
        if self.mistake == Mistake::UpdateToUndefinedIgnored && number.is_none() {
            return None;
        }
        Some(number)
    }
}

/// The value that came with a report of an event.
fn carried(report: Report) -> Option<i64> {
    match report {
        Report::Event(value) => value,
        Report::Condition(_) => unreachable!("an event reported as a condition"),
    }
}
