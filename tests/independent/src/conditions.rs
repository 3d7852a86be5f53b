//! What each kind of condition means over the history: kinds 0 to 8.

use crate::logic::History;
use crate::mistake::Mistake;
use crate::step::Report;
use crate::table::{Entry, Kind};
use crate::truth::*;

impl History<'_> {
    pub fn condition(&self, entry: &Entry) -> Truth {
        let a = entry.place(0);
        let b = entry.place(1);
        let truth = |operand| self.truth(self.now, operand);
        match entry.kind {
            Kind::ConditionImport => self.last_reported(a),
            Kind::Defined => defined(truth(a), self.mistake),
            Kind::Pair => known(self.pair(a, b)),
            Kind::Not => not(truth(a)),
            Kind::Or => or(truth(a), truth(b)),
            Kind::And => and(truth(a), truth(b), self.mistake),
            Kind::Implies => implies(truth(a), truth(b), self.mistake),
            Kind::Less if self.mistake == Mistake::LessLetsEqualPass => self.compared(a, b, |a, b| a <= b),
            Kind::Less => self.compared(a, b, |a, b| a < b),
            _ => self.compared(a, b, |a, b| a == b),
        }
    }

    /// "An imported condition has its last reported value, undefined before any."
    fn last_reported(&self, import: usize) -> Truth {
        let mut reports = self.back_from_now().map(|step| self.steps[step].reports[import]);
        if self.mistake == Mistake::ConditionForgottenAfterItsStep {
            return reports.next().flatten().map_or(Truth::Undefined, told);
        }
        reports.flatten().next().map_or(Truth::Undefined, told)
    }

    /// "true at step i if the first event occurred at some step j ≤ i and the second at no step from j to
    /// i, both ends counted": going back from i, as far as the second did not occur, the first did.
    fn pair(&self, first: usize, second: usize) -> bool {
        let closes = |step: usize| {
            let together = self.occurs(step, first) && self.occurs(step, second);
            if self.mistake == Mistake::PairStaysOpenWhereBothOccur && together {
                return false;
            }
            self.occurs(step, second)
        };
        if self.mistake == Mistake::PairOpensWhereBothOccur {
            let since = self.back_from_now().find(|&step| self.occurs(step, first));
            return since.is_some_and(|j| (j + 1..=self.now).all(|step| !closes(step)));
        }
        let mut not_closed = self.back_from_now().take_while(|&step| !closes(step));
        not_closed.any(|step| self.occurs(step, first))
    }

    /// "Sum, difference, less and equal are undefined where an operand is."
    fn compared(&self, a: usize, b: usize, holds: impl Fn(i64, i64) -> bool) -> Truth {
        let numbers = (self.amount(self.now, a), self.amount(self.now, b));
        if self.mistake == Mistake::EqualOfUndefinedIsTrue && numbers == (None, None) {
            return known(holds(0, 0));
        }
        match numbers {
            (Some(a), Some(b)) => known(holds(a, b)),
            _ if self.mistake == Mistake::LessTakesUndefinedAsFalse => Truth::False,
            _ => Truth::Undefined,
        }
    }
}

/// The value that a report says of a condition.
fn told(report: Report) -> Truth {
    match report {
        Report::Condition(truth) => truth,
        Report::Event(_) => unreachable!("a condition reported as an event"),
    }
}
