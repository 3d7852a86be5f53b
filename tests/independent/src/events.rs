//! What each kind of event means over the history: kinds 9 to 14.

use crate::logic::History;
use crate::mistake::Mistake;
use crate::table::{Entry, Kind};
use crate::truth::Truth;

impl History<'_> {
    pub fn event(&self, entry: &Entry) -> bool {
        let a = entry.place(0);
        let b = entry.place(1);
        let occurs = |operand| self.occurs(self.now, operand);
        match entry.kind {
            // "An imported event occurs in the steps that report it."
            Kind::EventImport => self.steps[self.now].reports[a].is_some(),
            Kind::Start => self.start(a),
            Kind::End => self.end(a),
            Kind::Both => occurs(a) && occurs(b),
            Kind::Either => occurs(a) || occurs(b),
            // "when needs its condition to be true"
            _ => occurs(a) && self.lets_pass(b),
        }
    }

    /// "one step before"; "Before the first step every condition counts as undefined."
    fn one_step_before(&self, condition: usize) -> Truth {
        if self.now > 0 {
            return self.truth(self.now - 1, condition);
        }
        let is_pair = self.table.entries[condition].kind == Kind::Pair;
        if self.mistake == Mistake::PairFalseBeforeFirstStep && is_pair {
            return Truth::False;
        }
        Truth::Undefined
    }

    /// "Start occurs where the condition is true and was not true one step before."
    fn start(&self, condition: usize) -> bool {
        let before = self.one_step_before(condition);
        if self.mistake == Mistake::StartNotAtFirstStep && self.now == 0 {
            return false;
        }
        if self.mistake == Mistake::StartNeedsFalseBefore && before == Truth::Undefined {
            return false;
        }
        self.truth(self.now, condition) == Truth::True && before != Truth::True
    }

    /// "End occurs where it is false and was not false one step before."
    fn end(&self, condition: usize) -> bool {
        let before = self.one_step_before(condition);
        if self.mistake == Mistake::EndNotAtFirstStep && self.now == 0 {
            return false;
        }
        if self.mistake == Mistake::EndTakesUndefinedForFalse {
            return self.truth(self.now, condition) != Truth::True && before == Truth::True;
        }
        self.truth(self.now, condition) == Truth::False && before != Truth::False
    }

    /// Whether a `when` lets its event pass.
    fn lets_pass(&self, condition: usize) -> bool {
        let truth = self.truth(self.now, condition);
        if self.mistake == Mistake::WhenTakesUndefined {
            return truth != Truth::False;
        }
        truth == Truth::True
    }
}
