//! Steps made at random for a script: times mostly rising, reports of few values, now and then a fault.

use crate::draft::{Field, StepDraft};
use crate::random::Random;
use crate::scripts;
use crate::step::{Report, Step};
use crate::table::MOST_IMPORTS;
use crate::truth::Truth;

pub struct StepMaker<'a> {
    pub random: &'a mut Random,
    pub imports: &'a [bool],
    /// How many of a hundred imports a step reports.
    pub reported: usize,
    /// How many of a hundred steps have a fault.
    pub faulty: usize,
    time: u64,
}

/// "Times are milliseconds, 0 to 2^47−1."
pub const LAST_TIME: u64 = (1 << 47) - 1;

impl<'a> StepMaker<'a> {
    pub fn new(random: &'a mut Random, imports: &'a [bool], faulty: usize) -> Self {
        let reported = random.pick(&[15, 40, 40, 80]);
        let time = match random.below(16) {
            0 => LAST_TIME - random.below(40) as u64,
            1 | 2 => random.next() >> 17,
            3 | 4 => 1000,
            _ => 0,
        };
        StepMaker { random, imports, reported, faulty, time }
    }

    /// The bytes of the next record.
    pub fn next(&mut self) -> Vec<u8> {
        let at = self.offered_time();
        let step = self.step(at);
        let mut draft = StepDraft::of(&step);
        if !self.random.chance(self.faulty) {
            self.time = at;
            return draft.pack();
        }
        // A refused step with a time of its own: the next one may be earlier than it.
        draft.time = (draft.time + self.random.below(4) as u64) & LAST_TIME;
        self.fault(draft)
    }

    /// A step that comes next, without counting it as accepted.
    pub fn offered(&mut self) -> Vec<u8> {
        let at = self.time + self.random.below(4) as u64;
        StepDraft::of(&self.step(at.min(LAST_TIME))).pack()
    }

    /// Mostly later than the last, now and then equal or earlier.
    fn offered_time(&mut self) -> u64 {
        let step = match self.random.below(30) {
            0 => 0,
            1 => return self.time.saturating_sub(self.random.below(3) as u64),
            2 => 1 << self.random.below(30),
            3 => 1000,
            _ => 1 + self.random.below(3) as u64,
        };
        (self.time + step).min(LAST_TIME)
    }

    fn step(&mut self, time: u64) -> Step {
        let mut step = Step { time, reports: [None; MOST_IMPORTS] };
        for (import, is_event) in self.imports.iter().enumerate() {
            if self.random.chance(self.reported) {
                step.reports[import] = Some(report(self.random, *is_event));
            }
        }
        step
    }

    /// A step with a fault of its own, or with bytes damaged.
    fn fault(&mut self, mut draft: StepDraft) -> Vec<u8> {
        match self.random.below(12) {
            0 => self.padding(&mut draft),
            1 => draft.tail = vec![0; 1 + self.random.below(2)],
            2 => draft.tail = self.random.bytes(3),
            3 => draft.count = self.random.below(64) as u64,
            4 => self.foreign_import(&mut draft),
            5 => self.order(&mut draft),
            6 => self.fourth_truth(&mut draft),
            7 => return self.old_time(draft),
            8 => return Vec::new(),
            9 => return self.random.bytes(5).into_iter().chain(draft.pack()).collect(),
            10 => return crate::damage::damaged(self.random, draft.pack()),
            _ => return self.cut_short(draft),
        }
        draft.pack()
    }

    /// 26: bits behind the reports that are not zero; now and then bytes behind them too.
    fn padding(&mut self, draft: &mut StepDraft) {
        draft.padding = self.random.next();
        if self.random.chance(30) {
            draft.tail = vec![0];
        }
    }

    /// 22: a time that is not later; often with nothing behind the time.
    fn old_time(&mut self, mut draft: StepDraft) -> Vec<u8> {
        draft.time = self.time.saturating_sub(self.random.below(3) as u64);
        let mut bytes = draft.pack();
        if self.random.chance(40) {
            bytes.truncate(6);
        }
        bytes
    }

    /// 21: a field ends past the bytes.
    fn cut_short(&mut self, draft: StepDraft) -> Vec<u8> {
        let mut bytes = draft.pack();
        let kept = self.random.below(bytes.len());
        bytes.truncate(kept);
        bytes
    }

    /// 23: an import that the script does not have.
    fn foreign_import(&mut self, draft: &mut StepDraft) {
        let import = (self.imports.len() + self.random.below(3)).min(63) as u64;
        draft.reports.push(vec![(import, 6), (self.random.below(4) as u64, 2)]);
        draft.count += 1;
    }

    /// 24: an import that is not above the one before it. What the repeated report says is another thing.
    fn order(&mut self, draft: &mut StepDraft) {
        if draft.reports.is_empty() {
            return;
        }
        let again = self.random.below(draft.reports.len());
        let import = draft.reports[again][0].0;
        let said: Field =
            if self.imports[import as usize] { (0, 1) } else { (self.random.below(3) as u64, 2) };
        let place = again + 1 + self.random.below(draft.reports.len() - again);
        draft.reports.insert(place, vec![(import, 6), said]);
        draft.count += 1;
    }

    /// 25: a condition reported as 11.
    fn fourth_truth(&mut self, draft: &mut StepDraft) {
        for report in draft.reports.iter_mut() {
            if report[1].1 == 2 && self.random.chance(60) {
                report[1].0 = 3;
                return;
            }
        }
    }
}

fn report(random: &mut Random, is_event: bool) -> Report {
    if is_event {
        let value = random.chance(75).then(|| scripts::number(random));
        return Report::Event(value);
    }
    let truths = [Truth::False, Truth::True, Truth::False, Truth::True, Truth::Undefined];
    Report::Condition(random.pick(&truths))
}
