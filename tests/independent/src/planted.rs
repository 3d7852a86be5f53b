//! What a mistaken reader keeps of a refused step. With no mistake planted it keeps nothing.

use crate::mistake::Mistake;
use crate::step::{Report, Step};
use crate::table::MOST_IMPORTS;
use crate::truth::Truth;

pub struct Planted {
    mistake: Mistake,
    refused: Option<Step>,
}

impl Planted {
    pub fn new(mistake: Mistake) -> Self {
        Planted { mistake, refused: None }
    }

    /// The time that the next step has to be later than.
    pub fn last_time(&self, accepted: Option<u64>) -> Option<u64> {
        match &self.refused {
            Some(step) if self.mistake == Mistake::RefusedStepLeavesTime => Some(step.time),
            _ => accepted,
        }
    }

    /// Keeps what was read of a refused step: of the conditions, what they were reported to be.
    pub fn refused(&mut self, mut step: Step, imports: &[bool]) {
        if self.mistake == Mistake::None {
            return;
        }
        if self.mistake == Mistake::RefusedStepForgetsReports {
            step.reports = [Some(Report::Condition(Truth::Undefined)); MOST_IMPORTS];
        }
        for (report, is_event) in step.reports.iter_mut().zip(imports) {
            if *is_event {
                *report = None;
            }
        }
        step.reports.iter_mut().skip(imports.len()).for_each(|report| *report = None);
        self.refused = Some(step);
    }

    /// The step as it enters the history.
    pub fn accepted(&mut self, mut step: Step) -> Step {
        let Some(refused) = self.refused.take() else {
            return step;
        };
        let leaves_reports = self.mistake == Mistake::RefusedStepLeavesReports;
        if leaves_reports || self.mistake == Mistake::RefusedStepForgetsReports {
            for (report, left) in step.reports.iter_mut().zip(refused.reports) {
                *report = report.or(left);
            }
        }
        step
    }
}
