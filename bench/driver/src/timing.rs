//! Times taken in turn: one batch of each side after another, again and again, so that the machine's pace is the same for all of them.

use crate::sides::Batch;
use std::time::Instant;

/// The times of one side, in nanoseconds a batch, in the order of the rounds.
pub struct Times(pub Vec<f64>);

impl Times {
    /// The least disturbed.
    pub fn best(&self) -> f64 {
        self.0.iter().copied().fold(f64::INFINITY, f64::min)
    }

    pub fn median(&self) -> f64 {
        median(self.0.clone())
    }

    /// The median of the ratios, round by round.
    pub fn median_ratio(&self, other: &Times) -> f64 {
        median(self.0.iter().zip(&other.0).map(|(ours, theirs)| ours / theirs).collect())
    }
}

fn median(mut numbers: Vec<f64>) -> f64 {
    numbers.sort_by(f64::total_cmp);
    numbers[numbers.len() / 2]
}

/// Runs each batch once in every round; the first round is not counted.
pub fn in_turn<'a>(batches: impl Iterator<Item = &'a mut Batch>, rounds: usize) -> Vec<Times> {
    let mut batches: Vec<&mut Batch> = batches.collect();
    let mut times: Vec<Times> = batches.iter().map(|_| Times(Vec::new())).collect();
    for round in 0..=rounds {
        for (batch, times) in batches.iter_mut().zip(&mut times) {
            let started = Instant::now();
            batch();
            let taken = started.elapsed().as_nanos() as f64;
            if round > 0 {
                times.0.push(taken);
            }
        }
    }
    times
}
