//! What was seen in a run of the comparison: counts, and what never came up.

use crate::stream::{Recording, Stream};
use crate::table::KINDS;

#[derive(Default)]
pub struct Figures {
    pub streams: u64,
    pub records: u64,
    pub accepted: u64,
    pub refused: u64,
    pub lines: u64,
    pub bytes: u64,
    pub cut: u64,
    pub alarms: u64,
    pub violated: u64,
    pub kinds: [u64; 25],
    /// How often each number was given, 1 to 11 and 21 to 27.
    pub refusals: [u64; 32],
}

impl Figures {
    /// Counts a stream, and what `replay` prints for it.
    pub fn count_stream(&mut self, stream: &Stream, output: &[u8]) {
        self.streams += 1;
        self.count_output(output);
        match stream {
            Stream::Cut => self.cut += 1,
            Stream::ScriptRefused(number) => self.refusals[usize::from(*number)] += 1,
            Stream::Ran(recording) => self.count_recording(recording),
        }
        for line in output.split(|byte| *byte == b'\n') {
            match line.split(|byte| *byte == b' ').nth(1) {
                Some(b"alarm") => self.alarms += 1,
                Some(b"violated") => self.violated += 1,
                _ => {}
            }
        }
    }

    fn count_recording(&mut self, recording: &Recording) {
        self.cut += u64::from(recording.cut);
        self.records += recording.refusals.len() as u64;
        self.accepted += recording.steps.len() as u64;
        for number in recording.refusals.iter().flatten() {
            self.refused += 1;
            self.refusals[usize::from(*number)] += 1;
        }
        for entry in &recording.table.entries {
            self.kinds[entry.kind as usize] += 1;
        }
    }

    /// Counts lines and bytes that were compared.
    pub fn count_output(&mut self, output: &[u8]) {
        self.lines += output.iter().filter(|byte| **byte == b'\n').count() as u64;
        self.bytes += output.len() as u64;
    }

    pub fn shown(&self) -> String {
        let numbers = (1..=11).chain(21..=27);
        let refusals: Vec<String> =
            numbers.map(|number| format!("{number}:{}", self.refusals[number])).collect();
        let kinds = self.kinds.iter().filter(|count| **count > 0).count();
        format!(
            "{} streams, {} steps accepted, {} refused, {} lines and {} bytes compared, \
             refusals {}, {} cut, {kinds} of 25 kinds, {} alarms, {} violated",
            self.streams,
            self.accepted,
            self.refused,
            self.lines,
            self.bytes,
            refusals.join(" "),
            self.cut,
            self.alarms,
            self.violated
        )
    }

    /// What never came up: a kind, a refusal or `cut`. Then the comparison has shown too little.
    pub fn never_seen(&self) -> Vec<String> {
        let kinds = KINDS.iter().filter(|kind| self.kinds[**kind as usize] == 0);
        let mut never: Vec<String> = kinds.map(|kind| format!("kind {kind:?}")).collect();
        let numbers = (1..=11).chain(21..=27).filter(|number| self.refusals[*number] == 0);
        never.extend(numbers.map(|number| format!("refusal {number}")));
        if self.cut == 0 {
            never.push("cut".to_string());
        }
        never
    }
}
