//! A script and a step as they are about to be packed, with any fault that was put into them.

use crate::bits::Packer;
use crate::step::{Report, Step};
use crate::table::{Entry, Table};
use crate::truth::Truth;

/// A field: what stands in it, and how many bits it takes.
pub type Field = (u64, usize);

pub struct ScriptDraft {
    pub format: u64,
    pub entry_count: u64,
    pub import_count: u64,
    pub variable_count: u64,
    pub four_bits: u64,
    pub imports: Vec<bool>,
    pub variables: Vec<(bool, u64)>,
    /// For each entry, its kind and its operands.
    pub entries: Vec<Vec<Field>>,
    pub padding: u64,
    /// For each label, its length byte and its text.
    pub labels: Vec<(u8, Vec<u8>)>,
    pub tail: Vec<u8>,
}

impl ScriptDraft {
    /// The script of a table, without a fault.
    pub fn of(table: &Table) -> Self {
        let starts = table.variables.iter();
        let labels = table.labels.iter();
        ScriptDraft {
            format: 1,
            entry_count: table.entries.len() as u64,
            import_count: table.imports.len() as u64,
            variable_count: table.variables.len() as u64,
            four_bits: 0,
            imports: table.imports.clone(),
            variables: starts.map(|start| (start.is_some(), start.unwrap_or(0) as u64)).collect(),
            entries: table.entries.iter().map(entry_fields).collect(),
            padding: 0,
            labels: labels.map(|label| (label.len() as u8, label.clone())).collect(),
            tail: Vec::new(),
        }
    }

    pub fn pack(&self) -> Vec<u8> {
        let mut packer = Packer::default();
        packer.put(self.format, 8);
        packer.put(self.entry_count, 8);
        packer.put(self.import_count, 6);
        packer.put(self.variable_count, 6);
        packer.put(self.four_bits, 4);
        self.imports.iter().for_each(|event| packer.put(u64::from(*event), 1));
        for (defined, start) in &self.variables {
            packer.put(u64::from(*defined), 1);
            packer.put(*start, 48);
        }
        for (field, width) in self.entries.iter().flatten() {
            packer.put(*field, *width);
        }
        packer.pad(self.padding);
        let mut bytes = packer.bytes();
        for (length, text) in &self.labels {
            bytes.push(*length);
            bytes.extend(text);
        }
        bytes.extend(&self.tail);
        bytes
    }
}

fn entry_fields(entry: &Entry) -> Vec<Field> {
    let mut fields = vec![(entry.kind as u64, 5)];
    for (operand, number) in entry.kind.operands().iter().zip(entry.operands) {
        fields.push((number as u64, operand.width()));
    }
    fields
}

pub struct StepDraft {
    pub time: u64,
    pub count: u64,
    /// For each report, its import and what is said of it.
    pub reports: Vec<Vec<Field>>,
    pub padding: u64,
    pub tail: Vec<u8>,
}

impl StepDraft {
    /// The bytes of a step, without a fault.
    pub fn of(step: &Step) -> Self {
        let mut reports = Vec::new();
        for (import, report) in step.reports.iter().enumerate() {
            let Some(report) = report else { continue };
            let mut fields = vec![(import as u64, 6)];
            fields.extend(report_fields(report));
            reports.push(fields);
        }
        let count = reports.len() as u64;
        StepDraft { time: step.time, count, reports, padding: 0, tail: Vec::new() }
    }

    pub fn pack(&self) -> Vec<u8> {
        let mut packer = Packer::default();
        packer.put(self.time, 47);
        packer.put(self.count, 6);
        for (field, width) in self.reports.iter().flatten() {
            packer.put(*field, *width);
        }
        packer.pad(self.padding);
        let mut bytes = packer.bytes();
        bytes.extend(&self.tail);
        bytes
    }
}

fn report_fields(report: &Report) -> Vec<Field> {
    match report {
        Report::Condition(Truth::False) => vec![(0, 2)],
        Report::Condition(Truth::True) => vec![(1, 2)],
        Report::Condition(Truth::Undefined) => vec![(2, 2)],
        Report::Event(None) => vec![(0, 1)],
        Report::Event(Some(value)) => vec![(1, 1), (*value as u64, 48)],
    }
}

/// A length and the bytes, as they stand in a recorded stream. A record holds at most 65,535 bytes.
pub fn record(bytes: &[u8]) -> Vec<u8> {
    let bytes = &bytes[..bytes.len().min(0xFFFF)];
    let mut record = vec![(bytes.len() >> 8) as u8, bytes.len() as u8];
    record.extend(bytes);
    record
}
