//! A script in the making: imports and variables first, then one entry after another.

use crate::{Random, Report, Told};
use plain::{Entry, Kind, Operand, Sort, Table};

/// The number of an entry, an import or a variable.
pub type Number = u8;

/// A table so far, and the labels of its alarms and properties.
pub struct Draft {
    table: Table,
    labels: Vec<u8>,
}

impl Draft {
    /// No entry yet; an import is an event where that is true, a variable starts with that number or undefined.
    pub fn new(events: &[bool], variables: &[Option<i64>]) -> Self {
        let mut table = Table::empty();
        table.q = events.len() as u8;
        for (import, is_event) in events.iter().enumerate() {
            table.events |= u64::from(*is_event) << import;
        }
        table.v = variables.len() as u8;
        table.variables[..variables.len()].copy_from_slice(variables);
        Draft { table, labels: Vec::new() }
    }

    /// How many entries there are.
    pub fn entries(&self) -> usize {
        self.table.used().len()
    }

    /// One more entry, with its operands in their order; its number.
    pub fn entry(&mut self, kind: Kind, operands: &[Number]) -> Number {
        let k = self.table.n;
        let entry = &mut self.table.entries[usize::from(k)];
        entry.kind = kind;
        entry.operands[..operands.len()].copy_from_slice(operands);
        self.table.n += 1;
        k
    }

    pub fn constant(&mut self, number: i64) -> Number {
        let k = self.entry(Kind::Constant, &[]);
        self.table.constants[usize::from(k)] = number;
        k
    }

    /// An alarm or a property, with its label.
    pub fn labelled(&mut self, kind: Kind, operand: Number, label: &str) -> Number {
        self.labels.push(label.len() as u8);
        self.labels.extend_from_slice(label.as_bytes());
        self.entry(kind, &[operand])
    }

    /// One more entry of this kind, its operands picked at random; none where there is nothing of a sort it asks for.
    pub fn random_entry(&mut self, kind: Kind, random: &mut Random) -> Option<Number> {
        let mut operands = Vec::new();
        for operand in kind.operands() {
            let numbers = match operand {
                Operand::Entry(sort) => self.entries_of(*sort),
                Operand::Import(sort) => self.imports_of(*sort),
                Operand::Variable => (0..self.table.v).collect(),
                Operand::Constant => return Some(self.constant(random.number())),
            };
            if numbers.is_empty() {
                return None;
            }
            operands.push(random.pick(&numbers));
        }
        if kind.has_label() {
            let label = format!("RULE {}", self.table.n);
            return Some(self.labelled(kind, operands[0], &label));
        }
        Some(self.entry(kind, &operands))
    }

    fn entries_of(&self, sort: Sort) -> Vec<Number> {
        let is_fitting = |(_, entry): &(usize, &Entry)| entry.kind.sort() == sort;
        self.table.used().iter().enumerate().filter(is_fitting).map(|(k, _)| k as Number).collect()
    }

    fn imports_of(&self, sort: Sort) -> Vec<Number> {
        (0..self.table.q).filter(|import| self.table.is_event(*import) == (sort == Sort::Event)).collect()
    }

    /// A table with so many entries, imports and variables: a kind is picked at random, and taken where it finds its operands.
    pub fn random(entries: usize, imports: usize, variables: usize, random: &mut Random) -> Self {
        let events: Vec<bool> = (0..imports).map(|_| random.chance(50)).collect();
        let starts: Vec<Option<i64>> =
            (0..variables).map(|_| if random.chance(50) { Some(random.number()) } else { None }).collect();
        let mut draft = Draft::new(&events, &starts);
        while draft.entries() < entries {
            let kind = Kind::of_number(random.below(25) as u64).expect("one of 25 kinds");
            draft.random_entry(kind, random);
        }
        draft
    }

    /// What is told of an import, at random.
    pub fn random_report(&self, import: Number, random: &mut Random) -> Report {
        let told = if self.table.is_event(import) {
            Told::Event(if random.chance(50) { Some(random.number()) } else { None })
        } else {
            Told::Condition(random.pick(&[Some(false), Some(true), None]))
        };
        Report { import, told }
    }

    /// So many reports of different imports, at random and in their order.
    pub fn random_reports(&self, count: usize, random: &mut Random) -> Vec<Report> {
        let mut imports: Vec<Number> = (0..self.table.q).collect();
        while imports.len() > count {
            imports.remove(random.below(imports.len()));
        }
        imports.iter().map(|import| self.random_report(*import, random)).collect()
    }

    /// How many imports there are.
    pub fn imports(&self) -> usize {
        self.table.q.into()
    }

    /// The bytes of the script.
    pub fn script(&self) -> Vec<u8> {
        let mut bytes = vec![0; 4096];
        let size = plain::write(&self.table, &self.labels, &mut bytes).expect("the draft is a script");
        bytes.truncate(size);
        bytes
    }
}
