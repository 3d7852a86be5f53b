//! Scripts made at random: all 25 kinds, few imports shared by many entries, most entries shown by a rule.

use crate::random::Random;
use crate::table::*;

pub struct ScriptMaker<'r> {
    random: &'r mut Random,
    table: Table,
    /// Entries at most.
    most: usize,
}

/// A table that a script may hold, with at most so many entries.
pub fn table(random: &mut Random, most: usize) -> Table {
    let imports = few_or_many(random, 2, MOST_IMPORTS);
    let variables = few_or_many(random, 1, MOST_VARIABLES);
    table_over(random, most, imports, variables)
}

/// Mostly few, so that many entries name the same one.
fn few_or_many(random: &mut Random, few: usize, most: usize) -> usize {
    match random.below(20) {
        0 => 0,
        1 => random.below(most + 1),
        _ => few + random.below(2 * few),
    }
}

/// A table with so many imports and variables.
pub fn table_over(random: &mut Random, most: usize, imports: usize, variables: usize) -> Table {
    let mut maker = ScriptMaker { random, table: Table::default(), most };
    maker.imports(imports);
    maker.variables(variables);
    while maker.room() >= 8 {
        maker.grow();
    }
    if maker.table.entries.is_empty() {
        maker.leaf(Sort::Number);
    }
    maker.labels();
    maker.table
}

/// A number: mostly small, so that equal ones meet; now and then at an end of the range.
pub fn number(random: &mut Random) -> i64 {
    match random.below(12) {
        0 => random.between(GREATEST_NUMBER - 3, GREATEST_NUMBER),
        1 => random.between(LEAST_NUMBER, LEAST_NUMBER + 3),
        2 => random.pick(&[1 << 46, -(1 << 46), (1 << 46) - 1, 1 << 40, 1000, 4000]),
        3 => random.between(LEAST_NUMBER, GREATEST_NUMBER),
        _ => random.between(-2, 5),
    }
}

impl ScriptMaker<'_> {
    fn room(&self) -> usize {
        self.most.saturating_sub(self.table.entries.len())
    }

    fn imports(&mut self, count: usize) {
        let events = self.random.pick(&[50, 50, 50, 0, 100]);
        self.table.imports = (0..count).map(|_| self.random.chance(events)).collect();
    }

    fn variables(&mut self, count: usize) {
        for _ in 0..count {
            let start = self.random.chance(60).then(|| number(self.random));
            self.table.variables.push(start);
        }
    }

    fn add(&mut self, kind: Kind, operands: [i64; 3]) -> usize {
        self.table.entries.push(Entry { kind, operands });
        self.table.entries.len() - 1
    }

    /// One more entry of some kind, and often a rule that shows it.
    fn grow(&mut self) {
        let kind = match self.random.below(8) {
            0 => Kind::Update,
            1 => self.random.pick(&[Kind::Pair, Kind::Variable, Kind::Sum, Kind::Difference]),
            _ => self.random.pick(&KINDS[..23]),
        };
        let Some(made) = self.make(kind) else { return };
        if self.random.chance(55) {
            self.show(made);
        }
    }

    /// An entry of this kind, if the script has what it names.
    fn make(&mut self, kind: Kind) -> Option<usize> {
        let mut operands = [0; 3];
        for (place, operand) in kind.operands().iter().enumerate() {
            operands[place] = match operand {
                Operand::Entry(sort) => self.operand(*sort) as i64,
                Operand::ConditionImport => self.import(false)? as i64,
                Operand::EventImport => self.import(true)? as i64,
                Operand::Variable => self.variable()? as i64,
                Operand::Constant => number(self.random),
            };
        }
        Some(self.add(kind, operands))
    }

    fn import(&mut self, event: bool) -> Option<usize> {
        let imports = self.table.imports.iter().enumerate();
        let fitting: Vec<usize> = imports.filter(|(_, e)| **e == event).map(|(i, _)| i).collect();
        (!fitting.is_empty()).then(|| self.random.pick(&fitting))
    }

    fn variable(&mut self) -> Option<usize> {
        let count = self.table.variables.len();
        (count > 0).then(|| self.random.below(count))
    }

    /// An earlier entry of the sort, more often a late one; a new one where there is none.
    fn operand(&mut self, sort: Sort) -> usize {
        let entries = self.table.entries.iter().enumerate();
        let fitting: Vec<usize> =
            entries.filter(|(_, e)| e.kind.sort() == sort).map(|(number, _)| number).collect();
        if fitting.is_empty() || self.random.chance(8) && self.room() > 8 {
            return self.leaf(sort);
        }
        let late = fitting.len().saturating_sub(6);
        match self.random.below(3) {
            0 => self.random.pick(&fitting),
            _ => self.random.pick(&fitting[late..]),
        }
    }

    /// A new entry of the sort that asks for as little as can be.
    fn leaf(&mut self, sort: Sort) -> usize {
        let kinds: &[Kind] = match sort {
            Sort::Condition => &[Kind::ConditionImport],
            Sort::Event => &[Kind::EventImport],
            _ => &[Kind::Constant, Kind::Variable, Kind::Value, Kind::Clock],
        };
        let kind = self.random.pick(kinds);
        if let Some(made) = self.make(kind) {
            return made;
        }
        match sort {
            Sort::Condition => {
                let number = self.leaf(Sort::Number) as i64;
                self.add(Kind::Equal, [number, number, 0])
            }
            Sort::Event => {
                let condition = self.leaf(Sort::Condition) as i64;
                self.add(Kind::Start, [condition, 0, 0])
            }
            _ => self.add(Kind::Constant, [1, 0, 0]),
        }
    }

    /// A rule that prints a line for what an entry comes to.
    fn show(&mut self, entry: usize) {
        match self.table.entries[entry].kind.sort() {
            Sort::Condition => self.show_condition(entry as i64),
            Sort::Event => {
                self.add(Kind::Alarm, [entry as i64, 0, 0]);
            }
            Sort::Number => self.show_number(entry as i64),
            Sort::None => self.show_variable(entry),
        }
    }

    fn show_condition(&mut self, condition: i64) {
        let kind = self.random.pick(&[Kind::Start, Kind::End, Kind::Property]);
        let made = self.add(kind, [condition, 0, 0]);
        if kind != Kind::Property {
            self.add(Kind::Alarm, [made as i64, 0, 0]);
        }
    }

    fn show_number(&mut self, number: i64) {
        if self.room() < 4 {
            return;
        }
        let other = self.operand(Sort::Number) as i64;
        let kind = self.random.pick(&[Kind::Less, Kind::Equal]);
        let operands = if self.random.chance(50) { [number, other, 0] } else { [other, number, 0] };
        let compared = self.add(kind, operands);
        self.show_condition(compared as i64);
    }

    /// Behind an update, a read of its variable.
    fn show_variable(&mut self, entry: usize) {
        let entry = self.table.entries[entry];
        if entry.kind == Kind::Update && self.room() >= 5 {
            let read = self.add(Kind::Variable, [entry.operands[1], 0, 0]);
            self.show_number(read as i64);
        }
    }

    fn labels(&mut self) {
        let count = self.table.entries.iter().filter(|e| e.kind.has_label()).count();
        self.table.labels = (0..count).map(|_| label(self.random)).collect();
    }
}

/// A label: mostly short, now and then empty or of 32 bytes.
fn label(random: &mut Random) -> Vec<u8> {
    let length = match random.below(12) {
        0 => 0,
        1 => MOST_LABEL,
        2 => random.below(MOST_LABEL),
        _ => 1 + random.below(4),
    };
    (0..length).map(|_| random.between(0x20, 0x7E) as u8).collect()
}
