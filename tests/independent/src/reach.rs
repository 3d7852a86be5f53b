//! Reach: "The reach of an entry is the least set that holds the entry …"

use crate::mistake::Mistake;
use crate::table::{Kind, Operand, Table};
use std::collections::BTreeSet;

/// "A reach shows all three: its entries, its imports and whether it has the clock."
pub struct Reach {
    pub entries: BTreeSet<usize>,
    pub imports: BTreeSet<usize>,
    pub clock: bool,
}

/// The set grows by what its entries ask for, until they ask for nothing new.
pub fn of(table: &Table, entry: usize, mistake: Mistake) -> Reach {
    let mut entries = BTreeSet::new();
    let mut asked = vec![entry];
    while let Some(entry) = asked.pop() {
        if entries.insert(entry) {
            asked.extend(asks_for(table, entry, mistake));
        }
    }
    let imports = entries.iter().filter_map(|&entry| named_import(table, entry, mistake)).collect();
    let clock = entries.iter().any(|&entry| has_clock(table, entry, mistake));
    Reach { entries, imports, clock }
}

/// "with any entry, its operand entries; with any read of a variable, every update of that variable,
/// wherever it stands"
fn asks_for(table: &Table, number: usize, mistake: Mistake) -> Vec<usize> {
    let entry = &table.entries[number];
    let mut asked = entry.operand_entries();
    if entry.kind == Kind::Variable {
        asked.extend(table.updates_of(entry.place(0)));
    }
    if mistake == Mistake::ReachOfEverything {
        asked.extend(0..number);
    }
    if mistake == Mistake::ReachOfEarlierUpdatesOnly {
        asked.retain(|&other| other < number);
    }
    asked
}

/// "It reaches an import exactly if kind 0, 9 or 20 in the set names it"
fn named_import(table: &Table, entry: usize, mistake: Mistake) -> Option<usize> {
    let entry = &table.entries[entry];
    if mistake == Mistake::ReachLeavesOutValueImport && entry.kind == Kind::Value {
        return None;
    }
    let first = entry.kind.operands().first()?;
    let names_import = matches!(first, Operand::ConditionImport | Operand::EventImport);
    names_import.then(|| entry.place(0))
}

/// "and the clock exactly if the set holds kind 19 or 21"
fn has_clock(table: &Table, entry: usize, mistake: Mistake) -> bool {
    match table.entries[entry].kind {
        Kind::Clock => true,
        Kind::Time => mistake != Mistake::ReachWithoutClockOfTime,
        _ => false,
    }
}
