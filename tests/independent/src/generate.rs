//! The stream of a seed and a number: valid, at the limits, damaged or hostile.

use crate::damage::{damaged, wrong_length};
use crate::draft::{record, ScriptDraft};
use crate::faults::faulty;
use crate::limits;
use crate::random::Random;
use crate::scripts;
use crate::steps::StepMaker;
use crate::table::Table;

/// A stream for `replay`, and the script for `inspect`.
pub struct Made {
    pub script: Vec<u8>,
    pub bytes: Vec<u8>,
}

pub fn made(seed: u64, number: u64) -> Made {
    let random = &mut Random::of_stream(seed, number);
    match random.below(100) {
        0..=57 => valid(random),
        58..=69 => limits::made(random),
        70..=83 => faulty_script(random),
        84..=93 => damaged_stream(random),
        _ => hostile(random),
    }
}

fn size(random: &mut Random) -> usize {
    match random.below(10) {
        0 => 9 + random.below(6),
        1..=6 => 14 + random.below(30),
        7 | 8 => 40 + random.below(50),
        _ => 128,
    }
}

/// A good script and steps, some of them refused.
fn valid(random: &mut Random) -> Made {
    let most = size(random);
    let table = scripts::table(random, most);
    let faults = random.pick(&[0, 10, 10, 30]);
    let count = random.pick(&[1, 3, 10, 20, 40, 60]);
    let count = 1 + random.below(count);
    let mut made = stream(random, &table, count, faults);
    if random.chance(5) {
        let kept = random.below(made.bytes.len() + 1);
        made.bytes.truncate(kept);
    }
    made
}

fn stream(random: &mut Random, table: &Table, count: usize, faults: usize) -> Made {
    let script = ScriptDraft::of(table).pack();
    let mut bytes = record(&script);
    let mut steps = StepMaker::new(random, &table.imports, faults);
    (0..count).for_each(|_| bytes.extend(record(&steps.next())));
    Made { script, bytes }
}

/// A script with faults put in on purpose, and steps behind it.
pub fn faulty_script(random: &mut Random) -> Made {
    let most = 9 + random.below(30);
    let table = scripts::table(random, most);
    let script = faulty(random, &mut ScriptDraft::of(&table));
    let mut bytes = record(&script);
    let mut steps = StepMaker::new(random, &table.imports, 10);
    (0..4).for_each(|_| bytes.extend(record(&steps.next())));
    Made { script, bytes }
}

/// A stream as a bad link hands it on; the script for `inspect` is damaged by itself.
pub fn damaged_stream(random: &mut Random) -> Made {
    let most = size(random);
    let table = scripts::table(random, most);
    let count = 1 + random.below(20);
    let mut made = stream(random, &table, count, 5);
    if random.chance(30) {
        made.bytes = wrong_length(random, made.bytes);
        return made;
    }
    Made { script: damaged(random, made.script), bytes: damaged(random, made.bytes) }
}

/// Random bytes: as a script, behind a good header, as records behind a good script, as lengths.
pub fn hostile(random: &mut Random) -> Made {
    let length = random.pick(&[3, 10, 40, 200, 1000]);
    let length = random.below(length);
    match random.below(4) {
        0 => {
            let bytes = random.bytes(length);
            Made { script: bytes.clone(), bytes }
        }
        1 => {
            let script = random.bytes(length);
            Made { bytes: record(&script), script }
        }
        2 => behind_header(random, length),
        _ => behind_script(random),
    }
}

/// A good header with random bytes behind it.
fn behind_header(random: &mut Random, length: usize) -> Made {
    let header = Table {
        imports: (0..random.below(49)).map(|_| random.chance(50)).collect(),
        variables: vec![None; random.below(3)],
        ..Table::default()
    };
    let draft = ScriptDraft { entry_count: 1 + random.below(6) as u64, ..ScriptDraft::of(&header) };
    let mut script = draft.pack();
    script.extend(random.bytes(length));
    Made { bytes: record(&script), script }
}

/// A good script, with random records, or bytes that are no records at all.
fn behind_script(random: &mut Random) -> Made {
    let most = size(random);
    let table = scripts::table(random, most);
    let mut made = stream(random, &table, 2, 0);
    for _ in 0..random.below(30) {
        let length = random.pick(&[0, 5, 6, 7, 8, 20, 400]);
        let mut bytes = random.bytes(length);
        if let Some(first) = bytes.first_mut() {
            *first &= random.pick(&[0, 1, 0xFF]);
        }
        made.bytes.extend(record(&bytes));
    }
    let loose = random.below(40);
    made.bytes.extend(random.bytes(loose));
    made
}
