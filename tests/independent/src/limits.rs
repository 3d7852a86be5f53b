//! Streams at the limits: the most of everything, one more than that, and next to nothing.

use crate::draft::{record, ScriptDraft, StepDraft};
use crate::generate::Made;
use crate::random::Random;
use crate::scripts;
use crate::step::{Report, Step};
use crate::steps::{StepMaker, LAST_TIME};
use crate::table::*;
use crate::truth::Truth;

pub fn made(random: &mut Random) -> Made {
    match random.below(10) {
        0 => next_to_nothing(random),
        1 => full_steps(random),
        2 => long_script(random),
        3 => counts(random),
        4 => first_and_last_time(random),
        5 => long_records(random),
        6 => ends_of_the_range(random),
        7 => deep(random),
        8 => every_import_and_variable(random),
        _ => most_entries(random),
    }
}

/// An empty input, one byte, a length alone, a script of no bytes.
fn next_to_nothing(random: &mut Random) -> Made {
    let choices: [&[u8]; 8] = [&[], &[0], &[1], &[0, 0], &[0, 1], &[0, 0, 0], &[0, 0, 0, 0], &[0xFF, 0xFF]];
    let bytes = random.pick(&choices).to_vec();
    let script = bytes.get(2..).unwrap_or(&[]).to_vec();
    Made { script, bytes }
}

/// Steps of the full 337 bytes: 48 events, each with a value.
fn full_steps(random: &mut Random) -> Made {
    let mut table = Table { imports: vec![true; MOST_IMPORTS], ..Table::default() };
    for import in 0..40 {
        table.entries.push(Entry { kind: Kind::Value, operands: [import, 0, 0] });
    }
    for number in 0..38 {
        let compared = table.entries.len() as i64;
        table.entries.push(Entry { kind: Kind::Equal, operands: [number, number + 1, 0] });
        table.entries.push(Entry { kind: Kind::Property, operands: [compared, 0, 0] });
        table.labels.push(Vec::new());
    }
    let mut bytes = record(&ScriptDraft::of(&table).pack());
    for time in 0..4 {
        let reports = [(); MOST_IMPORTS].map(|_| Some(Report::Event(Some(scripts::number(random)))));
        let mut draft = StepDraft::of(&Step { time, reports });
        if time == 3 {
            draft.tail = vec![0; random.below(2)];
        }
        bytes.extend(record(&draft.pack()));
    }
    Made { script: ScriptDraft::of(&table).pack(), bytes }
}

/// A script of exactly 4,096 bytes, of one byte more or less, or of 65,535.
fn long_script(random: &mut Random) -> Made {
    let mut table = Table { imports: vec![true], ..Table::default() };
    table.entries.push(Entry { kind: Kind::EventImport, operands: [0; 3] });
    for _ in 1..MOST_ENTRIES {
        table.entries.push(Entry { kind: Kind::Alarm, operands: [0; 3] });
        table.labels.push(Vec::new());
    }
    let wanted = MOST_SCRIPT - 1 + random.below(3);
    let mut missing = wanted - ScriptDraft::of(&table).pack().len();
    for label in table.labels.iter_mut() {
        *label = vec![random.between(0x20, 0x7E) as u8; missing.min(MOST_LABEL)];
        missing -= label.len();
    }
    let mut script = ScriptDraft::of(&table).pack();
    if random.chance(15) {
        script.resize(random.pick(&[0xFFFF, 0x8000, 4098]), 0);
    }
    let mut bytes = record(&script);
    let mut steps = StepMaker::new(random, &table.imports, 10);
    (0..6).for_each(|_| bytes.extend(record(&steps.next())));
    Made { script, bytes }
}

/// "128 entries pass, 0 and 129 give 4; q of 48 passes, 49 gives 4": the header alone, or with zero bytes.
fn counts(random: &mut Random) -> Made {
    let draft = ScriptDraft {
        entry_count: random.pick(&[0, 1, 128, 129, 255]),
        import_count: random.pick(&[0, 1, 48, 49, 63]),
        variable_count: random.pick(&[0, 1, 32, 33, 63]),
        four_bits: random.pick(&[0, 0, 0, 1, 8, 15]),
        ..ScriptDraft::of(&Table::default())
    };
    let mut script = draft.pack();
    let length = random.pick(&[1, 2, 3, 4, 300, 1200]);
    script.resize(length, 0);
    let bytes = record(&script);
    Made { script, bytes }
}

/// Times 0 and 2^47−1; behind the last time there is no other.
fn first_and_last_time(random: &mut Random) -> Made {
    let table = scripts::table(random, 40);
    let script = ScriptDraft::of(&table).pack();
    let mut bytes = record(&script);
    let times = [0, 0, 1, 1 << 31, 1 << 32, LAST_TIME - 1, LAST_TIME - 1, LAST_TIME, LAST_TIME, 0, 5];
    let start = random.below(times.len());
    for time in &times[start..] {
        let mut reports = [None; MOST_IMPORTS];
        for (report, is_event) in reports.iter_mut().zip(&table.imports) {
            let truth = random.pick(&[Truth::True, Truth::False]);
            *report = Some(if *is_event { Report::Event(Some(1)) } else { Report::Condition(truth) });
        }
        bytes.extend(record(&StepDraft::of(&Step { time: *time, reports }).pack()));
    }
    Made { script, bytes }
}

/// Records of 65,535 bytes between good ones.
fn long_records(random: &mut Random) -> Made {
    let table = scripts::table(random, 30);
    let script = ScriptDraft::of(&table).pack();
    let mut bytes = record(&script);
    let mut steps = StepMaker::new(random, &table.imports, 0);
    for length in [0xFFFF, 0xFFFE, 0x8000, 338] {
        bytes.extend(record(&steps.next()));
        let mut long = if steps.random.chance(60) { steps.next() } else { steps.random.bytes(40) };
        long.resize(length, 0);
        bytes.extend(record(&long));
    }
    bytes.extend(record(&steps.next()));
    Made { script, bytes }
}

/// Sums and differences next to −2^47 and 2^47−1, with what comes of them compared.
fn ends_of_the_range(random: &mut Random) -> Made {
    let mut table = Table { imports: vec![true, true], ..Table::default() };
    let ends = [LEAST_NUMBER, LEAST_NUMBER + 1, GREATEST_NUMBER, GREATEST_NUMBER - 1, 0, 1, -1];
    let mut add = |kind, a, b| {
        table.entries.push(Entry { kind, operands: [a, b, 0] });
        table.entries.len() as i64 - 1
    };
    for _ in 0..16 {
        let a = add(Kind::Constant, random.pick(&ends), 0);
        let b = add(Kind::Value, random.below(2) as i64, 0);
        let kind = random.pick(&[Kind::Sum, Kind::Difference]);
        let made = if random.chance(50) { add(kind, a, b) } else { add(kind, b, a) };
        let compared = add(random.pick(&[Kind::Less, Kind::Equal]), made, a);
        add(Kind::Property, compared, 0);
    }
    table.labels = vec![b"R".to_vec(); 16];
    let script = ScriptDraft::of(&table).pack();
    let mut bytes = record(&script);
    for time in 0..8 {
        let mut reports = [None; MOST_IMPORTS];
        reports[0] = Some(Report::Event(Some(random.pick(&ends))));
        reports[1] = Some(Report::Event(Some(random.pick(&ends))));
        bytes.extend(record(&StepDraft::of(&Step { time, reports }).pack()));
    }
    Made { script, bytes }
}

/// 128 entries, each an operand of the next.
fn deep(random: &mut Random) -> Made {
    let mut table = Table { imports: vec![random.chance(50), false], ..Table::default() };
    table.entries.push(Entry { kind: Kind::ConditionImport, operands: [1, 0, 0] });
    for before in 0..MOST_ENTRIES as i64 - 2 {
        let kind = random.pick(&[Kind::Not, Kind::Not, Kind::Defined, Kind::Or, Kind::And]);
        let kind = if before < 100 { Kind::Not } else { kind };
        let operands = if kind.operands().len() == 2 { [before, before, 0] } else { [before, 0, 0] };
        table.entries.push(Entry { kind, operands });
    }
    table.entries.push(Entry { kind: Kind::Property, operands: [MOST_ENTRIES as i64 - 2, 0, 0] });
    table.labels.push(b"DEEP".to_vec());
    with_steps(random, &table, 12)
}

/// 48 imports and 32 variables, all of them in use.
fn every_import_and_variable(random: &mut Random) -> Made {
    let mut table = scripts::table_over(random, 126, MOST_IMPORTS, MOST_VARIABLES);
    table.entries.push(Entry { kind: Kind::Variable, operands: [31, 0, 0] });
    let last = if table.imports[47] { Kind::EventImport } else { Kind::ConditionImport };
    table.entries.push(Entry { kind: last, operands: [47, 0, 0] });
    with_steps(random, &table, 12)
}

/// As many entries as a script may have.
fn most_entries(random: &mut Random) -> Made {
    let mut table = scripts::table(random, MOST_ENTRIES);
    while table.entries.len() < MOST_ENTRIES {
        table.entries.push(Entry { kind: Kind::Clock, operands: [0; 3] });
    }
    with_steps(random, &table, 30)
}

fn with_steps(random: &mut Random, table: &Table, count: usize) -> Made {
    let script = ScriptDraft::of(table).pack();
    let mut bytes = record(&script);
    let mut steps = StepMaker::new(random, &table.imports, 8);
    (0..count).for_each(|_| bytes.extend(record(&steps.next())));
    Made { script, bytes }
}
