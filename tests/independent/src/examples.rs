//! The document's own examples, tried on the second reading.

use crate::draft::{record, ScriptDraft, StepDraft};
use crate::lines::{inspect, replay};
use crate::logic::{rows, Outcome};
use crate::mistake::Mistake;
use crate::script;
use crate::step::{Report, Step};
use crate::table::*;
use crate::truth::Truth::{self, False, True, Undefined};

const SCRIPT: &str = "0104040000018050 1B82044C454150";
const STEPS: [&str; 4] = ["00000000 07D00808", "00000000 0FA00800", "00000000 17700810", "00000000 1F400800"];

fn hex(text: &str) -> Vec<u8> {
    let digits: Vec<u32> = text.chars().filter_map(|digit| digit.to_digit(16)).collect();
    digits.chunks(2).map(|pair| (pair[0] * 16 + pair[1]) as u8).collect()
}

fn recorded_stream() -> Vec<u8> {
    let mut bytes = record(&hex(SCRIPT));
    STEPS.iter().for_each(|step| bytes.extend(record(&hex(step))));
    bytes
}

fn printed(bytes: &[u8]) -> String {
    String::from_utf8(replay(bytes, Mistake::None)).expect("lines are text")
}

fn table(imports: &[bool], entries: &[(Kind, [i64; 3])]) -> Table {
    let entries = entries.iter().map(|(kind, operands)| Entry { kind: *kind, operands: *operands });
    let entries: Vec<Entry> = entries.collect();
    let labels = entries.iter().filter(|e| e.kind.has_label()).map(|_| b"L".to_vec()).collect();
    Table { imports: imports.to_vec(), variables: vec![None], entries, labels }
}

fn step(time: u64, reports: &[(usize, Report)]) -> Step {
    let mut step = Step { time, ..Step::empty() };
    for (import, report) in reports {
        step.reports[*import] = Some(*report);
    }
    step
}

fn told(import: usize, truth: Truth) -> (usize, Report) {
    (import, Report::Condition(truth))
}

fn event(import: usize) -> (usize, Report) {
    (import, Report::Event(None))
}

/// The last entry's result at each step.
fn last(table: &Table, steps: &[Step]) -> Vec<Outcome> {
    let rows = rows(table, steps, Mistake::None);
    rows.iter().map(|row| *row.last().expect("a row of entries")).collect()
}

fn of_two(kind: Kind, a: Truth, b: Truth) -> Outcome {
    let imported = [(Kind::ConditionImport, [0; 3]), (Kind::ConditionImport, [1, 0, 0])];
    let table = table(&[false, false], &[imported[0], imported[1], (kind, [0, 1, 0])]);
    last(&table, &[step(0, &[told(0, a), told(1, b)])])[0]
}

#[test]
fn one_recorded_stream_whole() {
    let lines = "script 4\n2000 alarm 3 LEAP\n4000 alarm 3 LEAP\nsteps 4 refused 0\n";
    assert_eq!(printed(&recorded_stream()), lines);
}

#[test]
fn every_cut_of_the_recorded_stream() {
    let whole = recorded_stream();
    let ends = [17, 27, 37, 47, 57];
    for kept in 0..whole.len() {
        let lines = printed(&whole[..kept]);
        assert_eq!(lines == "cut\n", kept < 17, "{kept}");
        assert_eq!(lines.contains("cut\n"), !ends.contains(&kept), "{kept}");
    }
}

#[test]
fn p1_to_p4() {
    assert_eq!(of_two(Kind::Or, Undefined, True), Outcome::Condition(True));
    assert_eq!(of_two(Kind::And, Undefined, False), Outcome::Condition(False));
    assert_eq!(of_two(Kind::Implies, Undefined, Undefined), Outcome::Condition(Undefined));
    assert_eq!(of_two(Kind::Defined, Undefined, True), Outcome::Condition(False));
}

#[test]
fn p5_and_p6() {
    let imported = [(Kind::EventImport, [0; 3]), (Kind::EventImport, [1, 0, 0])];
    let pair = table(&[true, true], &[imported[0], imported[1], (Kind::Pair, [0, 1, 0])]);
    let together = [step(1, &[event(0), event(1)])];
    assert_eq!(last(&pair, &together), [Outcome::Condition(False)]);
    let opened = [step(1, &[event(0)]), step(2, &[])];
    assert_eq!(last(&pair, &opened)[1], Outcome::Condition(True));
}

#[test]
fn p7_to_p9() {
    let turned = |kind| table(&[false], &[(Kind::ConditionImport, [0; 3]), (kind, [0; 3])]);
    let once = |truth| [step(1, &[told(0, truth)])];
    assert_eq!(last(&turned(Kind::Start), &once(True)), [Outcome::Event(true)]);
    assert_eq!(last(&turned(Kind::End), &once(False)), [Outcome::Event(true)]);
    let lost = [step(1, &[told(0, True)]), step(2, &[told(0, Undefined)])];
    assert_eq!(last(&turned(Kind::Start), &lost)[1], Outcome::Event(false));
    assert_eq!(last(&turned(Kind::End), &lost)[1], Outcome::Event(false));
}

#[test]
fn p10_and_p11() {
    let one = (Kind::Constant, [1, 0, 0]);
    let most = (Kind::Constant, [GREATEST_NUMBER, 0, 0]);
    let sum = table(&[], &[one, most, (Kind::Sum, [1, 0, 0])]);
    assert_eq!(last(&sum, &[step(0, &[])]), [Outcome::Number(None)]);
    let three = (Kind::Constant, [3, 0, 0]);
    let less = table(&[], &[(Kind::Variable, [0; 3]), three, (Kind::Less, [0, 1, 0])]);
    assert_eq!(last(&less, &[step(0, &[])]), [Outcome::Condition(Undefined)]);
}

#[test]
fn p12_a_read_before_an_update() {
    let read = table(
        &[true],
        &[
            (Kind::Variable, [0; 3]),
            (Kind::EventImport, [0; 3]),
            (Kind::Constant, [7, 0, 0]),
            (Kind::Update, [1, 0, 2]),
        ],
    );
    let rows = rows(&read, &[step(1, &[event(0)]), step(2, &[])], Mistake::None);
    assert_eq!(rows[0][0], Outcome::Number(None));
    assert_eq!(rows[1][0], Outcome::Number(Some(7)));
}

/// Document 003's gate rule: closing (import 1) while not down (import 2), until opened (import 0) or down,
/// takes less than 30.
fn gate_rule() -> Table {
    table(
        &[true, true, false],
        &[
            (Kind::EventImport, [0; 3]),
            (Kind::EventImport, [1, 0, 0]),
            (Kind::ConditionImport, [2, 0, 0]),
            (Kind::Time, [1, 0, 0]),
            (Kind::Update, [1, 0, 3]),
            (Kind::Not, [2, 0, 0]),
            (Kind::When, [1, 5, 0]),
            (Kind::Start, [2, 0, 0]),
            (Kind::Either, [0, 7, 0]),
            (Kind::Pair, [6, 8, 0]),
            (Kind::Clock, [0; 3]),
            (Kind::Variable, [0; 3]),
            (Kind::Difference, [10, 11, 0]),
            (Kind::Constant, [30, 0, 0]),
            (Kind::Less, [12, 13, 0]),
            (Kind::Implies, [9, 14, 0]),
            (Kind::Property, [15, 0, 0]),
        ],
    )
}

#[test]
fn the_gate_rule_with_two_closings() {
    let table = gate_rule();
    let mut bytes = record(&ScriptDraft::of(&table).pack());
    let steps = [
        step(0, &[told(2, False)]),
        step(10, &[event(1)]),
        step(20, &[told(2, True)]),
        step(30, &[told(2, False)]),
        step(100, &[event(1)]),
        step(129, &[]),
        step(130, &[]),
        step(131, &[event(0)]),
    ];
    steps.iter().for_each(|step| bytes.extend(record(&StepDraft::of(step).pack())));
    assert_eq!(printed(&bytes), "script 17\n130 violated 16 L\nsteps 8 refused 0\n");
    let misread = replay(&bytes, Mistake::ConditionsBeforeUpdates);
    assert!(String::from_utf8_lossy(&misread).contains("100 violated 16 L\n"));
}

#[test]
fn first_faults_of_short_scripts() {
    let refused = |text| script::read(&hex(text), Mistake::None).err();
    assert_eq!(refused(""), Some(2));
    assert_eq!(refused("02"), Some(3));
    assert_eq!(refused("0100"), Some(4));
    assert_eq!(refused("0181"), Some(4));
    assert_eq!(refused("01010000"), Some(2));
    assert_eq!(refused("0101C4"), Some(4));
    assert_eq!(refused("01010001"), Some(4));
    assert_eq!(refused("01010000 C8"), Some(6));
    assert_eq!(refused("01010000 98"), None);
    assert_eq!(refused("01010000 99"), Some(9));
    assert_eq!(refused("01010000 9800"), Some(11));
    assert_eq!(refused("01010000 0000"), Some(7));
}

#[test]
fn labels_at_their_limits() {
    let table = table(&[true], &[(Kind::EventImport, [0; 3]), (Kind::Alarm, [0; 3])]);
    let labelled = |length: u8, bytes: usize| {
        let mut draft = ScriptDraft::of(&table);
        draft.labels = vec![(length, vec![b'a'; bytes])];
        script::read(&draft.pack(), Mistake::None).err()
    };
    assert_eq!(labelled(32, 32), None);
    assert_eq!(labelled(33, 33), Some(10));
    assert_eq!(labelled(33, 0), Some(10));
    assert_eq!(labelled(32, 31), Some(2));
    assert_eq!(labelled(31, 32), Some(11));
}

#[test]
fn times_and_short_steps() {
    let mut bytes = record(&hex(SCRIPT));
    // An equal time, no bytes, an equal time in six bytes, five bytes.
    for step in [STEPS[0], STEPS[0], "", "0000000007D0", "0000000007"] {
        bytes.extend(record(&hex(step)));
    }
    // One millisecond later: with a byte too many, with padding that is not zero, without a fault.
    for step in ["0000000007D20000", "0000000007D201", "0000000007D200"] {
        bytes.extend(record(&hex(step)));
    }
    let refused = ["22", "21", "22", "21", "27", "26"].map(|number| format!("refused {number}\n"));
    let lines = format!("script 4\n{}steps 2 refused 6\n", refused.concat());
    assert_eq!(printed(&bytes), lines);
}

#[test]
fn reach_of_the_recorded_script() {
    let lines = inspect(&hex(SCRIPT), Mistake::None);
    let wanted = "script 4\n3 alarm LEAP\n3 entries 0 1 2 3\n3 imports 0\n3 clock no\n";
    assert_eq!(String::from_utf8(lines).expect("lines are text"), wanted);
}
