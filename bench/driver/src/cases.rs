//! The scripts and the steps that are measured.

use making::{step, Draft, Random, Report, Told};
use plain::Kind;

/// A script, and steps with rising times, one behind another.
pub struct Case {
    pub script: Vec<u8>,
    bytes: Vec<u8>,
    ends: Vec<usize>,
}

impl Case {
    fn new(script: Vec<u8>) -> Self {
        Case { script, bytes: Vec::new(), ends: vec![0] }
    }

    fn push(&mut self, step: &[u8]) {
        self.bytes.extend_from_slice(step);
        self.ends.push(self.bytes.len());
    }

    /// How many steps there are.
    pub fn len(&self) -> usize {
        self.ends.len() - 1
    }

    #[inline(always)]
    pub fn steps(&self) -> impl Iterator<Item = &[u8]> {
        self.ends.windows(2).map(|ends| &self.bytes[ends[0]..ends[1]])
    }
}

/// How a case's steps come, one after another, without end.
pub type Steps = Box<dyn FnMut() -> Vec<u8>>;

/// The first `count` of them behind their script.
pub fn case((script, mut steps): (Vec<u8>, Steps), count: usize) -> Case {
    let mut case = Case::new(script);
    for _ in 0..count {
        case.push(&steps());
    }
    case
}

fn condition(import: u8, told: Option<bool>) -> Report {
    Report { import, told: Told::Condition(told) }
}

fn event(import: u8) -> Report {
    Report { import, told: Told::Event(None) }
}

/// The steps of a pattern, over and over: each with the milliseconds since the step before it.
fn repeated(pattern: Vec<(u64, Vec<Report>)>) -> Steps {
    let mut time = 0;
    let mut next = 0;
    Box::new(move || {
        let (later, reports) = &pattern[next];
        next = (next + 1) % pattern.len();
        time += later;
        step(time, reports)
    })
}

/// (a) The recorded stream's script, and its four steps with rising times.
pub fn recorded() -> (Vec<u8>, Steps) {
    let mut draft = Draft::new(&[false], &[]);
    let current = draft.entry(Kind::ConditionImport, &[0]);
    let not = draft.entry(Kind::Not, &[current]);
    let start = draft.entry(Kind::Start, &[not]);
    draft.labelled(Kind::Alarm, start, "LEAP");
    let pattern = [Some(true), Some(false), None, Some(false)];
    (draft.script(), repeated(pattern.map(|told| (1000, vec![condition(0, told)])).into()))
}

/// (b) Document 003's gate rule twelve times, each with a variable of its own; what is equal in all of them stands once. The steps are two
/// closings of the gate, the second of which takes too long.
pub fn gates() -> (Vec<u8>, Steps) {
    const OPEN: u8 = 0;
    const CLOSE: u8 = 1;
    const DOWN: u8 = 2;
    const COPIES: u8 = 12;
    let mut draft = Draft::new(&[true, true, false], &[None; COPIES as usize]);
    let close = draft.entry(Kind::EventImport, &[CLOSE]);
    let closed_at = draft.entry(Kind::TimeOf, &[close]);
    let updates: Vec<u8> = (0..COPIES).map(|x| draft.entry(Kind::Update, &[close, x, closed_at])).collect();
    let down = draft.entry(Kind::ConditionImport, &[DOWN]);
    let not_down = draft.entry(Kind::Not, &[down]);
    let begins = draft.entry(Kind::When, &[close, not_down]);
    let open = draft.entry(Kind::EventImport, &[OPEN]);
    let is_down = draft.entry(Kind::Start, &[down]);
    let ends = draft.entry(Kind::Either, &[open, is_down]);
    let closing = draft.entry(Kind::Pair, &[begins, ends]);
    let limit = draft.constant(30_000);
    let clock = draft.entry(Kind::Clock, &[]);
    for x in 0..updates.len() as u8 {
        let last_close = draft.entry(Kind::Variable, &[x]);
        let sum = draft.entry(Kind::Sum, &[last_close, limit]);
        let in_time = draft.entry(Kind::Less, &[clock, sum]);
        let implies = draft.entry(Kind::Implies, &[closing, in_time]);
        draft.labelled(Kind::Property, implies, &format!("GATE {x}"));
    }
    let pattern = vec![
        (1000, vec![event(CLOSE), condition(DOWN, Some(false))]),
        (4000, vec![condition(DOWN, Some(true))]),
        (85_000, vec![event(OPEN), condition(DOWN, Some(false))]),
        (10_000, vec![event(CLOSE)]),
        (29_000, vec![]),
        (2000, vec![]),
    ];
    (draft.script(), repeated(pattern))
}

/// A script of `entries` entries whose kinds come in turn, all 25 of them five times where there are 128; every other import is an
/// event, every other variable starts undefined.
fn full_draft(entries: usize) -> Draft {
    let random = &mut Random::new(25);
    let events: Vec<bool> = (0..48).map(|import| import % 2 == 0).collect();
    let starts: Vec<Option<i64>> = (0..32).map(|x| (x % 2 == 0).then_some(1000 * x)).collect();
    let mut draft = Draft::new(&events, &starts);
    let firsts = [Kind::ConditionImport, Kind::EventImport, Kind::Clock];
    let turns = (0..).map(|turn| Kind::of_number(turn % 25).expect("one of 25 kinds"));
    for kind in firsts.into_iter().chain(turns).take(entries) {
        draft.random_entry(kind, random).expect("each finds its operands");
    }
    draft
}

/// So many reports in each step, at random; a second from step to step.
fn reported(draft: Draft, reports: usize) -> (Vec<u8>, Steps) {
    let mut random = Random::new(48);
    let mut time = 0;
    let script = draft.script();
    let steps = move || {
        time += 1000;
        step(time, &draft.random_reports(reports, &mut random))
    };
    (script, Box::new(steps))
}

/// (c) 128 entries of all 25 kinds, and ten reports in each step.
pub fn full() -> (Vec<u8>, Steps) {
    reported(full_draft(128), 10)
}

/// The first entries of (c), and one report in each step.
pub fn with_entries(entries: usize) -> (Vec<u8>, Steps) {
    reported(full_draft(entries), 1)
}

/// The first entry of (c), and so many reports in each step.
pub fn with_reports(reports: usize) -> (Vec<u8>, Steps) {
    reported(full_draft(1), reports)
}

/// (d) A script of 4,000 bytes: 18 entries of different kinds, and 110 alarms and properties with long labels.
pub fn long_script() -> Vec<u8> {
    const SIZE: usize = 4000;
    let all_long = labelled_script(0);
    let script = labelled_script(all_long.len() - SIZE);
    assert_eq!(script.len(), SIZE);
    script
}

/// Labels of 32 bytes, but for the first ones, which have 31.
fn labelled_script(shortened: usize) -> Vec<u8> {
    let random = &mut Random::new(4000);
    let mut draft = full_draft(18);
    for number in 0..110 {
        let length = if number < shortened { 31 } else { 32 };
        let label = format!("{:-<length$}", format!("RULE NUMBER {number} OF THE LOGGER "));
        let operand = random.below(2) as u8;
        let kind = if operand == 0 { Kind::Property } else { Kind::Alarm };
        draft.labelled(kind, operand, &label);
    }
    draft.script()
}
