//! Every piece of work that is measured, in the order of the table.

use crate::cases::{self, case, Case, Steps};
use crate::sides::{self, Batch};
use std::rc::Rc;

/// Which side does a batch.
#[derive(Clone, Copy, PartialEq, Eq, Debug)]
pub enum Side {
    /// `nimbra_step_held`, `nimbra_start`, `nimbra_write`.
    Ours,
    /// `nimbra_step`.
    Tested,
    Plain,
}

/// One piece of work, done by each side.
pub struct Work {
    /// A short name; of (d) and of what grows, with what tells it from its fellows.
    pub name: String,
    /// What is done once: a step, a script.
    pub of: String,
    /// How many times it is done in a batch.
    pub times: usize,
    pub sides: Vec<(Side, Batch)>,
    /// The most that ours may take of plain's time.
    pub mark: Option<f64>,
}

/// How many of each fill a batch: enough to be timed, or few, to be counted.
#[derive(Clone, Copy)]
pub struct Scale {
    pub small: usize,
    pub large: usize,
    pub scripts: usize,
}

pub const TIMED: Scale = Scale { small: 3000, large: 600, scripts: 40 };
pub const COUNTED: Scale = Scale { small: 240, large: 120, scripts: 10 };

fn steps(
    name: &'static str,
    of: &str,
    mark: f64,
    made: (Vec<u8>, Steps),
    times: usize,
) -> Result<Work, String> {
    let case = compared(name, made, times)?;
    let sides = vec![
        (Side::Ours, sides::held(&case)),
        (Side::Tested, sides::tested(&case)),
        (Side::Plain, sides::plain(&case)),
    ];
    Ok(Work { name: name.to_string(), of: of.to_string(), times, sides, mark: Some(mark) })
}

/// A case, once both sides are seen to agree on it.
fn compared(name: &str, made: (Vec<u8>, Steps), times: usize) -> Result<Rc<Case>, String> {
    let case = case(made, times);
    assert_eq!(case.len(), times);
    sides::compare(name, &case)?;
    Ok(Rc::new(case))
}

/// (a) to (d).
pub fn main_works(scale: Scale) -> Result<Vec<Work>, String> {
    let script = cases::long_script();
    sides::compare_writing(&script)?;
    let times = scale.scripts;
    let start = vec![
        (Side::Ours, sides::our_start(&script, times)),
        (Side::Plain, sides::plain_start(&script, times)),
    ];
    let write = vec![
        (Side::Ours, sides::our_write(&script, times)),
        (Side::Plain, sides::plain_write(&script, times)),
    ];
    let script_work = |name: &str, of: &str, sides| Work {
        name: name.into(),
        of: of.into(),
        times,
        sides,
        mark: Some(3.0),
    };
    Ok(vec![
        steps("a", "a step, the recorded script of 4 entries", 5.0, cases::recorded(), scale.small)?,
        steps("b", "a step, the gate rule twelve times, 83 entries", 2.0, cases::gates(), scale.large)?,
        steps("c", "a step, 128 entries of 25 kinds, 10 reports", 2.0, cases::full(), scale.large)?,
        script_work("d-read", "4,000 bytes of script read and started", start),
        script_work("d-write", "4,000 bytes of script written", write),
    ])
}

fn growth(name: String, of: String, made: (Vec<u8>, Steps), times: usize) -> Result<Work, String> {
    let case = compared(&name, made, times)?;
    let sides = vec![(Side::Ours, sides::held(&case)), (Side::Plain, sides::plain(&case))];
    Ok(Work { name, of, times, sides, mark: None })
}

/// How a step grows with the entries of the script, and with the reports of the step.
pub fn growing_works(scale: Scale) -> Result<Vec<Work>, String> {
    let by_entries = [1, 2, 4, 8, 16, 32, 64, 128].into_iter().map(|n| {
        let of = format!("entries {n}, reports 1");
        growth(format!("entries-{n}"), of, cases::with_entries(n), scale.large)
    });
    let by_reports = [0, 1, 2, 4, 8, 16, 32, 48].into_iter().map(|n| {
        let of = format!("entries 1, reports {n}");
        growth(format!("reports-{n}"), of, cases::with_reports(n), scale.large)
    });
    by_entries.chain(by_reports).collect()
}
