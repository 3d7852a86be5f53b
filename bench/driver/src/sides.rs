//! The work that is measured, ours and the plain interpreter's, as batches that can be run again and again.

use crate::cases::Case;
use nimbrascelto::calls;
use nimbrascelto::raw::{SLOTS, STATE_WORDS};
use std::hint::black_box;
use std::rc::Rc;

/// A batch of work.
pub type Batch = Box<dyn FnMut()>;

/// A step of the library.
type Step = fn(&mut [u64], &[u8], &mut [u64]) -> u8;

/// A state that the library has started.
fn started(script: &[u8]) -> Box<[u64; STATE_WORDS]> {
    let mut state = Box::new([0; STATE_WORDS]);
    assert_eq!(calls::start(script, &mut state[..]), 0, "the script is accepted");
    state
}

/// All steps of a case from its start, by the library.
fn ours(case: &Rc<Case>, step: Step) -> Batch {
    let case = case.clone();
    let fresh = started(&case.script);
    let mut state = fresh.clone();
    let mut results = Box::new([0; SLOTS]);
    Box::new(move || {
        state.copy_from_slice(&fresh[..]);
        for bytes in case.steps() {
            black_box(step(&mut state[..], bytes, &mut results[..]));
            black_box(&results);
        }
    })
}

/// By `nimbra_step_held`.
pub fn held(case: &Rc<Case>) -> Batch {
    ours(case, calls::step_held)
}

/// By `nimbra_step`, which tests for 29.
pub fn tested(case: &Rc<Case>) -> Batch {
    ours(case, calls::step)
}

/// By the plain interpreter.
pub fn plain(case: &Rc<Case>) -> Batch {
    let case = case.clone();
    let fresh = Box::new(plain::start(plain::read(&case.script).expect("the script is accepted")));
    let mut monitor = fresh.clone();
    Box::new(move || {
        monitor.clone_from(&fresh);
        for bytes in case.steps() {
            black_box(monitor.step(bytes));
            black_box(monitor.results());
        }
    })
}

/// A script read and started, so many times.
pub fn our_start(script: &[u8], times: usize) -> Batch {
    let script = script.to_vec();
    let mut state = started(&script);
    Box::new(move || {
        for _ in 0..times {
            black_box(calls::start(black_box(&script), &mut state[..]));
            black_box(&state);
        }
    })
}

pub fn plain_start(script: &[u8], times: usize) -> Batch {
    let script = script.to_vec();
    let mut monitor = Box::new(plain::start(plain::Table::empty()));
    Box::new(move || {
        for _ in 0..times {
            *monitor = plain::start(plain::read(black_box(&script)).expect("the script is accepted"));
            black_box(&monitor);
        }
    })
}

/// A script written, so many times.
pub fn our_write(script: &[u8], times: usize) -> Batch {
    let state = started(script);
    let labels =
        nimbrascelto::Monitor::start(script).and_then(|monitor| monitor.labels().map(|block| block.to_vec()));
    let labels = labels.expect("the script has labels");
    let mut out = vec![0; 4096];
    let mut size = [0];
    Box::new(move || {
        for _ in 0..times {
            black_box(calls::write(black_box(&state[..]), &labels, &mut out, &mut size));
            black_box(&out);
        }
    })
}

pub fn plain_write(script: &[u8], times: usize) -> Batch {
    let table = plain::read(script).expect("the script is accepted");
    let labels = plain::labels(script, &table).to_vec();
    let mut out = vec![0; 4096];
    Box::new(move || {
        for _ in 0..times {
            black_box(plain::write(black_box(&table), &labels, &mut out)).expect("it has room");
            black_box(&out);
        }
    })
}

/// All steps of a case on both sides: every reply and every result word is the same.
pub fn compare(name: &str, case: &Case) -> Result<(), String> {
    let mut theirs = plain::start(plain::read(&case.script).map_err(|number| format!("{name}: {number}"))?);
    let mut state = started(&case.script);
    let mut tested = state.clone();
    let mut results = [[0; SLOTS]; 2];
    for (place, bytes) in case.steps().enumerate() {
        let expected = theirs.step(bytes);
        let replies = [
            calls::step_held(&mut state[..], bytes, &mut results[0]),
            calls::step(&mut tested[..], bytes, &mut results[1]),
        ];
        if replies != [expected; 2]
            || results.iter().any(|words| words != theirs.results())
            || state != tested
        {
            return Err(format!("{name}: step {place} differs: {replies:?} beside {expected}"));
        }
        if expected != 0 {
            return Err(format!("{name}: step {place} is refused: {expected}"));
        }
    }
    Ok(())
}

/// The script written by both sides: it is the script.
pub fn compare_writing(script: &[u8]) -> Result<(), String> {
    let table = plain::read(script).map_err(|number| format!("the long script: {number}"))?;
    let labels = plain::labels(script, &table);
    let mut outs = [[0xAA; 4096]; 2];
    let mut size = [0];
    let reply = calls::write(&started(script)[..], labels, &mut outs[0], &mut size);
    let theirs = plain::write(&table, labels, &mut outs[1]);
    let is_same = reply == 0 && theirs == Ok(size[0] as usize) && outs[0] == outs[1];
    match is_same && outs[0][..script.len()] == *script {
        true => Ok(()),
        false => {
            Err(format!("the long script: written by ours {reply}, by plain {theirs:?}, and not the same"))
        }
    }
}
