//! The functions of the library over slices. Any slices may be passed: the library tests every size itself, and replies 90 where one
//! is wrong. That these calls are safe is all that is unsafe here: a slice is a pointer that is not null and as many elements as it
//! says, and what Rust lends as `&mut` overlaps nothing else.

use crate::raw;

pub fn start(script: &[u8], state: &mut [u64]) -> u8 {
    unsafe { raw::nimbra_start(script.as_ptr(), script.len(), state.as_mut_ptr(), state.len()) }
}

/// A step with the test for 29.
pub fn step(state: &mut [u64], step: &[u8], results: &mut [u64]) -> u8 {
    unsafe {
        raw::nimbra_step(
            state.as_mut_ptr(),
            state.len(),
            step.as_ptr(),
            step.len(),
            results.as_mut_ptr(),
            results.len(),
        )
    }
}

/// A step without it.
pub fn step_held(state: &mut [u64], step: &[u8], results: &mut [u64]) -> u8 {
    unsafe {
        raw::nimbra_step_held(
            state.as_mut_ptr(),
            state.len(),
            step.as_ptr(),
            step.len(),
            results.as_mut_ptr(),
            results.len(),
        )
    }
}

pub fn next_alarm(results: &[u64], from: u64) -> u64 {
    unsafe { raw::nimbra_next_alarm(results.as_ptr(), results.len(), from) }
}

pub fn label(script: &[u8], entry: u64, place: &mut [u64]) -> u8 {
    unsafe { raw::nimbra_label(script.as_ptr(), script.len(), entry, place.as_mut_ptr(), place.len()) }
}

pub fn labels(script: &[u8], place: &mut [u64]) -> u8 {
    unsafe { raw::nimbra_labels(script.as_ptr(), script.len(), place.as_mut_ptr(), place.len()) }
}

pub fn reach(state: &[u64], entry: u64, marks: &mut [u8]) -> u8 {
    unsafe { raw::nimbra_reach(state.as_ptr(), state.len(), entry, marks.as_mut_ptr(), marks.len()) }
}

pub fn write(state: &[u64], labels: &[u8], out: &mut [u8], size: &mut [u64]) -> u8 {
    unsafe {
        raw::nimbra_write(
            state.as_ptr(),
            state.len(),
            labels.as_ptr(),
            labels.len(),
            out.as_mut_ptr(),
            out.len(),
            size.as_mut_ptr(),
            size.len(),
        )
    }
}
