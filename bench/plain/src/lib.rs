//! A plain interpreter of rule scripts, written for speed: what the proved checker is compared with.
//!
//! One state is kept by reference; a step allocates nothing, and a refused one leaves the state as it was.

#![forbid(unsafe_code)]

mod bits;
mod monitor;
mod script;
mod table;
#[cfg(test)]
mod tests;

pub use monitor::{start, Monitor};
pub use script::{labelled, labels, read, write};
pub use table::{Entry, Kind, Operand, Sort, Table};
