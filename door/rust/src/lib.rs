//! The rule checker for Rust: a safe door to the proved library `libdoor.a`.
//!
//! ```
//! use nimbrascelto::Monitor;
//!
//! fn main() -> Result<(), u8> {
//!     // A condition, its negation, the start of that, and the alarm LEAP.
//!     let script = b"\x01\x04\x04\x00\x00\x01\x80\x50\x1B\x82\x04LEAP";
//!     let mut monitor = Monitor::start(script)?;
//!     // Time 2000: the condition is false.
//!     monitor.step(&[0, 0, 0, 0, 0x0F, 0xA0, 0x08, 0])?;
//!     for (entry, label) in monitor.alarms() {
//!         println!("alarm {entry} {}", String::from_utf8_lossy(label));
//!     }
//!     Ok(())
//! }
//! ```
//!
//! An error is the number of the first fault: of a script 1 to 11, of a step 21 to 27; 29 damaged words, 30 no such entry, 90 a
//! buffer of the wrong size.

pub mod calls;
mod monitor;
mod outcome;
pub mod raw;

pub use monitor::{Monitor, Reach};
pub use outcome::Outcome;
