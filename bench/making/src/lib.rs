//! Makes scripts and steps, for tests and measurements: by hand, or at random from a seed.

#![forbid(unsafe_code)]

mod damage;
mod draft;
mod random;
mod step;

pub use damage::damaged;
pub use draft::{Draft, Number};
pub use random::Random;
pub use step::{step, Report, Told};
