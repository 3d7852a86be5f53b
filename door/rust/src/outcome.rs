//! What a result word says.

use crate::raw::NUMBER_ZERO;

/// The result of one entry at one step; `None` is undefined.
#[derive(Clone, Copy, PartialEq, Eq, Debug)]
pub enum Outcome {
    /// No result: the slot of no entry, or the step was refused.
    Nothing,
    Condition(Option<bool>),
    Number(Option<i64>),
    /// Whether it occurs.
    Event(bool),
    /// Whether it is done.
    Update(bool),
    /// Whether it is raised.
    Alarm(bool),
    /// Whether it holds; false is violated, `None` not known.
    Property(Option<bool>),
}

impl Outcome {
    /// What a result word of the library says; a word that it never gives counts as no result.
    pub fn of_word(word: u64) -> Outcome {
        match word {
            1 => Outcome::Condition(None),
            2 | 3 => Outcome::Condition(Some(word == 3)),
            4 => Outcome::Number(None),
            5 | 6 => Outcome::Event(word == 6),
            7 | 8 => Outcome::Update(word == 8),
            9 | 10 => Outcome::Alarm(word == 10),
            11 => Outcome::Property(None),
            12 | 13 => Outcome::Property(Some(word == 13)),
            _ if word >> 48 == 1 => Outcome::Number(Some(word as i64 - NUMBER_ZERO as i64)),
            _ => Outcome::Nothing,
        }
    }
}
