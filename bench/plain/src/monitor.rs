//! The monitor: takes one step after another, and keeps one state of fixed size.
//!
//! Everything is kept as the words in which results are handed out: a condition is 1 undefined, 2 false, 3 true;
//! a number 4 undefined, else itself plus `ZERO`; an event 5 not occurring, 6 occurring; an update 7, 8; an alarm
//! 9, 10; a property 11 not known, 12 violated, 13 holding.

use crate::bits::{first_word, signed, window};
use crate::table::*;

const UNDEFINED: u64 = 1;
const FALSE: u64 = 2;
const TRUE: u64 = 3;
const NO_NUMBER: u64 = 4;
const ABSENT: u64 = 5;
const OCCURS: u64 = 6;
/// The word of the number 0: words of numbers are 2^48 to 2^49−1.
const ZERO: u64 = 3 << 47;

/// The word for a condition report: 00 false, 01 true, 10 undefined.
const REPORTED: [u8; 4] = [FALSE as u8, TRUE as u8, UNDEFINED as u8, 0];

/// Or, and, implies: the word at 4 times the first operand plus the second.
const OR: [u8; 16] = [0, 0, 0, 0, 0, 1, 1, 3, 0, 1, 2, 3, 0, 3, 3, 3];
const AND: [u8; 16] = [0, 0, 0, 0, 0, 1, 2, 1, 0, 2, 2, 2, 0, 1, 2, 3];
const IMPLIES: [u8; 16] = [0, 0, 0, 0, 0, 1, 1, 3, 0, 3, 3, 3, 0, 1, 2, 3];

/// What a refused step hands out.
static NOTHING: [u64; MOST_ENTRIES] = [0; MOST_ENTRIES];

/// A table, and what is kept of the accepted steps. The words stand first, so that an operand's is one address away.
#[derive(Clone)]
#[repr(C)]
pub struct Monitor {
    /// The results of the last accepted step; from 128 on, the variables. A byte is always a place in it.
    words: [u64; 256],
    table: Table,
    /// One more than the time of the last accepted step; 0 before any.
    earliest: u64,
    /// Whether the last step was accepted.
    accepted: bool,
    /// The last reported value of each condition import.
    conditions: [u8; 64],
    /// The value reported with each event import; of account only where the event occurs in this step.
    values: [u64; 64],
    /// For each start and end: its condition at the last accepted step.
    before: [u64; MOST_ENTRIES],
}

/// What a step tells besides the conditions and values.
struct Told {
    time: u64,
    /// Bit i is set where event import i occurs.
    occurring: u64,
}

/// A monitor that holds a table from `read`, and no accepted step yet.
pub fn start(table: Table) -> Monitor {
    let mut words = [0; 256];
    for (k, entry) in table.used().iter().enumerate() {
        words[k] = match entry.kind {
            Kind::Constant => number_word(table.constants[k]),
            Kind::Pair => FALSE,
            Kind::TimeOf => NO_NUMBER,
            _ => 0,
        };
    }
    for (x, number) in table.variables.iter().enumerate() {
        words[variable(x as u8)] = number.map_or(NO_NUMBER, number_word);
    }
    Monitor {
        table,
        earliest: 0,
        accepted: false,
        conditions: [UNDEFINED as u8; 64],
        values: [NO_NUMBER; 64],
        words,
        before: [UNDEFINED; MOST_ENTRIES],
    }
}

#[inline(always)]
fn number_word(number: i64) -> u64 {
    (number as u64).wrapping_add(ZERO)
}

/// Where a variable stands among the words.
#[inline(always)]
fn variable(x: u8) -> usize {
    usize::from(128 | x)
}

impl Monitor {
    /// Takes a step: 0, or the number of its first fault, 21 to 27, and then nothing that counts is changed.
    /// It and `evaluate` are calls of their own, so that each has the registers to itself.
    #[inline(never)]
    pub fn step(&mut self, step: &[u8]) -> u8 {
        let kept = self.conditions;
        match self.take(step) {
            Ok(told) => {
                self.evaluate(told.time + ZERO, told.occurring);
                self.earliest = told.time + 1;
                self.accepted = true;
                0
            }
            Err(number) => {
                self.conditions = kept;
                self.accepted = false;
                number
            }
        }
    }

    /// The results of the last step, a word for each entry slot.
    #[inline]
    pub fn results(&self) -> &[u64; MOST_ENTRIES] {
        if self.accepted {
            self.words.first_chunk().expect("the entries come first")
        } else {
            &NOTHING
        }
    }

    /// The time of the last accepted step; 0 before any.
    #[inline]
    pub fn time(&self) -> u64 {
        self.earliest.saturating_sub(1)
    }

    /// Reads a step, and stores what it says of conditions and values.
    #[inline(always)]
    fn take(&mut self, step: &[u8]) -> Result<Told, u8> {
        if step.len() < 8 {
            return self.take_short(step);
        }
        let head = first_word(step);
        let time = head >> 17;
        if time < self.earliest {
            return Err(22);
        }
        let count = head >> 11 & 63;
        let end = 8 * step.len();
        let mut at = 53;
        let mut occurring = 0;
        let mut least = 0;
        for _ in 0..count {
            let left = end - at;
            if left < 6 {
                return Err(21);
            }
            let report = window(step, at);
            let import = (report >> 58) as usize;
            if import >= usize::from(self.table.q) {
                return Err(23);
            }
            if import < least {
                return Err(24);
            }
            least = import + 1;
            if self.table.events >> import & 1 == 0 {
                if left < 8 {
                    return Err(21);
                }
                let value = report >> 56 & 3;
                if value == 3 {
                    return Err(25);
                }
                self.conditions[import] = REPORTED[value as usize];
                at += 8;
                continue;
            }
            if left < 7 {
                return Err(21);
            }
            occurring |= 1 << import;
            if report >> 57 & 1 == 0 {
                self.values[import] = NO_NUMBER;
                at += 7;
                continue;
            }
            if left < 55 {
                return Err(21);
            }
            self.values[import] = number_word(signed(report >> 9));
            at += 55;
        }
        let left = end - at;
        if left < 8 && step[step.len() - 1] & ((1 << left) - 1) == 0 {
            return Ok(Told { time, occurring });
        }
        // Zero bits up to a whole byte, and then more bytes.
        let padding = left % 8;
        Err(if step[at / 8] & ((1 << padding) - 1) != 0 { 26 } else { 27 })
    }

    /// A step of less than eight bytes: behind the time and the count there is no room for a report.
    fn take_short(&self, step: &[u8]) -> Result<Told, u8> {
        if step.len() < 6 {
            return Err(21);
        }
        let head = first_word(step);
        let time = head >> 17;
        if time < self.earliest {
            return Err(22);
        }
        let count = head >> 11 & 63;
        if step.len() < 7 || count > 0 {
            return Err(21);
        }
        if head >> 8 & 7 != 0 {
            return Err(26);
        }
        Ok(Told { time, occurring: 0 })
    }

    /// Works out every entry in script order.
    #[inline(never)]
    fn evaluate(&mut self, clock: u64, occurring: u64) {
        let Monitor { table, conditions, values, words, before, .. } = self;
        for (k, entry) in table.used().iter().enumerate() {
            let [a, b, c] = entry.operands;
            let word = match entry.kind {
                Kind::ConditionImport => conditions[usize::from(a & 63)].into(),
                Kind::Defined => known(at(words, a) != UNDEFINED),
                Kind::Pair => match (at(words, a), at(words, b)) {
                    (_, OCCURS) => FALSE,
                    (OCCURS, _) => TRUE,
                    _ => words[k],
                },
                Kind::Not => not(at(words, a)),
                Kind::Or => joined(&OR, at(words, a), at(words, b)),
                Kind::And => joined(&AND, at(words, a), at(words, b)),
                Kind::Implies => joined(&IMPLIES, at(words, a), at(words, b)),
                Kind::Less => compared(at(words, a), at(words, b), |a, b| a < b),
                Kind::Equal => compared(at(words, a), at(words, b), |a, b| a == b),
                Kind::EventImport => occurs(occurring >> (a & 63) & 1 == 1),
                Kind::Start => turned(&mut before[k], at(words, a), TRUE),
                Kind::End => turned(&mut before[k], at(words, a), FALSE),
                Kind::Both => at(words, a).min(at(words, b)),
                Kind::Either => at(words, a).max(at(words, b)),
                Kind::When => occurs(at(words, a) == OCCURS && at(words, b) == TRUE),
                // It stands there since the start.
                Kind::Constant => continue,
                Kind::Variable => words[variable(a)],
                Kind::Sum => sum(at(words, a), at(words, b)),
                Kind::Difference => difference(at(words, a), at(words, b)),
                Kind::Clock => clock,
                Kind::Value if occurring >> (a & 63) & 1 == 1 => values[usize::from(a & 63)],
                Kind::Value => NO_NUMBER,
                Kind::TimeOf if at(words, a) == OCCURS => clock,
                Kind::TimeOf => continue,
                Kind::Update => {
                    let event = at(words, a);
                    if event == OCCURS {
                        words[variable(b)] = at(words, c);
                    }
                    event + 2
                }
                Kind::Alarm => at(words, a) + 4,
                Kind::Property => at(words, a) + 10,
            };
            words[k] = word;
        }
    }
}

/// The result of an entry, so far.
#[inline(always)]
fn at(words: &[u64; 256], entry: u8) -> u64 {
    words[usize::from(entry)]
}

#[inline(always)]
fn known(is_true: bool) -> u64 {
    FALSE + u64::from(is_true)
}

#[inline(always)]
fn occurs(does: bool) -> u64 {
    ABSENT + u64::from(does)
}

/// 1, 2, 3 become 1, 3, 2.
#[inline(always)]
fn not(a: u64) -> u64 {
    a ^ a >> 1
}

#[inline(always)]
fn joined(by: &[u8; 16], a: u64, b: u64) -> u64 {
    by[(4 * a + b) as usize & 15].into()
}

/// A word of a number has bit 48; that of an undefined one has not.
#[inline(always)]
fn compared(a: u64, b: u64, holds: impl Fn(u64, u64) -> bool) -> u64 {
    if (a & b) >> 48 == 0 {
        UNDEFINED
    } else {
        known(holds(a, b))
    }
}

/// Whether a condition has come to this value, which it had not one step before.
#[inline(always)]
fn turned(before: &mut u64, now: u64, value: u64) -> u64 {
    let is_new = now == value && *before != value;
    *before = now;
    occurs(is_new)
}

/// Where an operand is undefined, the sum is no word of a number either.
#[inline(always)]
fn sum(a: u64, b: u64) -> u64 {
    in_range(a.wrapping_add(b).wrapping_sub(ZERO))
}

/// Where one operand is undefined, the difference is no word of a number; where both are, it would be 0.
#[inline(always)]
fn difference(a: u64, b: u64) -> u64 {
    if a == NO_NUMBER {
        return NO_NUMBER;
    }
    in_range(a.wrapping_sub(b).wrapping_add(ZERO))
}

#[inline(always)]
fn in_range(word: u64) -> u64 {
    if word >> 48 == 1 {
        word
    } else {
        NO_NUMBER
    }
}
