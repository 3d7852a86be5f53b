//! Reading a step: its time and reports, or the refusal 21 to 27 of its first fault.

use crate::bits::{number, Bits};
use crate::mistake::Mistake;
use crate::script::Refusal;
use crate::table::MOST_IMPORTS;
use crate::truth::Truth;

/// What a step says of one import.
#[derive(Clone, Copy, PartialEq, Eq, Debug)]
pub enum Report {
    Condition(Truth),
    /// An event, with the value that came with it, if one did.
    Event(Option<i64>),
}

/// A step: its time, and for each import its report, if there is one.
#[derive(Clone, Debug)]
pub struct Step {
    pub time: u64,
    pub reports: [Option<Report>; MOST_IMPORTS],
}

impl Step {
    pub fn empty() -> Self {
        Step { time: 0, reports: [None; MOST_IMPORTS] }
    }
}

/// What a step is judged by: the import sorts, and the last accepted step's time.
pub struct Judge<'a> {
    pub imports: &'a [bool],
    pub last: Option<u64>,
    pub mistake: Mistake,
}

impl Judge<'_> {
    /// Reads the bytes into the step. If they are refused, what was read so far is of no account.
    pub fn read(&self, bytes: &[u8], step: &mut Step) -> Result<(), Refusal> {
        let mut bits = Bits::new(bytes);
        step.time = field(&mut bits, 47)?;
        let late = self.mistake == Mistake::TimeJudgedAfterCount;
        if !late && !self.is_later(step.time) {
            return Err(22);
        }
        let count = field(&mut bits, 6)?;
        if late && !self.is_later(step.time) {
            return Err(22);
        }
        let mut before = None;
        for _ in 0..count {
            let import = self.import(&mut bits, before)?;
            step.reports[import] = Some(self.report(&mut bits, import)?);
            before = Some(import);
        }
        self.end(&mut bits)
    }

    /// 22: "time not later than the last accepted step's"
    fn is_later(&self, time: u64) -> bool {
        let Some(last) = self.last else {
            return true;
        };
        if self.mistake == Mistake::EqualTimePasses {
            return time >= last;
        }
        time > last
    }

    /// "23 before 24"
    fn import(&self, bits: &mut Bits, before: Option<usize>) -> Result<usize, Refusal> {
        let import = field(bits, 6)? as usize;
        if import >= self.imports.len() {
            return Err(23);
        }
        let rises = before.is_none_or(|before| import > before);
        if !rises && self.mistake != Mistake::ImportOrderNotJudged {
            return Err(24);
        }
        Ok(import)
    }

    /// "for a condition 2 bits (00 false, 01 true, 10 undefined), for an event 1 bit and, if that is 1,
    /// a 48-bit value"
    fn report(&self, bits: &mut Bits, import: usize) -> Result<Report, Refusal> {
        if self.imports[import] {
            return self.event(bits);
        }
        match field(bits, 2)? {
            0 => Ok(Report::Condition(Truth::False)),
            1 => Ok(Report::Condition(Truth::True)),
            2 => Ok(Report::Condition(Truth::Undefined)),
            _ => Err(25),
        }
    }

    fn event(&self, bits: &mut Bits) -> Result<Report, Refusal> {
        if field(bits, 1)? == 1 {
            let value = field(bits, 48)?;
            if self.mistake == Mistake::ValueWithoutSign {
                return Ok(Report::Event(Some((value & ((1 << 47) - 1)) as i64)));
            }
            return Ok(Report::Event(Some(number(value))));
        }
        if self.mistake == Mistake::NoValueIsZero {
            return Ok(Report::Event(Some(0)));
        }
        Ok(Report::Event(None))
    }

    /// "Zero bits up to a whole byte end it."
    fn end(&self, bits: &mut Bits) -> Result<(), Refusal> {
        let padding = bits.padding();
        if self.mistake == Mistake::StepPaddingJudgedLast && !bits.rest().is_empty() {
            return Err(27);
        }
        if padding != 0 && self.mistake != Mistake::StepPaddingNotJudged {
            return Err(26);
        }
        if !bits.rest().is_empty() {
            return Err(27);
        }
        Ok(())
    }
}

/// "a field that isn't wholly there is … 21"
fn field(bits: &mut Bits, width: usize) -> Result<u64, Refusal> {
    bits.take(width).ok_or(21)
}
