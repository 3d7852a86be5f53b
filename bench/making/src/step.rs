//! A step, bit by bit.

/// What a step tells of an import.
#[derive(Clone, Copy, Debug)]
pub struct Report {
    pub import: u8,
    pub told: Told,
}

#[derive(Clone, Copy, Debug)]
pub enum Told {
    /// False, true or undefined.
    Condition(Option<bool>),
    /// It occurs, with this value if it has one.
    Event(Option<i64>),
}

/// Bits that become bytes, the most significant first.
#[derive(Default)]
struct Bits {
    bytes: Vec<u8>,
    count: usize,
}

impl Bits {
    fn put(&mut self, width: usize, value: u64) {
        for bit in (0..width).rev() {
            if self.count % 8 == 0 {
                self.bytes.push(0);
            }
            self.bytes[self.count / 8] |= ((value >> bit & 1) as u8) << (7 - self.count % 8);
            self.count += 1;
        }
    }
}

/// A step of this time with these reports, in their order; there are at most 63.
pub fn step(time: u64, reports: &[Report]) -> Vec<u8> {
    let mut bits = Bits::default();
    bits.put(47, time);
    bits.put(6, reports.len() as u64);
    for report in reports {
        bits.put(6, report.import.into());
        match report.told {
            Told::Condition(Some(holds)) => bits.put(2, holds.into()),
            Told::Condition(None) => bits.put(2, 2),
            Told::Event(None) => bits.put(1, 0),
            Told::Event(Some(value)) => {
                bits.put(1, 1);
                bits.put(48, value as u64);
            }
        }
    }
    bits.bytes
}
