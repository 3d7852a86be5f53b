//! Fields of bits: "Fields are packed without gaps, most significant bit first."

/// The place in some bytes up to which fields were taken.
pub struct Bits<'a> {
    bytes: &'a [u8],
    at: usize,
}

impl<'a> Bits<'a> {
    pub fn new(bytes: &'a [u8]) -> Self {
        Bits { bytes, at: 0 }
    }

    /// Whether so many more bits are there.
    pub fn has(&self, width: usize) -> bool {
        self.at + width <= self.bytes.len() * 8
    }

    /// The next field of this width; none where it "isn't wholly there".
    pub fn take(&mut self, width: usize) -> Option<u64> {
        if !self.has(width) {
            return None;
        }
        let mut field = 0;
        for place in self.at..self.at + width {
            let bit = self.bytes[place / 8] >> (7 - place % 8) & 1;
            field = field << 1 | u64::from(bit);
        }
        self.at += width;
        Some(field)
    }

    /// The 0 to 7 bits "up to a whole byte". They are there if anything of their byte was there.
    pub fn padding(&mut self) -> u64 {
        let width = (8 - self.at % 8) % 8;
        self.take(width).unwrap_or(0)
    }

    /// The bytes behind the last whole byte that was taken.
    pub fn rest(&self) -> &'a [u8] {
        &self.bytes[self.at.div_ceil(8)..]
    }
}

/// The number that 48 bits of two's complement stand for.
pub fn number(field: u64) -> i64 {
    if field >> 47 & 1 == 1 {
        field as i64 - (1 << 48)
    } else {
        field as i64
    }
}

/// Fields put one behind the other, for the generator.
#[derive(Clone, Default)]
pub struct Packer {
    bytes: Vec<u8>,
    used: usize,
}

impl Packer {
    pub fn put(&mut self, field: u64, width: usize) {
        for place in (0..width).rev() {
            if self.used % 8 == 0 {
                self.bytes.push(0);
            }
            let bit = (field >> place & 1) as u8;
            self.bytes[self.used / 8] |= bit << (7 - self.used % 8);
            self.used += 1;
        }
    }

    /// The bits up to a whole byte, from the low bits of `field`.
    pub fn pad(&mut self, field: u64) {
        let width = (8 - self.used % 8) % 8;
        self.put(field, width);
    }

    pub fn bytes(self) -> Vec<u8> {
        self.bytes
    }
}
