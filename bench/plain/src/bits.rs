//! Bit fields: "packed without gaps, most significant bit first", taken and put through a 64-bit window.

/// The eight bytes at a place, as one word.
#[inline(always)]
fn word_at(bytes: &[u8], place: usize) -> u64 {
    let eight = bytes[place..place + 8].try_into().expect("eight bytes");
    u64::from_be_bytes(eight)
}

/// The first eight bytes as one word, with zeros where the bytes end before.
#[inline(always)]
pub fn first_word(bytes: &[u8]) -> u64 {
    if bytes.len() >= 8 {
        return word_at(bytes, 0);
    }
    let unused = 64 - 8 * bytes.len();
    match (bytes.first_chunk(), bytes.last_chunk()) {
        // Two halves that overlap.
        (Some(first), Some(last)) => {
            u64::from(u32::from_be_bytes(*first)) << 32 | u64::from(u32::from_be_bytes(*last)) << unused
        }
        _ => bytes.iter().fold(0, |word, byte| word << 8 | u64::from(*byte)) << unused,
    }
}

/// The bits from `at` on, at the top of a word: 57 of them or more, with zeros where the bytes end before.
/// There are eight bytes or more, and `at` is within them. Near the end the last eight bytes are taken, and shifted.
#[inline(always)]
pub fn window(bytes: &[u8], at: usize) -> u64 {
    let place = (at / 8).min(bytes.len() - 8);
    word_at(bytes, place) << (at - 8 * place)
}

/// The number from −2^47 to 2^47−1 whose two's complement the low 48 bits are.
#[inline(always)]
pub fn signed(field: u64) -> i64 {
    ((field << 16) as i64) >> 16
}

/// Takes fields from the front to the back.
pub struct Taker<'a> {
    bytes: &'a [u8],
    at: usize,
}

impl<'a> Taker<'a> {
    pub fn new(bytes: &'a [u8]) -> Self {
        Taker { bytes, at: 0 }
    }

    /// The next field, of 1 to 48 bits; none if it is not wholly there.
    pub fn take(&mut self, width: usize) -> Option<u64> {
        if self.at + width > 8 * self.bytes.len() {
            return None;
        }
        let word = match self.bytes.len() {
            0..8 => first_word(self.bytes) << self.at,
            _ => window(self.bytes, self.at),
        };
        self.at += width;
        Some(word >> (64 - width))
    }

    /// The bits up to a whole byte, and the bytes behind them.
    pub fn finish(self) -> (u8, &'a [u8]) {
        (padding(self.bytes, self.at), &self.bytes[self.at.div_ceil(8)..])
    }
}

/// The bits from `at` up to a whole byte; not all zero where the answer is not.
#[inline(always)]
pub fn padding(bytes: &[u8], at: usize) -> u8 {
    match at % 8 {
        0 => 0,
        used => bytes[at / 8] << used,
    }
}

/// Puts fields one after another.
pub struct Putter<'a> {
    bytes: &'a mut [u8],
    /// How many bytes are filled.
    filled: usize,
    /// Bits that do not fill a byte yet, the last one lowest, and how many they are.
    waiting: u64,
    count: usize,
}

impl<'a> Putter<'a> {
    pub fn new(bytes: &'a mut [u8]) -> Self {
        Putter { bytes, filled: 0, waiting: 0, count: 0 }
    }

    /// A field of 1 to 48 bits: the low ones of the value.
    pub fn put(&mut self, width: usize, value: u64) {
        let low = value & ((1 << width) - 1);
        self.waiting = self.waiting << width | low;
        self.count += width;
        while self.count >= 8 {
            self.count -= 8;
            self.bytes[self.filled] = (self.waiting >> self.count) as u8;
            self.filled += 1;
        }
    }

    /// Zero bits up to a whole byte; how many bytes are filled.
    pub fn finish(mut self) -> usize {
        if self.count > 0 {
            self.put(8 - self.count, 0);
        }
        self.filled
    }
}
