//! The bit reader: a payload byte after byte, highest bit first; past its end bits read as zero.

/// A reader with the next bits of its payload in a 64-bit accumulator.
pub struct BitReader<'a> {
    payload: &'a [u8],
    /// The first byte that is not counted in `fill`.
    position: usize,
    /// The next bits, the very next one highest. Below the `fill` highest there may stand the first
    /// bits of the byte at `position`; a refill puts the same bits there again.
    bits: u64,
    /// How many of `bits` can be taken.
    fill: u32,
}

impl<'a> BitReader<'a> {
    /// A reader at the payload's first bit. The first [`refill`](Self::refill) is the caller's.
    pub fn new(payload: &'a [u8]) -> Self {
        BitReader { payload, position: 0, bits: 0, fill: 0 }
    }

    /// Makes sure of at least 56 bits.
    #[inline]
    pub fn refill(&mut self) {
        match self.payload.get(self.position..).and_then(|rest| rest.first_chunk::<8>()) {
            Some(next) => {
                self.bits |= u64::from_be_bytes(*next) >> self.fill;
                let whole = (63 - self.fill) / 8;
                self.position += whole as usize;
                self.fill += 8 * whole;
            }
            None => self.refill_bytewise(),
        }
    }

    /// The same with fewer than eight bytes left, or none.
    #[cold]
    fn refill_bytewise(&mut self) {
        while self.fill < 56 {
            let byte = self.payload.get(self.position).copied().unwrap_or(0);
            self.bits |= u64::from(byte) << (56 - self.fill);
            self.position += 1;
            self.fill += 8;
        }
    }

    /// The next `count` bits as a number; 1 to 32 of them.
    #[inline]
    pub fn peek(&self, count: u32) -> u32 {
        (self.bits >> (64 - count)) as u32
    }

    /// Goes on by `count` bits. Between two refills it may be at most 56 of them.
    #[inline]
    pub fn consume(&mut self, count: u32) {
        self.bits <<= count;
        self.fill -= count;
    }
}
