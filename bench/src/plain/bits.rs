//! Fields of bits in bytes, most significant bit first.

/// Takes one field after another from bytes that are long enough.
pub struct BitReader<'a> {
    bytes: &'a [u8],
    at: usize,
}

impl<'a> BitReader<'a> {
    pub fn new(bytes: &'a [u8]) -> Self {
        BitReader { bytes, at: 0 }
    }

    /// The next field of 1 to 57 bits: with up to 7 bits before it in its first byte it lies within eight
    /// bytes.
    pub fn unsigned(&mut self, bits: usize) -> u64 {
        let rest = &self.bytes[self.at / 8..];
        let window = match rest.first_chunk() {
            Some(eight) => u64::from_be_bytes(*eight),
            None => {
                let mut eight = [0; 8];
                eight[..rest.len()].copy_from_slice(rest);
                u64::from_be_bytes(eight)
            }
        };
        let field = window << (self.at % 8) >> (64 - bits);
        self.at += bits;
        field
    }

    /// The next field in two's complement.
    pub fn signed(&mut self, bits: usize) -> i64 {
        let unused = 64 - bits;
        (self.unsigned(bits) << unused) as i64 >> unused
    }

    /// Whether all bits that are left are 0; fewer than 8 are left.
    pub fn rest_is_zero(&mut self) -> bool {
        let left = self.bytes.len() * 8 - self.at;
        left == 0 || self.unsigned(left) == 0
    }
}

/// Puts one field after another into bytes that are long enough.
pub struct BitWriter<'a> {
    out: &'a mut [u8],
    written: usize,
    /// The last bits put, from the most significant on, that are not in `out` yet.
    pending: u64,
    waiting: usize,
}

impl<'a> BitWriter<'a> {
    pub fn new(out: &'a mut [u8]) -> Self {
        BitWriter {
            out,
            written: 0,
            pending: 0,
            waiting: 0,
        }
    }

    /// Puts the lowest bits of a value, 1 to 63 of them.
    pub fn put(&mut self, value: u64, bits: usize) {
        let field = value << (64 - bits);
        self.pending |= field >> self.waiting;
        self.waiting += bits;
        if self.waiting >= 64 {
            self.out[self.written..][..8].copy_from_slice(&self.pending.to_be_bytes());
            self.written += 8;
            self.waiting -= 64;
            self.pending = field << (bits - self.waiting);
        }
    }

    /// Puts out what waits; the last byte is filled with zero bits.
    pub fn finish(self) {
        let bytes = self.waiting.div_ceil(8);
        self.out[self.written..][..bytes].copy_from_slice(&self.pending.to_be_bytes()[..bytes]);
    }
}
