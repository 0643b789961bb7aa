//! The fields in the first three bytes of a frame and of a trace.

use super::bits::{BitReader, BitWriter};
use super::Refusal;

pub const HEADER_BYTES: usize = 3;
pub const MAX_ORDER: usize = 16;

pub const POLYNOMIAL: usize = 0;
pub const RATIONAL: usize = 1;
pub const SYSTEM: usize = 2;
pub const QUOTIENTS: usize = 3;

#[derive(Clone, Copy, Debug, PartialEq, Eq)]
pub struct Fields {
    pub kind: usize,
    pub code: usize,
    /// The largest digit.
    pub p: usize,
    /// The fraction bits of each number.
    pub f: usize,
    /// The order.
    pub n: usize,
    /// The steps.
    pub m: usize,
}

impl Fields {
    /// Takes the fields apart and looks at their ranges. The bytes are there.
    pub fn read(reader: &mut BitReader) -> Result<Fields, Refusal> {
        let mut field = |bits| reader.unsigned(bits) as usize;
        let fields = Fields {
            kind: field(2),
            code: field(2),
            p: field(4),
            f: field(6),
            n: field(4) + 1,
            m: field(6),
        };
        fields.check()?;
        Ok(fields)
    }

    pub fn write(&self, writer: &mut BitWriter) {
        let mut field = |value: usize, bits| writer.put(value as u64, bits);
        field(self.kind, 2);
        field(self.code, 2);
        field(self.p, 4);
        field(self.f, 6);
        field(self.n - 1, 4);
        field(self.m, 6);
    }

    /// 2, 14, 3, 4, 5. Three bytes hold no kind, no radix code and no order out of range, so one order serves
    /// readers and writers.
    pub fn check(&self) -> Result<(), Refusal> {
        if self.kind > QUOTIENTS || self.code > 3 {
            return Err(Refusal::Kind);
        }
        if self.n < 1 || self.n > MAX_ORDER {
            return Err(Refusal::Order);
        }
        let r = 1 << self.radix_bits();
        if self.p < r / 2 || self.p > r - 1 {
            return Err(Refusal::LargestDigit);
        }
        if self.f < 4 || self.f > 40 {
            return Err(Refusal::FractionBits);
        }
        if self.m < 1 || self.m >= self.most_steps() {
            return Err(Refusal::Steps);
        }
        Ok(())
    }

    /// log2(r).
    pub fn radix_bits(&self) -> usize {
        self.code + 1
    }

    /// The radix r.
    pub fn radix(&self) -> i64 {
        1 << self.radix_bits()
    }

    /// What stands for 1 in a frame's numbers: 2^f.
    pub fn unit(&self) -> i64 {
        1 << self.f
    }

    /// The fraction bits of the residuals in a job of this scale: with them 2^f × r^scale stands for 1.
    pub fn inner_bits(&self, scale: usize) -> usize {
        self.f + scale * self.radix_bits()
    }

    /// The largest scale that numbers of f + 2 bits can ask for.
    pub fn most_scale(&self) -> usize {
        match self.code {
            0 => 2,
            _ => 1,
        }
    }

    /// The most steps whose digits 60 bits hold.
    pub fn most_steps(&self) -> usize {
        60 / self.radix_bits()
    }

    /// The last step of a job of this scale: one more than the m digits asked for, and one more for each of
    /// the scale.
    pub fn last_step(&self, scale: usize) -> usize {
        self.m + 1 + scale
    }

    /// The most steps that a trace may hold. It does not tell the scale of its job, which is at most 2.
    pub fn trace_steps(&self) -> usize {
        self.most_steps().min(self.last_step(2))
    }

    /// The bits of each number.
    pub fn number_bits(&self) -> usize {
        self.f + 2
    }

    /// How many numbers a frame holds.
    pub fn count(&self) -> usize {
        match self.kind {
            POLYNOMIAL => 1 + self.n,
            RATIONAL => 2 * self.n,
            SYSTEM => self.n * (self.n + 1),
            _ => 3 * self.n - 2,
        }
    }

    pub fn frame_bytes(&self) -> usize {
        HEADER_BYTES + (self.count() * self.number_bits()).div_ceil(8)
    }

    pub fn trace_bytes(&self, k: usize) -> usize {
        HEADER_BYTES + (6 + 5 * k * self.n).div_ceil(8)
    }

    /// The largest weight S of a row with 32 × r × p × S at most 2^f × (32p - 17 × (r - 1)).
    pub fn largest_weight(&self) -> i64 {
        let (r, p) = (self.radix(), self.p as i64);
        self.unit() * (32 * p - 17 * (r - 1)) / (32 * r * p)
    }
}
