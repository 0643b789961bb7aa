//! Job frames, and the system that a frame's numbers stand for.

use super::bits::{BitReader, BitWriter};
use super::fields::{Fields, HEADER_BYTES, POLYNOMIAL, RATIONAL, SYSTEM};
use super::Refusal;

/// G = I - A row by row, and the right sides b, as whole numbers over 2^f.
pub struct System {
    pub g: Vec<i64>,
    pub b: Vec<i64>,
    /// The smallest s, 0 or more, for which 2 × |B| is at most 2^f × r^s in every row.
    pub scale: usize,
}

impl System {
    /// The system of numbers as sent; their count is right and each fits its bits.
    fn new(fields: &Fields, numbers: &[i64]) -> System {
        let n = fields.n;
        let mut g = vec![0; n * n];
        let b = match fields.kind {
            POLYNOMIAL | RATIONAL => {
                let x = numbers[0];
                let (b, q) = numbers[1..].split_at(n);
                for row in 1..n {
                    g[(row - 1) * n + row] = x;
                }
                // A polynomial has no q: the loop ends at once.
                for (row, q) in (1..n).zip(q) {
                    g[row * n] = -q;
                }
                b.to_vec()
            }
            SYSTEM => {
                let mut b = Vec::with_capacity(n);
                let rows = g.chunks_exact_mut(n).zip(numbers.chunks_exact(n + 1));
                for (i, (to, from)) in rows.enumerate() {
                    for (g, a) in to.iter_mut().zip(from) {
                        *g = -a;
                    }
                    to[i] += fields.unit();
                    b.push(from[n]);
                }
                b
            }
            // A sum of quotients: c_0, then c, a and b of each in turn.
            _ => {
                let mut right_sides = vec![numbers[0]];
                for (i, quotient) in (1..n).zip(numbers[1..].chunks_exact(3)) {
                    g[i] = quotient[0];
                    right_sides.push(quotient[1]);
                    g[i * n + i] = quotient[2];
                }
                right_sides
            }
        };
        let scale = smallest_scale(fields, &b);
        System { g, b, scale }
    }

    /// 8 before 15: all rows are weighed before the scale counts.
    fn check(&self, fields: &Fields) -> Result<(), Refusal> {
        let largest = fields.largest_weight();
        let mut rows = self.g.chunks_exact(fields.n);
        if let Some(row) = rows.position(|row| weight(row) > largest) {
            return Err(Refusal::HeavyRow(row + 1));
        }
        if fields.last_step(self.scale) > fields.most_steps() {
            return Err(Refusal::ScaledSteps);
        }
        Ok(())
    }
}

/// The scale of these right sides. None is above 2 in absolute value, so it is 2 or less.
fn smallest_scale(fields: &Fields, b: &[i64]) -> usize {
    let largest = b.iter().map(|b| b.abs()).max().unwrap_or(0);
    let mut scale = 0;
    while 2 * largest > 1 << fields.inner_bits(scale) {
        scale += 1;
    }
    scale
}

/// The weight of a row whose entries come from a frame: 16 of at most 43 bits.
fn weight(row: &[i64]) -> i64 {
    row.iter().map(|g| g.abs()).sum()
}

/// Everything about a frame, or the first reason against it.
pub fn parse(frame: &[u8]) -> Result<(Fields, Vec<i64>, System), Refusal> {
    if frame.len() < HEADER_BYTES {
        return Err(Refusal::TooFewBytes);
    }
    let mut reader = BitReader::new(frame);
    let fields = Fields::read(&mut reader)?;
    if frame.len() != fields.frame_bytes() {
        return Err(Refusal::Length);
    }
    let bits = fields.number_bits();
    let numbers: Vec<i64> = (0..fields.count()).map(|_| reader.signed(bits)).collect();
    if !reader.rest_is_zero() {
        return Err(Refusal::Filling);
    }
    let system = System::new(&fields, &numbers);
    system.check(&fields)?;
    Ok((fields, numbers, system))
}

/// Gives a frame's fields and puts its numbers as sent into the list. Refused by 1 to 8, 15, 23.
pub fn read_frame(frame: &[u8], list: &mut [i64]) -> Result<Fields, Refusal> {
    let (fields, numbers, _) = parse(frame)?;
    let list = list.get_mut(..numbers.len()).ok_or(Refusal::NoRoom)?;
    list.copy_from_slice(&numbers);
    Ok(fields)
}

/// Writes a frame and gives its bytes. Refused by 2, 14, 3, 4, 5, 12, 13, 8, 15, 23.
pub fn write_frame(fields: &Fields, numbers: &[i64], out: &mut [u8]) -> Result<usize, Refusal> {
    fields.check()?;
    if numbers.len() != fields.count() {
        return Err(Refusal::Count);
    }
    let bits = fields.number_bits();
    let largest = (1 << (bits - 1)) - 1;
    if numbers.iter().any(|&x| x < -largest - 1 || x > largest) {
        return Err(Refusal::Number);
    }
    System::new(fields, numbers).check(fields)?;
    let bytes = fields.frame_bytes();
    let out = out.get_mut(..bytes).ok_or(Refusal::NoRoom)?;
    let mut writer = BitWriter::new(out);
    fields.write(&mut writer);
    for &number in numbers {
        writer.put(number as u64, bits);
    }
    writer.finish();
    Ok(bytes)
}
