//! Traces.

use super::bits::{BitReader, BitWriter};
use super::fields::{Fields, HEADER_BYTES};
use super::Refusal;

/// What a trace tells: the fields, the steps made and their digits, step by step and in a step row by row.
#[derive(Clone, Debug, PartialEq, Eq)]
pub struct Record {
    pub fields: Fields,
    pub k: usize,
    pub digits: Vec<i8>,
}

fn digits_within(digits: &[i8], p: usize) -> bool {
    let largest = digits.iter().map(|d| d.unsigned_abs()).max();
    usize::from(largest.unwrap_or(0)) <= p
}

/// Reads a trace. Refused by 1 to 5, 10, 6, 7, 11.
pub fn read_trace(trace: &[u8]) -> Result<Record, Refusal> {
    read_with(trace, |rest, count| {
        (0..count).map(|_| rest.signed(5) as i8).collect()
    })
}

/// The same with eight digits taken at once, as one field of 40 bits: a harder opponent than a plain one, and
/// measured beside it.
pub fn read_trace_by_eights(trace: &[u8]) -> Result<Record, Refusal> {
    read_with(trace, |rest, count| {
        let mut digits = vec![0; count];
        for eight in digits.chunks_mut(8) {
            // The last digit of a field stands lowest.
            let mut field = rest.unsigned(5 * eight.len());
            for digit in eight.iter_mut().rev() {
                *digit = (field << 3) as i8 >> 3;
                field >>= 5;
            }
        }
        digits
    })
}

/// Reads a trace, its digits by a function that takes so many from the bits after k.
fn read_with(
    trace: &[u8],
    take_digits: impl Fn(&mut BitReader, usize) -> Vec<i8>,
) -> Result<Record, Refusal> {
    if trace.len() < HEADER_BYTES + 1 {
        return Err(Refusal::TooFewBytes);
    }
    let fields = Fields::read(&mut BitReader::new(trace))?;
    let mut rest = BitReader::new(&trace[HEADER_BYTES..]);
    let k = rest.unsigned(6) as usize;
    if k > fields.trace_steps() {
        return Err(Refusal::StepsMade);
    }
    if trace.len() != fields.trace_bytes(k) {
        return Err(Refusal::Length);
    }
    let digits = take_digits(&mut rest, k * fields.n);
    if !rest.rest_is_zero() {
        return Err(Refusal::Filling);
    }
    if !digits_within(&digits, fields.p) {
        return Err(Refusal::Digit);
    }
    Ok(Record { fields, k, digits })
}

/// Writes a trace and gives its bytes. Refused by 2, 14, 3, 4, 5, 10, 11, 23.
pub fn write_trace(record: &Record, out: &mut [u8]) -> Result<usize, Refusal> {
    record.fields.check()?;
    if record.k > record.fields.trace_steps() {
        return Err(Refusal::StepsMade);
    }
    let digits = &record.digits[..record.k * record.fields.n];
    if !digits_within(digits, record.fields.p) {
        return Err(Refusal::Digit);
    }
    let bytes = record.fields.trace_bytes(record.k);
    let out = out.get_mut(..bytes).ok_or(Refusal::NoRoom)?;
    let mut writer = BitWriter::new(out);
    record.fields.write(&mut writer);
    writer.put(record.k as u64, 6);
    for &digit in digits {
        writer.put(digit as u64, 5);
    }
    writer.finish();
    Ok(bytes)
}

#[cfg(test)]
mod tests {
    use super::*;

    #[test]
    fn order_of_the_writer() {
        let good = Record {
            fields: Fields {
                kind: 0,
                code: 0,
                p: 1,
                f: 4,
                n: 2,
                m: 4,
            },
            k: 1,
            digits: vec![1, -1],
        };
        // Each step spoils something that is looked at earlier.
        let mut record = good.clone();
        let mut lent = [7; 4];
        assert_eq!(write_trace(&record, &mut lent), Err(Refusal::NoRoom));
        record.digits[1] = -2;
        assert_eq!(write_trace(&record, &mut lent), Err(Refusal::Digit));
        record.k = 8;
        assert_eq!(write_trace(&record, &mut lent), Err(Refusal::StepsMade));
        record.fields.m = 0;
        assert_eq!(write_trace(&record, &mut lent), Err(Refusal::Steps));
        record.fields.f = 41;
        assert_eq!(write_trace(&record, &mut lent), Err(Refusal::FractionBits));
        record.fields.p = 0;
        assert_eq!(write_trace(&record, &mut lent), Err(Refusal::LargestDigit));
        record.fields.n = 17;
        assert_eq!(write_trace(&record, &mut lent), Err(Refusal::Order));
        record.fields.code = 4;
        assert_eq!(write_trace(&record, &mut lent), Err(Refusal::Kind));
        assert_eq!(lent, [7; 4]);

        let mut lent = [7; 6];
        assert_eq!(write_trace(&good, &mut lent), Ok(5));
        assert_eq!(lent[5], 7);
        assert_eq!(read_trace(&lent[..5]), Ok(good.clone()));
        assert_eq!(read_trace_by_eights(&lent[..5]), Ok(good));
    }

    #[test]
    fn steps_of_a_trace() {
        let most = |code: usize, m| {
            let fields = Fields {
                kind: 0,
                code,
                p: 1 << code,
                f: 4,
                n: 1,
                m,
            };
            fields.trace_steps()
        };
        // m + 3, and no more than 60 / log2(r).
        assert_eq!([4, 57, 58, 59].map(|m| most(0, m)), [7, 60, 60, 60]);
        assert_eq!([1, 26, 27, 28].map(|m| most(1, m)), [4, 29, 30, 30]);
        assert_eq!([11, 12, 13, 14].map(|m| most(3, m)), [14, 15, 15, 15]);
    }
}
