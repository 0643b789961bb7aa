//! Frames, traces and calls of the frame writer to try: valid ones and damaged ones.

use crate::plain::Fields;
use crate::random::Random;

/// Bytes filled bit by bit, most significant bit first, with no look at any range.
#[derive(Default)]
struct Packed {
    bytes: Vec<u8>,
    bits: usize,
}

impl Packed {
    fn push(&mut self, value: i64, bits: usize) {
        for place in (0..bits).rev() {
            self.bytes.resize(self.bits / 8 + 1, 0);
            let bit = (value >> place.min(63) & 1) as u8;
            self.bytes[self.bits / 8] |= bit << (7 - self.bits % 8);
            self.bits += 1;
        }
    }

    fn push_fields(&mut self, fields: &Fields) {
        let Fields {
            kind,
            code,
            p,
            f,
            n,
            m,
        } = *fields;
        let order = n.wrapping_sub(1);
        for (value, bits) in [(kind, 2), (code, 2), (p, 4), (f, 6), (order, 4), (m, 6)] {
            self.push(value as i64, bits);
        }
    }
}

/// The frame of these fields and numbers, whether or not anyone would accept it.
pub fn pack_frame(fields: &Fields, numbers: &[i64]) -> Vec<u8> {
    let mut packed = Packed::default();
    packed.push_fields(fields);
    for &number in numbers {
        packed.push(number, fields.f + 2);
    }
    packed.bytes
}

/// The trace of these fields, steps made and digits, whether or not anyone would accept it.
pub fn pack_trace(fields: &Fields, k: usize, digits: &[i64]) -> Vec<u8> {
    let mut packed = Packed::default();
    packed.push_fields(fields);
    packed.push(k as i64, 6);
    for &digit in digits {
        packed.push(digit, 5);
    }
    packed.bytes
}

/// How many numbers a frame of these fields holds; also for fields out of range, when they are small.
fn count(fields: &Fields) -> usize {
    match fields.kind {
        0 => 1 + fields.n,
        1 => 2 * fields.n,
        2 => fields.n * (fields.n + 1),
        _ => (3 * fields.n).saturating_sub(2),
    }
}

/// Fields of every kind, radix, order and size.
pub fn random_fields(random: &mut Random) -> Fields {
    let code = random.below(4);
    let r = 2 << code;
    let most_digits = 60 / (code + 1) - 1;
    Fields {
        kind: random.below(4),
        code,
        p: random.between(r / 2, r - 1),
        f: random.between(4, 40),
        n: random.between(1, 16),
        // Often the most, or so many fewer as a scale takes.
        m: if random.one_in(4) {
            most_digits - random.pick(&[0, 0, 1, 2])
        } else {
            random.between(1, most_digits)
        },
    }
}

/// Numbers whose rows are light enough.
#[derive(Clone, Copy, PartialEq, Eq)]
pub enum Light {
    /// Often zero or light to the last bit, with rows that are full or nearly empty, and right sides of every
    /// size, often at the edge of a scale.
    Edges,
    /// Anything, with rows that are full, and right sides up to 1/2: the scale is 0.
    Full,
}

impl Light {
    pub fn numbers(self, fields: &Fields, random: &mut Random) -> Vec<i64> {
        let n = fields.n;
        let r = 2i64 << fields.code;
        let p = fields.p as i64;
        let unit = 1i64 << fields.f;
        let limit = unit * (32 * p - 17 * (r - 1)) / (32 * r * p);
        let largest = self.largest_side(unit, random);
        // The number 2 itself does not fit, but -2 does.
        let right_side =
            |random: &mut Random| (self.part(largest, random) * random.sign()).min(2 * unit - 1);
        let mut numbers = Vec::new();
        if fields.kind == 2 {
            for row in 0..n {
                let weight = self.part(limit, random);
                for (column, g) in self.split(weight, n, random).into_iter().enumerate() {
                    numbers.push(if row == column { unit - g } else { -g });
                }
                numbers.push(right_side(random));
            }
            return numbers;
        }
        if fields.kind == 3 {
            let weight = self.part(limit, random);
            let coefficients = match n {
                1 => Vec::new(),
                _ => self.split(weight, n - 1, random),
            };
            numbers.push(right_side(random));
            for c in coefficients {
                numbers.push(c);
                numbers.push(right_side(random));
                numbers.push(self.part(limit, random) * random.sign());
            }
            return numbers;
        }
        // At order 1 the argument has no effect and may be anything.
        let x = match n {
            1 => random.below(4 * unit as usize) as i64 - 2 * unit,
            _ => self.part(limit, random) * random.sign(),
        };
        numbers.push(x);
        for _ in 0..n {
            numbers.push(right_side(random));
        }
        if fields.kind == 1 {
            for row in 1..n {
                let last = row == n - 1;
                let room = if last { limit } else { limit - x.abs() };
                numbers.push(self.part(room, random) * random.sign());
            }
        }
        numbers
    }

    /// How large a job's right sides may be: the last that a scale takes, or the first that it does not.
    fn largest_side(self, unit: i64, random: &mut Random) -> i64 {
        if self == Light::Full || random.one_in(2) {
            return unit / 2;
        }
        random.pick(&[unit / 2 + 1, unit, unit + 1, 2 * unit])
    }

    /// A number from 0 to a limit.
    fn part(self, limit: i64, random: &mut Random) -> i64 {
        match random.below(8) {
            0 if self == Light::Edges => 0,
            1 | 2 if self == Light::Edges => limit,
            _ => random.between(0, limit as usize) as i64,
        }
    }

    /// Entries of any sign whose absolute values sum to the weight.
    fn split(self, weight: i64, n: usize, random: &mut Random) -> Vec<i64> {
        let sparse = self == Light::Edges && random.one_in(4);
        let mut shares = Vec::new();
        for _ in 0..n {
            let empty = sparse && !random.one_in(4);
            shares.push(if empty {
                0
            } else {
                random.between(1, 1 << 16) as i64
            });
        }
        let sum = shares.iter().sum::<i64>().max(1);
        let mut entries: Vec<i64> = shares.iter().map(|share| weight * share / sum).collect();
        // What the divisions cut off goes to one of them.
        let left = weight - entries.iter().sum::<i64>();
        entries[random.below(n)] += left;
        entries.iter().map(|entry| entry * random.sign()).collect()
    }
}

/// A number near an edge of f + 2 bits or of a right side, or anywhere.
fn edge_number(fields: &Fields, random: &mut Random) -> i64 {
    let unit = 1i64 << fields.f.min(60);
    let edge = random.pick(&[0, unit / 2, unit, 2 * unit]);
    match random.below(8) {
        0 => i64::MIN,
        1 => i64::MAX,
        2 => random.next() as i64,
        _ => edge * random.sign() + random.within(1),
    }
}

/// Moves one field to an edge or just past it. `wide` fields need not fit their bits in a frame.
fn damage_field(fields: &mut Fields, wide: bool, random: &mut Random) {
    let r = 2 << fields.code.min(8);
    let most_steps = 60 / (fields.code.min(8) + 1);
    let (field, edges) = match random.below(6) {
        0 => (&mut fields.kind, vec![0, 1, 2, 3, 4, 4]),
        1 => (&mut fields.code, vec![0, 1, 2, 3, 4, 5]),
        2 => (&mut fields.p, vec![0, r / 2 - 1, r / 2, r - 1, r, 15, 17]),
        3 => (&mut fields.f, vec![0, 3, 4, 40, 41, 63, 68]),
        4 => (&mut fields.n, vec![1, 16, 0, 17, 18]),
        _ => (
            &mut fields.m,
            vec![0, 1, most_steps - 1, most_steps, most_steps + 1, 63, 65],
        ),
    };
    *field = random.pick(&edges);
    if wide && random.one_in(6) {
        *field = random.pick(&[usize::MAX, 1 << 32, 1 << 63, 256]);
    }
}

/// A frame: half of them as they should be, the others damaged in some way.
pub fn random_frame(random: &mut Random) -> Vec<u8> {
    let mut fields = random_fields(random);
    let mut numbers = Light::Edges.numbers(&fields, random);
    match random.below(24) {
        // One number at an edge.
        0 | 1 => {
            let at = random.below(numbers.len());
            numbers[at] = edge_number(&fields, random);
        }
        // Rows just past their limit, right sides just past a scale's.
        2 | 3 => {
            let at = random.below(numbers.len());
            numbers[at] += random.pick(&[-2, -1, 1, 2]);
        }
        // Numbers like nothing, in the right count.
        4 => {
            for number in &mut numbers {
                *number = random.next() as i64;
            }
        }
        // A field at an edge, and the numbers that were there.
        5 => damage_field(&mut fields, false, random),
        // A field at an edge, and as many numbers as it now demands.
        6 => {
            damage_field(&mut fields, false, random);
            numbers.resize(count(&fields), 0);
        }
        7 => {
            damage_field(&mut fields, false, random);
            damage_field(&mut fields, false, random);
        }
        8 => return random_bytes(1500, random),
        _ => {}
    }
    let mut frame = pack_frame(&fields, &numbers);
    damage_bytes(&mut frame, fields.f + 2, random);
    frame
}

/// A trace made from the one of a job: half of them as they are, the others damaged in some way.
pub fn damage_trace(fields: &Fields, k: usize, digits: &[i64], random: &mut Random) -> Vec<u8> {
    let mut fields = *fields;
    let mut k = k;
    let mut digits = digits.to_vec();
    let (m, most) = (fields.m, 60 / (fields.code + 1));
    let other_k = [0, k + 1, m, m + 1, m + 2, m + 3, m + 4, most, most + 1, 63];
    match random.below(24) {
        // One digit at an edge.
        0 | 1 if !digits.is_empty() => {
            let p = fields.p as i64;
            let at = random.below(digits.len());
            digits[at] = random.pick(&[p, p + 1, -p, -p - 1, 15, -16]);
        }
        // Digits like nothing.
        2 => {
            for digit in &mut digits {
                *digit = random.next() as i64;
            }
        }
        // Another number of steps, and the digits that were there.
        3 => k = random.pick(&other_k),
        // Another number of steps, and as many digits as it demands.
        4 => {
            k = random.pick(&other_k);
            digits.resize(k * fields.n, 0);
        }
        // A field at an edge, and the digits that were there.
        5 => damage_field(&mut fields, false, random),
        // A field at an edge, and as many digits as it demands.
        6 => {
            damage_field(&mut fields, false, random);
            digits.resize(k * fields.n, 0);
        }
        7 => {
            damage_field(&mut fields, false, random);
            damage_field(&mut fields, false, random);
        }
        8 => return random_bytes(700, random),
        _ => {}
    }
    let mut trace = pack_trace(&fields, k, &digits);
    damage_bytes(&mut trace, 5, random);
    trace
}

/// Bytes like nothing: none, a few, or up to a longest count.
fn random_bytes(longest: usize, random: &mut Random) -> Vec<u8> {
    let count = match random.below(4) {
        0 => random.below(3),
        1 | 2 => random.below(24),
        _ => random.between(0, longest),
    };
    random.bytes(count)
}

/// Sometimes spoils the bytes of a frame or a trace whose numbers have so many bits.
fn damage_bytes(bytes: &mut Vec<u8>, number_bits: usize, random: &mut Random) {
    match random.below(32) {
        // A bit flipped anywhere.
        0 | 1 if !bytes.is_empty() => {
            let bit = random.below(bytes.len() * 8);
            bytes[bit / 8] ^= 1 << (bit % 8);
        }
        // A bit flipped in the first four bytes.
        2 if !bytes.is_empty() => {
            let bit = random.below(bytes.len().min(4) * 8);
            bytes[bit / 8] ^= 1 << (bit % 8);
        }
        // A bit flipped in the last byte: a filling bit, or the last number.
        3 | 4 => {
            if let Some(last) = bytes.last_mut() {
                *last ^= 1 << random.below(number_bits.min(8));
            }
        }
        // A byte more.
        5 => bytes.push(random.pick(&[0, 1, 0x80, 0xFF])),
        // A byte fewer.
        6 => {
            bytes.pop();
        }
        // Cut anywhere, most often to very few bytes.
        7 => {
            let longest = if random.one_in(2) { 5 } else { bytes.len() };
            bytes.truncate(random.between(0, longest));
        }
        // Many bytes more.
        8 => {
            let more = random.below(2000);
            bytes.extend(random.bytes(more));
        }
        _ => {}
    }
}

/// Fields and numbers for the frame writer: half of them as they should be, the others damaged in some way.
pub fn random_job(random: &mut Random) -> (Fields, Vec<i64>) {
    let mut fields = random_fields(random);
    let mut numbers = Light::Edges.numbers(&fields, random);
    let damages = random.pick(&[0, 0, 0, 1, 1, 2]);
    for _ in 0..damages {
        match random.below(6) {
            0 | 1 => damage_field(&mut fields, true, random),
            2 => {
                let count = random.pick(&[0, numbers.len().saturating_sub(1), numbers.len() + 1]);
                numbers.resize(count, 0);
            }
            3 | 4 if !numbers.is_empty() => {
                let at = random.below(numbers.len());
                numbers[at] = edge_number(&fields, random);
            }
            _ if !numbers.is_empty() => {
                let at = random.below(numbers.len());
                numbers[at] = numbers[at].wrapping_add(random.pick(&[-2, -1, 1, 2]));
            }
            _ => {}
        }
    }
    (fields, numbers)
}
