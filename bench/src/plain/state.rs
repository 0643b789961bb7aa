//! The state: load, advance, readings, running sums.

use std::mem::swap;

use super::fields::{Fields, MAX_ORDER};
use super::frame::{parse, System};
use super::trace::Record;
use super::Refusal;

#[derive(Clone, Debug, Default, PartialEq, Eq)]
pub enum State {
    #[default]
    Idle,
    Job(Job),
}

/// A job with its steps made. It runs on the right sides divided by r^scale.
#[derive(Clone, Debug, PartialEq, Eq)]
pub struct Job {
    pub fields: Fields,
    pub scale: usize,
    /// G row by row, n × n whole numbers over 2^f.
    pub g: Vec<i64>,
    /// What is left in each row, whole numbers over 2^f × r^scale.
    pub z: Vec<i64>,
    /// The digits of the steps made, step by step and in a step row by row: k × n of them.
    pub digits: Vec<i8>,
}

/// What an advance made: steps, and the additions that they cost.
#[derive(Clone, Copy, Debug, Default, PartialEq, Eq)]
pub struct Made {
    pub steps: usize,
    pub additions: usize,
}

impl State {
    /// A new state with 0 steps made. Refused by 1 to 8, 15; the state is then `State::default()`.
    pub fn load(frame: &[u8]) -> Result<State, Refusal> {
        let (fields, _, System { g, b, scale }) = parse(frame)?;
        Ok(State::Job(Job {
            digits: Vec::with_capacity(fields.last_step(scale) * fields.n),
            fields,
            scale,
            g,
            // b over 2^f, divided by r^scale, is the same numbers over 2^f × r^scale.
            z: b,
        }))
    }

    /// Makes as many steps as the budget allows and as are left, and counts them and their additions. Refused by
    /// 20, 24, 22, 21.
    pub fn advance(&mut self, budget: u64) -> Result<Made, Refusal> {
        self.job()?;
        let State::Job(job) = self else {
            return Err(Refusal::Idle);
        };
        if budget == 0 {
            return Err(Refusal::NoBudget);
        }
        let left = job.last_step() - job.steps_made();
        if left == 0 {
            return Err(Refusal::AllStepsMade);
        }
        let steps = budget.min(left as u64) as usize;
        let additions = job.make_steps(steps);
        Ok(Made { steps, additions })
    }

    /// Puts a reading for each row into the list and gives the scale: a reading divided by r^k and multiplied
    /// by r^scale stands for its row's value. Refused by 20, 24, 23.
    pub fn readings(&self, list: &mut [i64]) -> Result<usize, Refusal> {
        let job = self.job()?;
        let n = job.fields.n;
        let list = list.get_mut(..n).ok_or(Refusal::NoRoom)?;
        list.fill(0);
        for step in job.digits.chunks_exact(n) {
            for (reading, &digit) in list.iter_mut().zip(step) {
                *reading = (*reading << job.fields.radix_bits()) + i64::from(digit);
            }
        }
        Ok(job.scale)
    }

    /// Puts into the list, for each column whose last digit is not 0, its number from 1 and each row's sum over
    /// the columns up to it, of G's entry times the last digit. Counts the words. Refused by 20, 24, 23.
    pub fn running_sums(&self, list: &mut [i64]) -> Result<usize, Refusal> {
        let job = self.job()?;
        let n = job.fields.n;
        let last = job.digits.chunks_exact(n).last().unwrap_or(&[]);
        let mut sums = vec![0; n];
        let mut words = Vec::new();
        for (column, &digit) in last.iter().enumerate().filter(|(_, &digit)| digit != 0) {
            for (sum, row) in sums.iter_mut().zip(job.g.chunks_exact(n)) {
                *sum += row[column] * i64::from(digit);
            }
            words.push(column as i64 + 1);
            words.extend_from_slice(&sums);
        }
        let list = list.get_mut(..words.len()).ok_or(Refusal::NoRoom)?;
        list.copy_from_slice(&words);
        Ok(words.len())
    }

    /// What a trace tells of the state. Refused by 20, 24.
    pub fn record(&self) -> Result<Record, Refusal> {
        let job = self.job()?;
        Ok(Record {
            fields: job.fields,
            k: job.steps_made(),
            digits: job.digits.clone(),
        })
    }

    /// The job, if there is one and its numbers keep the limits: 20, 24.
    pub fn job(&self) -> Result<&Job, Refusal> {
        match self {
            State::Idle => Err(Refusal::Idle),
            State::Job(job) if job.keeps_limits() => Ok(job),
            State::Job(_) => Err(Refusal::BadState),
        }
    }
}

impl Job {
    /// The steps made, k.
    fn steps_made(&self) -> usize {
        self.digits.len() / self.fields.n
    }

    fn last_step(&self) -> usize {
        self.fields.last_step(self.scale)
    }

    /// The fraction bits of the residuals.
    fn bits(&self) -> usize {
        self.fields.inner_bits(self.scale)
    }

    /// The limits of refusal 24. A digit past the k-th step has no place here.
    fn keeps_limits(&self) -> bool {
        let Fields { n, p, .. } = self.fields;
        if self.fields.check().is_err()
            || self.scale > self.fields.most_scale()
            || self.last_step() > self.fields.most_steps()
        {
            return false;
        }
        let sizes = self.g.len() == n * n
            && self.z.len() == n
            && self.digits.len() == self.steps_made() * n
            && self.steps_made() <= self.last_step();
        let largest = self.fields.largest_weight() as u128;
        let light = |row: &[i64]| {
            // Any numbers may stand here, so the sum is a wide one.
            let weight: u128 = row.iter().map(|g| u128::from(g.unsigned_abs())).sum();
            weight <= largest
        };
        // 17/32 of the unit.
        let bound = (17 << self.bits()) / 32;
        let digit = self.digits.iter().map(|d| d.unsigned_abs()).max();
        sizes
            && self.g.chunks_exact(n).all(light)
            && self.z.iter().all(|z| z.unsigned_abs() <= bound)
            && usize::from(digit.unwrap_or(0)) <= p
    }

    /// Gives the additions: for each step the pairs of a row and a column where the entry and the column's digit
    /// of the step before are both other than 0.
    fn make_steps(&mut self, steps: usize) -> usize {
        let n = self.fields.n;
        let r = self.fields.radix();
        // What a sum over 2^f is multiplied by to be one over 2^f × r^scale.
        let factor = r.pow(self.scale as u32);
        let bits = self.bits();
        // The digits of the step before and those being chosen.
        let mut before = &mut [0i8; MAX_ORDER];
        let mut chosen = &mut [0i8; MAX_ORDER];
        if let Some(last) = self.digits.chunks_exact(n).last() {
            before[..n].copy_from_slice(last);
        }
        // How many entries of each column are other than 0: what a digit other than 0 costs in the next step.
        let mut entries = [0; MAX_ORDER];
        for row in self.g.chunks_exact(n) {
            for (count, &g) in entries.iter_mut().zip(row) {
                *count += usize::from(g != 0);
            }
        }
        let mut additions = 0;
        for _ in 0..steps {
            let added = entries.iter().zip(&*before);
            additions += added.map(|(e, &d)| e * usize::from(d != 0)).sum::<usize>();
            let rows = self.g.chunks_exact(n).zip(&mut self.z).zip(&mut *chosen);
            for ((row, z), digit) in rows {
                let products = row.iter().zip(&*before).map(|(g, &d)| g * i64::from(d));
                let w = r * (*z + factor * products.sum::<i64>());
                let nearest = choose(w, self.fields.p as i64, bits);
                *z = w - (nearest << bits);
                *digit = nearest as i8;
            }
            self.digits.extend_from_slice(&chosen[..n]);
            swap(&mut before, &mut chosen);
        }
        additions
    }
}

/// The digit for w, which has so many fraction bits, from an estimate of it: w cut down to five fraction
/// bits, or w itself where it has fewer. Up to p it is the whole number nearest to the estimate, a tie going
/// away from zero, and above p the estimate cut.
fn choose(w: i64, p: i64, bits: usize) -> i64 {
    let estimate = (w << 5) >> bits;
    let size = estimate.abs();
    let rounding = if size <= p << 5 { 1 << 4 } else { 0 };
    estimate.signum() * ((size + rounding) >> 5)
}

#[cfg(test)]
mod tests {
    use super::*;

    /// Case A of document 01 with x 3, case C with a 13 and case E with x 3. Row 1 of each weighs 3, the most
    /// that is light.
    const A: [u8; 6] = [0x01, 0x10, 0x44, 0x0C, 0x32, 0x00];
    const C: [u8; 5] = [0x81, 0x10, 0x04, 0x34, 0x80];
    const E: [u8; 6] = [0x01, 0x10, 0x44, 0x0C, 0x92, 0x00];

    fn loaded(frame: &[u8]) -> Job {
        match State::load(frame) {
            Ok(State::Job(job)) => job,
            other => panic!("{other:?}"),
        }
    }

    fn steps(state: &mut State, budget: u64) -> Result<usize, Refusal> {
        state.advance(budget).map(|made| made.steps)
    }

    #[test]
    fn idle_comes_first() {
        let mut idle = State::default();
        assert_eq!(idle.advance(0), Err(Refusal::Idle));
        assert_eq!(idle.readings(&mut []), Err(Refusal::Idle));
        assert_eq!(idle.running_sums(&mut []), Err(Refusal::Idle));
        assert_eq!(idle.record(), Err(Refusal::Idle));
    }

    #[test]
    fn budgets_in_a_row() {
        let mut state = State::load(&A).unwrap();
        let mut list = [7; 3];
        assert_eq!(state.readings(&mut list), Ok(0));
        assert_eq!(list, [0, 0, 7]);
        assert_eq!(state.advance(0), Err(Refusal::NoBudget));
        assert_eq!(steps(&mut state, 3), Ok(3));
        assert_eq!(steps(&mut state, 3), Ok(2));
        assert_eq!(state.advance(3), Err(Refusal::AllStepsMade));
        assert_eq!(state.advance(0), Err(Refusal::NoBudget));
        assert_eq!(state.readings(&mut list[..1]), Err(Refusal::NoRoom));
        assert_eq!(list, [0, 0, 7]);
        assert_eq!(state.readings(&mut list), Ok(0));
        assert_eq!(list, [9, 16, 7]);
    }

    #[test]
    fn sums_of_a_state() {
        let mut state = State::load(&A).unwrap();
        let mut list = [7; 4];
        // After 0 steps nothing is written, whatever the room.
        assert_eq!(state.running_sums(&mut []), Ok(0));
        // The digits are 0 and 1: column 2, with 3 in row 1.
        assert_eq!(steps(&mut state, 1), Ok(1));
        assert_eq!(state.running_sums(&mut list[..2]), Err(Refusal::NoRoom));
        assert_eq!(list, [7, 7, 7, 7]);
        assert_eq!(state.running_sums(&mut list), Ok(3));
        assert_eq!(list, [2, 3, 0, 7]);
        // They are 1 and 0: column 1, which has no entry.
        assert_eq!(steps(&mut state, 1), Ok(1));
        assert_eq!(state.running_sums(&mut list), Ok(3));
        assert_eq!(list, [1, 0, 0, 7]);
        // At scale 1 the unit is the frame's too. The digits are 1 and 1.
        let mut state = State::load(&E).unwrap();
        let mut list = [7; 7];
        assert_eq!(steps(&mut state, 1), Ok(1));
        assert_eq!(state.running_sums(&mut list), Ok(6));
        assert_eq!(list, [1, 0, 0, 2, 3, 0, 7]);
    }

    #[test]
    fn additions_by_pairs() {
        for frame in [&A[..], &C[..], &E[..]] {
            let mut state = State::load(frame).unwrap();
            // One step after the other, and by hand from the digits before it.
            let mut sum = 0;
            while let Ok(made) = state.advance(1) {
                let job = state.job().unwrap();
                let n = job.fields.n;
                let steps: Vec<&[i8]> = job.digits.chunks_exact(n).collect();
                let pairs = match steps.len() {
                    1 => 0,
                    k => (0..n * n)
                        .filter(|&at| job.g[at] != 0 && steps[k - 2][at % n] != 0)
                        .count(),
                };
                assert_eq!((made.steps, made.additions), (1, pairs));
                sum += pairs;
            }
            let all = State::load(frame).unwrap().advance(u64::MAX).unwrap();
            assert_eq!(all.additions, sum);
        }
    }

    #[test]
    fn a_high_start() {
        let mut state = State::load(&E).unwrap();
        let mut list = [7; 3];
        assert_eq!(state.job().unwrap().z, [9, 8]);
        assert_eq!(steps(&mut state, 4), Ok(4));
        assert_eq!(steps(&mut state, 4), Ok(2));
        assert_eq!(state.advance(4), Err(Refusal::AllStepsMade));
        // 21 / 2^6 × 2^1 is 21/32, the value itself.
        assert_eq!(state.readings(&mut list), Ok(1));
        assert_eq!(list, [21, 16, 7]);
        let record = state.record().unwrap();
        assert_eq!((record.fields.m, record.k), (4, 6));
    }

    #[test]
    fn steps_go_on_after_no_rest_is_left() {
        let mut state = State::load(&C).unwrap();
        assert_eq!(steps(&mut state, 1), Ok(1));
        assert_eq!(state.job().unwrap().z, [0]);
        assert_eq!(steps(&mut state, u64::MAX), Ok(4));
        assert_eq!(state.job().unwrap().digits, [1, 0, 1, 0, 0]);
    }

    #[test]
    fn choice_by_the_estimate() {
        let digits = |p, bits, w: [i64; 4]| w.map(|w| choose(w, p, bits));
        // With four bits the estimate is w itself.
        assert_eq!(digits(1, 4, [7, 8, -7, -8]), [0, 1, 0, -1]);
        // With six, -31/64 is cut down to -1/2, and 31/64 to 15/32.
        assert_eq!(digits(1, 6, [31, 32, -30, -31]), [0, 1, 0, -1]);
        // Above p, up to 17/32.
        assert_eq!(digits(1, 6, [64, 98, -65, -98]), [1, 1, -1, -1]);
    }

    #[test]
    fn broken_limits() {
        type Break = fn(&mut Job);
        let breaks: [Break; 17] = [
            |job| job.fields.kind = 4,
            |job| job.fields.code = 4,
            |job| job.fields.p = 2,
            |job| job.fields.f = 3,
            |job| job.fields.n = 0,
            |job| job.fields.m = 60,
            |job| job.scale = 3,
            |job| job.scale = usize::MAX,
            |job| (job.fields.m, job.scale) = (59, 1),
            |job| job.digits = vec![0; 12],
            |job| job.g[1] = 4,
            |job| job.g[1] = i64::MIN,
            |job| job.g.fill(i64::MAX),
            |job| job.z[1] = -9,
            |job| (job.z[1], job.scale) = (-18, 1),
            |job| (job.z[1], job.scale) = (35, 2),
            |job| job.digits = vec![0, -2],
        ];
        for (at, spoil) in breaks.iter().enumerate() {
            let mut job = loaded(&A);
            spoil(&mut job);
            let mut state = State::Job(job);
            let before = state.clone();
            assert_eq!(state.advance(0), Err(Refusal::BadState), "break {at}");
            assert_eq!(state.readings(&mut []), Err(Refusal::BadState));
            assert_eq!(state.running_sums(&mut []), Err(Refusal::BadState));
            assert_eq!(state.record(), Err(Refusal::BadState));
            assert_eq!(state, before);
        }
    }

    #[test]
    fn limits_of_the_scale() {
        let passes = |spoil: fn(&mut Job)| {
            let mut job = loaded(&A);
            spoil(&mut job);
            State::Job(job).job().is_ok()
        };
        // 17/32 of the unit, which is 16, 32 and 64.
        assert!(passes(|job| job.z[1] = -8));
        assert!(passes(|job| (job.z[1], job.scale) = (-17, 1)));
        assert!(passes(|job| (job.z[1], job.scale) = (34, 2)));
        assert!(passes(|job| (job.fields.m, job.scale) = (57, 2)));
        assert!(passes(|job| (job.digits, job.scale) = (vec![0; 14], 2)));
        assert!(!passes(|job| (job.digits, job.scale) = (vec![0; 16], 2)));
        // In radix 4, with p 2 and rows of weight 0.
        fn in_radix_4(job: &mut Job, scale: usize) {
            (job.fields.code, job.fields.p, job.scale) = (1, 2, scale);
            job.g.fill(0);
        }
        assert!(passes(|job| in_radix_4(job, 1)));
        assert!(!passes(|job| in_radix_4(job, 2)));
    }
}
