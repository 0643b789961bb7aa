//! The calls of emethod.h and of the crate bench_c on the plain side, each put together from the documents'.

use std::hint::black_box;

use super::{read_trace, read_trace_by_eights, write_trace, Fields, Made, Record, Refusal, State};

/// A count, the additions that it cost, and the scale that the frame has.
pub struct Scaled {
    pub count: usize,
    pub additions: usize,
    pub scale: usize,
}

/// Loads a frame and lets it go. Counts the numbers that it holds.
pub fn check_frame(frame: &[u8]) -> Result<Scaled, Refusal> {
    match State::load(frame)? {
        State::Job(job) => Ok(Scaled {
            count: job.fields.count(),
            additions: 0,
            scale: job.scale,
        }),
        State::Idle => Err(Refusal::Idle),
    }
}

/// Loads a frame, makes steps and gives the readings. Counts the steps and their additions.
pub fn evaluate(frame: &[u8], budget: u64, readings: &mut [i64]) -> Result<Scaled, Refusal> {
    let (state, made) = load_and_advance(frame, budget)?;
    let scale = state.readings(readings)?;
    Ok(Scaled {
        count: made.steps,
        additions: made.additions,
        scale,
    })
}

/// Loads a frame, makes steps and writes the trace. Gives its bytes.
pub fn trace_frame(frame: &[u8], budget: u64, out: &mut [u8]) -> Result<usize, Refusal> {
    let (state, _) = load_and_advance(frame, budget)?;
    write_trace(&state.record()?, out)
}

/// Loads a frame, makes steps and gives the running sums. Counts the words.
pub fn running_sums(frame: &[u8], budget: u64, words: &mut [i64]) -> Result<usize, Refusal> {
    let (state, _) = load_and_advance(frame, budget)?;
    state.running_sums(words)
}

/// A budget of 0 makes no step; here that is no refusal.
fn load_and_advance(frame: &[u8], budget: u64) -> Result<(State, Made), Refusal> {
    let mut state = State::load(frame)?;
    let made = match budget {
        0 => Made::default(),
        _ => state.advance(budget)?,
    };
    Ok((state, made))
}

/// Reads a trace into words: the fields, k and the digits. Gives how many.
pub fn trace_words(trace: &[u8], words: &mut [i64]) -> Result<usize, Refusal> {
    hand_out(&read_trace(trace)?, words)
}

/// The same by the harder opponent.
pub fn trace_words_by_eights(trace: &[u8], words: &mut [i64]) -> Result<usize, Refusal> {
    hand_out(&read_trace_by_eights(trace)?, words)
}

fn hand_out(record: &Record, words: &mut [i64]) -> Result<usize, Refusal> {
    let Fields {
        kind,
        code,
        p,
        f,
        n,
        m,
    } = record.fields;
    let head = [kind, code, p, f, n, m, record.k].map(|field| field as i64);
    let count = head.len() + record.digits.len();
    let words = words.get_mut(..count).ok_or(Refusal::NoRoom)?;
    let (first, rest) = words.split_at_mut(head.len());
    first.copy_from_slice(&head);
    for (word, &digit) in rest.iter_mut().zip(&record.digits) {
        *word = i64::from(digit);
    }
    Ok(count)
}

/// After a load, an entry of G, or past column 15 the residual of the row; 0 when refused and past order n.
pub fn probe_load(frame: &[u8], row: usize, column: usize) -> i64 {
    match State::load(frame) {
        Ok(State::Job(job)) if row < job.fields.n => {
            let n = job.fields.n;
            match column {
                _ if column < n => job.g[row * n + column],
                0..=15 => 0,
                _ => job.z[row],
            }
        }
        _ => 0,
    }
}

/// Reads a trace once, writes it back and then so many times more. Gives its bytes.
pub fn rewrite_trace(trace: &[u8], more: u64, out: &mut [u8]) -> Result<usize, Refusal> {
    let record = read_trace(trace)?;
    let bytes = write_trace(black_box(&record), out)?;
    for _ in 0..more {
        // Each time anew: the compiler must not see that nothing changed.
        write_trace(black_box(&record), out)?;
    }
    Ok(bytes)
}
