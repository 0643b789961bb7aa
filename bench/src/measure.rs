//! Times both sides on the same inputs.

use std::hint::black_box;
use std::time::{Duration, Instant};

use crate::inputs::{pack_frame, Light};
use crate::plain::{calls, Fields};
use crate::random::Random;
#[cfg(before)]
use crate::sides::Before;
use crate::sides::{Library, Plain, Side};

/// Different inputs of each sort: enough for branch predictors to learn none of them.
const INPUTS: usize = 64;
/// How often a trace is written in one call.
const TIMES: u64 = 64;

/// How long to measure one thing.
pub struct Effort {
    rounds: u32,
    /// What one side takes in a round, or a single call if that is longer.
    turn: Duration,
    /// On a busy machine the rounds end here.
    longest: Duration,
}

pub const FULL: Effort = Effort {
    rounds: 1001,
    turn: Duration::from_micros(200),
    longest: Duration::from_millis(2500),
};

pub const QUICK: Effort = Effort {
    rounds: 51,
    turn: Duration::from_micros(100),
    longest: Duration::from_millis(100),
};

/// Nanoseconds of one piece of work on one side, and plain time / its time.
struct Timing {
    nanoseconds: f64,
    ratio: f64,
    /// The ratios of the rounds, without the lowest and the highest quarter.
    middle: (f64, f64),
}

/// How long one side takes on so many inputs, from a first one on.
type Turn<'a> = Box<dyn FnMut(usize, usize) -> Duration + 'a>;

fn turn<'a>(mut work: impl FnMut(usize) + 'a) -> Turn<'a> {
    Box::new(move |first, inputs| {
        let start = Instant::now();
        for input in first..first + inputs {
            work(input % INPUTS);
        }
        start.elapsed()
    })
}

/// Runs all sides, the plain one first in the list, in many short rounds. In a round they take turns on the
/// same inputs, and another one goes first in each round.
///
/// A machine that does something else as well spoils single rounds; the medians leave those out.
fn time_sides(effort: &Effort, sides: &mut [Turn]) -> Vec<Timing> {
    // How many inputs make a turn; finding out also makes all sides warm.
    let mut inputs = 1;
    while sides.iter_mut().all(|side| side(0, inputs) < effort.turn) {
        inputs *= 2;
    }
    let mut times = vec![Vec::new(); sides.len()];
    let start = Instant::now();
    for round in 0..effort.rounds as usize {
        for place in 0..sides.len() {
            let side = (round + place) % sides.len();
            let taken = sides[side](round * inputs, inputs);
            times[side].push(taken.as_nanos() as f64 / inputs as f64);
        }
        if start.elapsed() > effort.longest {
            break;
        }
    }
    times.iter().map(|side| timing(&times[0], side)).collect()
}

fn timing(plain: &[f64], side: &[f64]) -> Timing {
    let mut ratios: Vec<f64> = plain.iter().zip(side).map(|(a, b)| a / b).collect();
    Timing {
        nanoseconds: quantile(&mut side.to_vec(), 2),
        ratio: quantile(&mut ratios, 2),
        middle: (quantile(&mut ratios, 1), quantile(&mut ratios, 3)),
    }
}

/// The value with so many quarters of the others below it.
fn quantile(values: &mut [f64], quarters: usize) -> f64 {
    values.sort_by(f64::total_cmp);
    values[(values.len() - 1) * quarters / 4]
}

/// Frames of this scale, 0 or 1. A curve of scale 1 starts high: its p_0 is 1/2 to 1.
fn frames(fields: Fields, scale: usize, random: &mut Random) -> Vec<Vec<u8>> {
    let mut frames = Vec::new();
    for _ in 0..INPUTS {
        let mut fields = fields;
        // With a radix above 2 the largest digit differs from frame to frame.
        let r = 2 << fields.code;
        fields.p = random.between(r / 2, r - 1);
        let mut numbers = Light::Full.numbers(&fields, random);
        if scale == 1 {
            numbers[1] = numbers[1].abs() + (1 << (fields.f - 1));
        }
        let frame = pack_frame(&fields, &numbers);
        let found = Plain::check_frame(&frame).scale();
        assert_eq!(found, scale, "a measured frame has another scale");
        frames.push(frame);
    }
    frames
}

fn sort(kind: usize, r: usize, n: usize, m: usize) -> Fields {
    Fields {
        kind,
        code: r.ilog2() as usize - 1,
        p: r - 1,
        f: 40,
        n,
        m,
    }
}

// One piece of work each, on one of the inputs. What is lent stands ready before the clock starts.

fn load<S: Side>(frames: &[Vec<u8>]) -> Turn<'_> {
    turn(|input| {
        let frame = black_box(&frames[input]);
        black_box(S::check_frame(frame));
    })
}

fn job<S: Side>(frames: &[Vec<u8>]) -> Turn<'_> {
    let mut readings = [0; 16];
    turn(move |input| {
        let frame = black_box(&frames[input]);
        black_box(S::evaluate(frame, u64::MAX, black_box(&mut readings)));
    })
}

fn trace_write<S: Side>(traces: &[Vec<u8>]) -> Turn<'_> {
    let mut out = [0; 604];
    turn(move |input| {
        let trace = black_box(&traces[input]);
        black_box(S::rewrite_trace(trace, TIMES - 1, black_box(&mut out)));
    })
}

fn trace_read<S: Side>(traces: &[Vec<u8>]) -> Turn<'_> {
    let mut words = [0; 967];
    turn(move |input| {
        let trace = black_box(&traces[input]);
        black_box(S::read_trace(trace, black_box(&mut words)));
    })
}

fn trace_read_by_eights(traces: &[Vec<u8>]) -> Turn<'_> {
    let mut words = [0; 967];
    turn(move |input| {
        let trace = black_box(&traces[input]);
        let _ = black_box(calls::trace_words_by_eights(trace, black_box(&mut words)));
    })
}

/// One piece of work on every side, the plain one first.
macro_rules! sides {
    ($work:ident, $inputs:expr) => {
        [
            $work::<Plain>($inputs),
            $work::<Library>($inputs),
            #[cfg(before)]
            $work::<Before>($inputs),
        ]
    };
}

fn heading(what: &str) {
    let plain = Plain::NAME;
    print!("\n{what:<38} {:>8}", format!("{plain} ns"));
    let names = [
        Library::NAME,
        #[cfg(before)]
        Before::NAME,
    ];
    for name in names {
        print!(" {:>14}   ratio  middle half", format!("{name} ns"));
    }
    println!();
}

fn line(what: &str, timings: &[Timing]) {
    print!("{what:<38} {:>8.0}", timings[0].nanoseconds);
    for timing in &timings[1..] {
        let (low, high) = timing.middle;
        print!(" {:>14.0} {:>7.2} ", timing.nanoseconds, timing.ratio);
        print!(" {low:.2} to {high:.2}");
    }
    println!();
}

/// Measures everything and prints the tables.
pub fn run(effort: &Effort, random: &mut Random) {
    let sorts = [
        ("polynomial n 5 r 2 m 45", sort(0, 2, 5, 45)),
        ("rational n 16 r 16 m 14", sort(1, 16, 16, 14)),
        ("system n 16 r 2 m 59", sort(2, 2, 16, 59)),
        ("quotients n 16 r 4 m 29", sort(3, 4, 16, 29)),
    ];
    // As many steps as those of scale 0: the last is m + 1 + s.
    let high_sorts = [
        ("polynomial n 5 r 2 m 44 s 1", sort(0, 2, 5, 44)),
        ("rational n 16 r 16 m 13 s 1", sort(1, 16, 16, 13)),
    ];
    let inputs = sorts.map(|(name, fields)| (name, frames(fields, 0, random)));
    let high = high_sorts.map(|(name, fields)| (name, frames(fields, 1, random)));
    let time = |what: &str, sides: &mut [Turn]| line(what, &time_sides(effort, sides));

    println!("\nratio = plain time / that side's time: above 1 it is faster than plain");
    heading("what");
    for (name, frames) in &inputs {
        time(&format!("load, {name}"), &mut sides!(load, frames));
    }
    for (name, frames) in inputs.iter().chain(&high) {
        time(&format!("whole job, {name}"), &mut sides!(job, frames));
    }
    let traces = inputs.map(|(name, frames)| {
        let traces: Vec<Vec<u8>> = frames.iter().map(|frame| full_trace(frame)).collect();
        (name, traces)
    });
    for (name, traces) in &traces {
        let mut timings = time_sides(effort, &mut sides!(trace_write, traces));
        for timing in &mut timings {
            timing.nanoseconds /= TIMES as f64;
        }
        line(&format!("trace write, {name}"), &timings);
    }
    for (name, traces) in &traces {
        time(
            &format!("trace read, {name}"),
            &mut sides!(trace_read, traces),
        );
    }
    for (name, traces) in &traces {
        let mut sides = sides!(trace_read, traces);
        sides[0] = trace_read_by_eights(traces);
        time(&format!("by eights, {name}"), &mut sides);
    }

    heading("growth of a whole job, system r 2");
    let with_n = [1, 2, 4, 8, 16].map(|n| (n, 59));
    let with_m = [9, 19, 39, 59].map(|m| (16, m));
    for (n, m) in with_n.into_iter().chain(with_m) {
        let frames = frames(sort(2, 2, n, m), 0, random);
        time(&format!("n {n:>2}, m {m}"), &mut sides!(job, &frames));
    }
}

/// The trace of a frame after all its steps.
fn full_trace(frame: &[u8]) -> Vec<u8> {
    let mut out = vec![0; 604];
    let answer = Plain::write_trace(frame, u64::MAX, &mut out);
    assert_eq!(answer.refusal(), 0, "a measured frame is refused");
    out.truncate(answer.count());
    out
}
