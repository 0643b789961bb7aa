//! Both sides on the same random calls, up to the first difference.

use std::fmt::Debug;

use crate::inputs::{self, Light};
use crate::plain::{self, Fields};
use crate::random::Random;
use crate::sides::{Answer, Library, Plain, Side};

/// Words of a lent buffer before and after the part that a call gets.
const GUARD: usize = 8;
/// More numbers than any frame holds, more words than any trace, more bytes than any of the two.
const AMPLE: usize = 1500;

/// How often each number came up: each refusal, with 0 for none, or each scale.
pub struct Tally([usize; 256]);

impl Tally {
    fn new() -> Tally {
        Tally([0; 256])
    }

    fn add(&mut self, number: usize) {
        self.0[number] += 1;
    }

    /// Of refusals: `accepted 5, refused 1: 2, 6: 3`
    fn text(&self) -> String {
        format!("accepted {}, refused {}", self.0[0], self.list(1))
    }

    /// From a first number on: `1: 2, 6: 3`
    fn list(&self, first: usize) -> String {
        let items: Vec<String> = (first..256)
            .filter(|&number| self.0[number] > 0)
            .map(|number| format!("{number}: {}", self.0[number]))
            .collect();
        items.join(", ")
    }

    /// Random inputs that never get a certain number would compare less than they seem to.
    fn expect(&self, what: &str, numbers: &[usize]) -> Result<(), String> {
        match numbers.iter().find(|&&number| self.0[number] == 0) {
            Some(number) => Err(format!("the random {what} {number} never comes up")),
            None => Ok(()),
        }
    }
}

/// Makes one call on both sides, each with its own copy of the same lent memory.
///
/// The answers must agree and so must all words, those around the part that is lent too; past the words that
/// the answer says are written all must be as before.
fn both<T: Copy + PartialEq + Debug>(
    room: usize,
    random: &mut Random,
    word: impl Fn(u64) -> T,
    plain: impl FnOnce(&mut [T]) -> Answer,
    library: impl FnOnce(&mut [T]) -> Answer,
    written: impl FnOnce(Answer) -> usize,
) -> Result<(Answer, Vec<T>), String> {
    let before: Vec<T> = (0..room + 2 * GUARD).map(|_| word(random.next())).collect();
    let (mut by_plain, mut by_library) = (before.clone(), before.clone());
    let answer = plain(&mut by_plain[GUARD..GUARD + room]);
    let other = library(&mut by_library[GUARD..GUARD + room]);
    if answer != other {
        return Err(format!(
            "room {room}: {} answers {}, {} answers {}",
            Plain::NAME,
            answer_text(answer),
            Library::NAME,
            answer_text(other)
        ));
    }
    if let Some(at) = (0..before.len()).find(|&at| by_plain[at] != by_library[at]) {
        return Err(format!(
            "room {room}: word {} is {:?} after {} and {:?} after {}; it was {:?}",
            at as i64 - GUARD as i64,
            by_plain[at],
            Plain::NAME,
            by_library[at],
            Library::NAME,
            before[at]
        ));
    }
    let written = if answer.refusal() == 0 {
        written(answer)
    } else {
        0
    };
    if by_plain[GUARD + written..] != before[GUARD + written..] {
        return Err(format!(
            "room {room}: both sides changed words past the first {written}"
        ));
    }
    by_plain.truncate(GUARD + room);
    by_plain.drain(..GUARD);
    Ok((answer, by_plain))
}

/// The same of a call that counts what it writes.
fn both_counted<T: Copy + PartialEq + Debug>(
    room: usize,
    random: &mut Random,
    word: impl Fn(u64) -> T,
    plain: impl FnOnce(&mut [T]) -> Answer,
    library: impl FnOnce(&mut [T]) -> Answer,
) -> Result<(Answer, Vec<T>), String> {
    both(room, random, word, plain, library, Answer::count)
}

fn answer_text(answer: Answer) -> String {
    let (refusal, row, count) = (answer.refusal(), answer.row(), answer.count());
    format!(
        "refusal {refusal} row {row} count {count} additions {} scale {}",
        answer.additions(),
        answer.scale()
    )
}

fn hex(bytes: &[u8]) -> String {
    let bytes: Vec<String> = bytes.iter().map(|byte| format!("{byte:02X}")).collect();
    bytes.join(" ")
}

/// A room near what a call needs: often enough, often one short.
fn room_near(needed: usize, random: &mut Random) -> usize {
    match random.below(6) {
        0 => 0,
        1 => random.below(needed + 1),
        2 => needed.saturating_sub(1),
        3 => needed,
        4 => needed + 1,
        _ => needed + random.below(GUARD),
    }
}

fn random_budget(random: &mut Random) -> u64 {
    match random.below(6) {
        0 => 0,
        1 => 1,
        2 => random.next(),
        // Whose lower half says something else.
        3 => random.pick(&[u64::MAX, 1 << 63, 1 << 32, (1 << 32) + 1, 1 << 16, 256]),
        _ => random.below(64) as u64,
    }
}

fn evaluate(
    frame: &[u8],
    n: usize,
    room: usize,
    random: &mut Random,
) -> Result<(Answer, Vec<i64>), String> {
    let budget = random_budget(random);
    both(
        room,
        random,
        |word| word as i64,
        |lent| Plain::evaluate(frame, budget, lent),
        |lent| Library::evaluate(frame, budget, lent),
        |_| n,
    )
    .map_err(|what| format!("em_evaluate, budget {budget}, {what}"))
}

fn running_sums(
    frame: &[u8],
    budget: u64,
    room: usize,
    random: &mut Random,
) -> Result<(Answer, Vec<i64>), String> {
    both_counted(
        room,
        random,
        |word| word as i64,
        |lent| Plain::running_sums(frame, budget, lent),
        |lent| Library::running_sums(frame, budget, lent),
    )
    .map_err(|what| format!("em_running_sums, budget {budget}, {what}"))
}

fn write_frame(
    fields: &Fields,
    numbers: &[i64],
    room: usize,
    random: &mut Random,
) -> Result<(Answer, Vec<u8>), String> {
    both_counted(
        room,
        random,
        |word| word as u8,
        |lent| Plain::write_frame(fields, numbers, lent),
        |lent| Library::write_frame(fields, numbers, lent),
    )
    .map_err(|what| format!("em_write_frame, {what}\n{fields:?}\nnumbers: {numbers:X?}"))
}

fn write_trace(
    frame: &[u8],
    budget: u64,
    room: usize,
    random: &mut Random,
) -> Result<(Answer, Vec<u8>), String> {
    both_counted(
        room,
        random,
        |word| word as u8,
        |lent| Plain::write_trace(frame, budget, lent),
        |lent| Library::write_trace(frame, budget, lent),
    )
    .map_err(|what| format!("em_write_trace, budget {budget}, {what}"))
}

fn read_trace(
    trace: &[u8],
    room: usize,
    random: &mut Random,
) -> Result<(Answer, Vec<i64>), String> {
    both_counted(
        room,
        random,
        |word| word as i64,
        |lent| Plain::read_trace(trace, lent),
        |lent| Library::read_trace(trace, lent),
    )
    .map_err(|what| format!("em_read_trace, {what}"))
}

fn rewrite_trace(
    trace: &[u8],
    room: usize,
    random: &mut Random,
) -> Result<(Answer, Vec<u8>), String> {
    let more = random.below(3) as u64;
    both_counted(
        room,
        random,
        |word| word as u8,
        |lent| Answer::from(Ok(Plain::rewrite_trace(trace, more, lent))),
        |lent| Answer::from(Ok(Library::rewrite_trace(trace, more, lent))),
    )
    .map_err(|what| format!("bench_rewrite_trace, {more} times more, {what}"))
}

/// All calls that take a frame.
fn compare_frame(frame: &[u8], random: &mut Random) -> Result<Answer, String> {
    let answer = Plain::check_frame(frame);
    let other = Library::check_frame(frame);
    if answer != other {
        return Err(format!(
            "em_check_frame: {} answers {}, {} answers {}",
            Plain::NAME,
            answer_text(answer),
            Library::NAME,
            answer_text(other)
        ));
    }

    // Places past order n, and now and then past the 16th.
    for _ in 0..4 {
        let (row, column) = (random.below(17), random.below(17));
        let number = Plain::probe_load(frame, row, column);
        let other = Library::probe_load(frame, row, column);
        if number != other {
            return Err(format!(
                "bench_probe_load, row {row}, column {column}: {} gives {number}, {} gives {other}",
                Plain::NAME,
                Library::NAME
            ));
        }
    }

    // An accepted frame is what the writer makes of its fields and numbers.
    let mut numbers = vec![0; AMPLE];
    let n = match plain::read_frame(frame, &mut numbers) {
        Ok(fields) => {
            let numbers = &numbers[..answer.count()];
            let (answer, bytes) = write_frame(&fields, numbers, AMPLE, random)?;
            if answer.refusal() != 0 || bytes[..answer.count()] != *frame {
                return Err(format!(
                    "em_write_frame gives another frame\n{fields:?}\nnumbers: {numbers:X?}"
                ));
            }
            fields.n
        }
        Err(_) => 16,
    };

    let room = n + random.below(GUARD);
    evaluate(frame, n, room, random)?;
    let room = room_near(n, random);
    evaluate(frame, n, room, random)?;

    let budget = random_budget(random);
    let (written, _) = write_trace(frame, budget, AMPLE, random)?;
    let room = room_near(written.count(), random);
    write_trace(frame, budget, room, random)?;

    let budget = random_budget(random);
    let (written, _) = running_sums(frame, budget, AMPLE, random)?;
    let room = room_near(written.count(), random);
    running_sums(frame, budget, room, random)?;
    Ok(answer)
}

/// All calls that take a trace.
fn compare_trace(trace: &[u8], random: &mut Random) -> Result<Answer, String> {
    let (answer, _) = read_trace(trace, AMPLE, random)?;
    let room = room_near(answer.count(), random);
    read_trace(trace, room, random)?;

    let (written, bytes) = rewrite_trace(trace, AMPLE, random)?;
    if written.count() != 0 && bytes[..written.count()] != *trace {
        return Err("bench_rewrite_trace gives another trace".to_string());
    }
    let room = room_near(written.count(), random);
    rewrite_trace(trace, room, random)?;
    Ok(answer)
}

/// A trace of a random job after a random budget, then damaged now and then.
fn random_trace(random: &mut Random) -> Result<Vec<u8>, String> {
    let mut fields = inputs::random_fields(random);
    let numbers = Light::Edges.numbers(&fields, random);
    let mut frame = inputs::pack_frame(&fields, &numbers);
    // Fewer digits where m + 1 + s steps are too many.
    while Plain::check_frame(&frame).refusal() == 15 {
        fields.m -= 1;
        frame = inputs::pack_frame(&fields, &numbers);
    }
    let budget = random_budget(random);
    let mut bytes = vec![0; AMPLE];
    let mut words = vec![0; AMPLE];
    let answer = Plain::write_trace(&frame, budget, &mut bytes);
    let read = Plain::read_trace(&bytes[..answer.count()], &mut words);
    if answer.refusal() != 0 || read.refusal() != 0 {
        return Err(format!(
            "a frame that should have a trace has none: {}",
            hex(&frame)
        ));
    }
    let k = words[6] as usize;
    let digits = &words[7..read.count()];
    Ok(inputs::damage_trace(&fields, k, digits, random))
}

/// Compares both sides on so many frames, calls of the frame writer and traces.
pub fn run(count: usize, random: &mut Random) -> Result<(), String> {
    let (mut tally, mut scales) = (Tally::new(), Tally::new());
    for _ in 0..count {
        let frame = inputs::random_frame(random);
        let answer = compare_frame(&frame, random)
            .map_err(|what| format!("{what}\nframe: {}", hex(&frame)))?;
        tally.add(answer.refusal());
        if answer.refusal() == 0 {
            scales.add(answer.scale());
        }
    }
    println!("{count} frames: {}", tally.text());
    tally.expect("frames: refusal", &[0, 1, 3, 4, 5, 6, 7, 8, 15])?;
    println!("scales of the accepted ones: {}", scales.list(0));
    scales.expect("frames: scale", &[0, 1, 2])?;

    let mut tally = Tally::new();
    for _ in 0..count {
        let (fields, numbers) = inputs::random_job(random);
        let (answer, _) = write_frame(&fields, &numbers, AMPLE, random)?;
        let room = room_near(answer.count(), random);
        write_frame(&fields, &numbers, room, random)?;
        tally.add(answer.refusal());
    }
    println!("{count} calls of the frame writer: {}", tally.text());
    tally.expect("jobs: refusal", &[0, 2, 3, 4, 5, 8, 12, 13, 14, 15])?;

    let mut tally = Tally::new();
    for _ in 0..count {
        let trace = random_trace(random)?;
        let answer = compare_trace(&trace, random)
            .map_err(|what| format!("{what}\ntrace: {}", hex(&trace)))?;
        tally.add(answer.refusal());
    }
    println!("{count} traces: {}", tally.text());
    tally.expect("traces: refusal", &[0, 1, 3, 4, 5, 6, 7, 10, 11])
}
