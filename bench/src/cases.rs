//! The cases of the documents, and vectors.

use std::fs;
use std::path::Path;

use crate::inputs::{pack_frame, pack_trace};
use crate::plain::Fields;
use crate::sides::{Answer, Side};

/// The frame of case A, which has a heavy row.
const A: [u8; 6] = [0x01, 0x10, 0x44, 0x10, 0x32, 0x00];

// Jobs with light rows in place of those of A, B, C and E: A and E with x 3, B with q_1 3, C with a 13.
const A_3: [u8; 6] = [0x01, 0x10, 0x44, 0x0C, 0x32, 0x00];
const A_3_TRACE: [u8; 10] = [0x01, 0x10, 0x44, 0x14, 0x01, 0x08, 0x00, 0x00, 0x83, 0xE0];
const A_3_TEXT: &str = "0 2 1 4 2 4 0\n1 0 1\n2 1 0\n3 0 0\n4 1 0\n5 -1 0\n= 9 16\n";
const B_3_TEXT: &str = "1 2 1 4 2 5 0\n1 1 0\n2 0 0\n3 0 -1\n4 0 1\n5 0 -1\n6 -1 0\n= 31 -6\n";
const C_13_TEXT: &str = "2 2 1 4 1 4 0\n1 1\n2 0\n3 1\n4 0\n5 0\n= 20\n";
const Q_TEXT: &str = "3 2 1 4 2 4 0\n1 1 1\n2 -1 0\n3 1 1\n4 -1 -1\n5 0 0\n= 10 18\n";
const E_3_TEXT: &str = "0 2 1 4 2 4 1\n1 1 1\n2 -1 -1\n3 1 0\n4 -1 0\n5 1 0\n6 -1 0\n= 21 16\n";

// Order 1 with seven fraction bits: the first w is just above -1/2, and just below 1/2.
const ABOVE_TEXT: &str = "0 2 1 7 1 4 0\n1 -1\n2 1\n3 0\n4 0\n5 0\n= -8\n";
const BELOW_TEXT: &str = "0 2 1 7 1 4 0\n1 0\n2 1\n3 0\n4 0\n5 0\n= 8\n";

/// A job with four fraction bits, as a frame.
fn frame(kind: usize, r: usize, p: usize, n: usize, m: usize, numbers: &[i64]) -> Vec<u8> {
    pack_frame(&fields(kind, r, p, n, m), numbers)
}

fn fields(kind: usize, r: usize, p: usize, n: usize, m: usize) -> Fields {
    Fields {
        kind,
        code: r.ilog2() as usize - 1,
        p,
        f: 4,
        n,
        m,
    }
}

/// What `edigits` prints for a frame, by the calls of one side.
pub fn frame_text<S: Side>(frame: &[u8]) -> String {
    let mut readings = [0; 16];
    let mut trace = [0; 604];
    let mut words = [0; 967];
    let answer = S::evaluate(frame, u64::MAX, &mut readings);
    if answer.refusal() != 0 {
        return refused_text(answer);
    }
    let bytes = S::write_trace(frame, u64::MAX, &mut trace).count();
    let count = S::read_trace(&trace[..bytes], &mut words).count();
    let n = words[4] as usize;
    let mut text = String::new();
    let mut first = head(&words[..6]);
    first.push(answer.scale() as i64);
    push_line(&mut text, &first);
    push_steps(&mut text, n, &words[7..count]);
    text.push_str("= ");
    push_line(&mut text, &readings[..n]);
    text
}

/// The line of a refused frame.
fn refused_text(answer: Answer) -> String {
    match answer.refusal() {
        8 => format!("refused 8 {}\n", answer.row()),
        number => format!("refused {number}\n"),
    }
}

/// The running sums of a frame's job after 0, 1 and 2 steps and after all, by the calls of one side: a line for
/// each, with the steps made and then the words.
pub fn sums_text<S: Side>(frame: &[u8]) -> String {
    let all = S::evaluate(frame, u64::MAX, &mut [0; 16]);
    if all.refusal() != 0 {
        return refused_text(all);
    }
    let mut text = String::new();
    let mut words = [0; 272];
    let made = [0, 1, 2, all.count()];
    for (at, &steps) in made.iter().enumerate() {
        if steps > all.count() || made[..at].contains(&steps) {
            continue;
        }
        let count = S::running_sums(frame, steps as u64, &mut words).count();
        let mut line = vec![steps as i64];
        line.extend(&words[..count]);
        push_line(&mut text, &line);
    }
    text
}

/// The additions of each step of a frame's job in turn, by the calls of one side: those of its steps up to one
/// less those of the steps before.
pub fn additions_text<S: Side>(frame: &[u8]) -> String {
    let mut readings = [0; 16];
    let all = S::evaluate(frame, u64::MAX, &mut readings);
    if all.refusal() != 0 {
        return refused_text(all);
    }
    let mut so_far =
        |steps: usize| S::evaluate(frame, steps as u64, &mut readings).additions() as i64;
    let line: Vec<i64> = (0..all.count())
        .map(|steps| so_far(steps + 1) - so_far(steps))
        .collect();
    let mut text = String::new();
    push_line(&mut text, &line);
    text
}

/// What the vectors show for a trace, by the calls of one side.
pub fn trace_text<S: Side>(trace: &[u8]) -> String {
    let mut words = [0; 967];
    let answer = S::read_trace(trace, &mut words);
    if answer.refusal() != 0 {
        return format!("refused {}\n", answer.refusal());
    }
    let mut text = String::new();
    push_line(&mut text, &head(&words[..7]));
    push_steps(&mut text, words[4] as usize, &words[7..answer.count()]);
    text
}

/// The fields with the radix in place of its code.
fn head(words: &[i64]) -> Vec<i64> {
    let mut words = words.to_vec();
    words[1] = 2 << words[1];
    words
}

fn push_steps(text: &mut String, n: usize, digits: &[i64]) {
    for (step, digits) in digits.chunks_exact(n).enumerate() {
        let mut line = vec![step as i64 + 1];
        line.extend(digits);
        push_line(text, &line);
    }
}

fn push_line(text: &mut String, items: &[i64]) {
    let items: Vec<String> = items.iter().map(i64::to_string).collect();
    text.push_str(&items.join(" "));
    text.push('\n');
}

/// The cases A to H with the frames that load in place of heavy ones, sums of quotients, and the edges of the
/// estimate, of m, of the scale and of a trace's steps, by one side. Gives how many there are.
pub fn run<S: Side>() -> Result<usize, String> {
    let mut done = 0;
    let mut case = |name: &str, right: bool| {
        done += 1;
        match right {
            true => Ok(()),
            false => Err(format!("{}: case {name} is wrong", S::NAME)),
        }
    };
    let refused = |frame: &[u8]| {
        let answer = S::check_frame(frame);
        (answer.refusal(), answer.row())
    };
    let loads = |frame: &[u8], scale: usize| {
        let answer = S::check_frame(frame);
        (answer.refusal(), answer.scale()) == (0, scale)
    };
    let curve = |x, p_0| frame(0, 2, 1, 2, 4, &[x, p_0, 8]);
    let mut lent = [0; 1431];

    case("A, frame", curve(4, 3) == A)?;
    case("A, refused", refused(&A) == (8, 1))?;
    case("A, text", frame_text::<S>(&A) == "refused 8 1\n")?;
    let written = S::write_frame(&fields(0, 2, 1, 2, 4), &[4, 3, 8], &mut lent);
    let unwritten = (written.refusal(), written.row(), written.count());
    case("A, not written", unwritten == (8, 1, 0))?;
    case("A with x 3, frame", curve(3, 3) == A_3)?;
    case("A with x 3, text", frame_text::<S>(&A_3) == A_3_TEXT)?;
    let written = S::write_frame(&fields(0, 2, 1, 2, 4), &[3, 3, 8], &mut lent);
    case("A with x 3, written", lent[..written.count()] == A_3)?;
    let traced = S::write_trace(&A_3, 5, &mut lent);
    case("A with x 3, trace", lent[..traced.count()] == A_3_TRACE)?;

    let b = |q_1| frame(1, 2, 1, 2, 5, &[2, 8, 0, q_1]);
    case("B, refused", refused(&b(4)) == (8, 2))?;
    case("B with q_1 3, text", frame_text::<S>(&b(3)) == B_3_TEXT)?;
    let c = |a| frame(2, 2, 1, 1, 4, &[a, 8]);
    case("C, refused", refused(&c(12)) == (8, 1))?;
    case("C with a 13, text", frame_text::<S>(&c(13)) == C_13_TEXT)?;

    // Sums of quotients: c_0, then c, a and b of each in turn. The value of the first is 9/28.
    let quotients = |n, numbers: &[i64]| frame(3, 2, 1, n, 4, numbers);
    let q = quotients(2, &[4, 2, 8, 2]);
    case(
        "quotients, frame",
        q == [0xC1, 0x10, 0x44, 0x10, 0x22, 0x02],
    )?;
    case("quotients, text", frame_text::<S>(&q) == Q_TEXT)?;
    case("quotients, c_0 alone", loads(&quotients(1, &[8]), 0))?;
    let heavy_sum = quotients(3, &[4, 2, 8, 2, -2, 8, 2]);
    case("quotients, heavy sum", refused(&heavy_sum) == (8, 1))?;
    let heavy_divisor = quotients(3, &[4, 1, 8, 2, 1, 8, -4]);
    case("quotients, heavy b_2", refused(&heavy_divisor) == (8, 3))?;
    let high_dividend = quotients(3, &[4, 1, 9, 2, 1, 8, 2]);
    case("quotients, high a_1", loads(&high_dividend, 1))?;

    case("D", refused(&curve(5, 3)) == (8, 1))?;
    case("E, refused", refused(&curve(4, 9)) == (8, 1))?;
    let e = curve(3, 9);
    case("E with x 3, text", frame_text::<S>(&e) == E_3_TEXT)?;
    case("E with x 3, 8", loads(&curve(3, 8), 0))?;
    case("E with x 3, -8", loads(&curve(3, -8), 0))?;
    case("E with x 3, -9", loads(&curve(3, -9), 1))?;

    let four = |p, x| frame(0, 4, p, 2, 4, &[x, 3, 8]);
    case("F, p 2, x 0", refused(&four(2, 0)) == (0, 0))?;
    case("F, p 2, x 1", refused(&four(2, 1)) == (8, 1))?;
    case("F, p 3, x 1", refused(&four(3, 1)) == (0, 0))?;
    case("F, p 3, x 2", refused(&four(3, 2)) == (8, 1))?;

    case("G", refused(&frame(0, 2, 1, 1, 4, &[31, 8])) == (0, 0))?;

    case("H, both", refused(&curve(5, 9)) == (8, 1))?;
    case("H, empty", refused(&[]) == (1, 0))?;
    let mut filled = A_3;
    filled[5] = 0x01;
    case("H, last byte 01", refused(&filled) == (7, 0))?;
    let mut longer = A_3.to_vec();
    longer.push(0);
    case("H, a byte more", refused(&longer) == (6, 0))?;

    // With four fraction bits an estimate is w itself. Here w is -31/64 and 31/64: cut down to five bits, the
    // first is -1/2, a tie, and the second 15/32.
    let seven = Fields {
        f: 7,
        ..fields(0, 2, 1, 1, 4)
    };
    let near_half = |p_0| frame_text::<S>(&pack_frame(&seven, &[0, p_0]));
    case("w just above -1/2", near_half(-31) == ABOVE_TEXT)?;
    case("w just below 1/2", near_half(31) == BELOW_TEXT)?;

    let steps = |r, p, m| refused(&frame(0, r, p, 2, m, &[0, 3, 8]));
    case("m 59 at r 2", steps(2, 1, 59) == (0, 0))?;
    case("m 60 at r 2", steps(2, 1, 60) == (5, 0))?;
    case("m 29 at r 4", steps(4, 2, 29) == (0, 0))?;
    case("m 30 at r 4", steps(4, 2, 30) == (5, 0))?;
    case("m 19 at r 8", steps(8, 4, 19) == (0, 0))?;
    case("m 20 at r 8", steps(8, 4, 20) == (5, 0))?;
    case("m 14 at r 16", steps(16, 8, 14) == (0, 0))?;
    case("m 15 at r 16", steps(16, 8, 15) == (5, 0))?;

    // The scale goes by the largest right side, in whichever row it is.
    let sides = |r, b: [i64; 2]| frame(0, r, r - 1, 2, 4, &[0, b[0], b[1]]);
    case("1 at r 2", loads(&sides(2, [0, 16]), 1))?;
    case("above 1 at r 2", loads(&sides(2, [17, -9]), 2))?;
    case("-2 at r 2", loads(&sides(2, [0, -32]), 2))?;
    case("-1/2 at r 4", loads(&sides(4, [8, -8]), 0))?;
    case("below -1/2 at r 4", loads(&sides(4, [0, -9]), 1))?;
    case("-2 at r 4", loads(&sides(4, [-32, 31]), 1))?;
    case("-2 at r 16", loads(&sides(16, [-32, 0]), 1))?;

    let high = |r, m, p_0| refused(&frame(0, r, r - 1, 2, m, &[0, p_0, 8]));
    case("m 58, s 1 at r 2", high(2, 58, 16) == (0, 0))?;
    case("m 59, s 1 at r 2", high(2, 59, 9) == (15, 0))?;
    case("m 57, s 2 at r 2", high(2, 57, -32) == (0, 0))?;
    case("m 58, s 2 at r 2", high(2, 58, 17) == (15, 0))?;
    case("m 13, s 1 at r 16", high(16, 13, 31) == (0, 0))?;
    case("m 14, s 1 at r 16", high(16, 14, 9) == (15, 0))?;
    let heavy = frame(0, 2, 1, 2, 59, &[5, 9, 8]);
    case("8 before 15", refused(&heavy) == (8, 1))?;

    // The words of A after 1 step, with the digits 0 and 1: column 2 and its sums, 3 and 0.
    let sums = |frame: &[u8], budget, room: usize| {
        let mut words = [7; 7];
        let answer = S::running_sums(frame, budget, &mut words[..room]);
        (answer.refusal(), answer.count(), words)
    };
    case("sums, no step", sums(&A_3, 0, 0) == (0, 0, [7; 7]))?;
    case("sums, no room", sums(&A_3, 1, 2) == (23, 0, [7; 7]))?;
    case(
        "sums, column 2",
        sums(&A_3, 1, 4) == (0, 3, [2, 3, 0, 7, 7, 7, 7]),
    )?;
    case(
        "sums, column 1",
        sums(&A_3, 2, 3) == (0, 3, [1, 0, 0, 7, 7, 7, 7]),
    )?;
    // Those of E with x 3, whose scale is 1, in the frame's unit: columns 1 and 2.
    case(
        "sums, both",
        sums(&curve(3, 9), 1, 7) == (0, 6, [1, 0, 0, 2, 3, 0, 7]),
    )?;
    case(
        "sums, heavy row",
        sums(&curve(5, 9), 1, 7) == (8, 0, [7; 7]),
    )?;

    // G of A has one entry, 3 in row 1 and column 2, and the digits of row 2 are 1, 0, 0, 0, 0: one addition, in
    // step 2. In E with x 3 they are 1, -1, 0, 0, 0, 0: one each in steps 2 and 3.
    let additions = |frame: &[u8], budget, room: usize| {
        let answer = S::evaluate(frame, budget, &mut [0; 2][..room]);
        (answer.refusal(), answer.count(), answer.additions())
    };
    case("additions, no step", additions(&A_3, 0, 2) == (0, 0, 0))?;
    case("additions, 1 step", additions(&A_3, 1, 2) == (0, 1, 0))?;
    case("additions, 2 steps", additions(&A_3, 2, 2) == (0, 2, 1))?;
    case("additions, all", additions(&A_3, 9, 2) == (0, 5, 1))?;
    case("additions, E", additions(&e, 9, 2) == (0, 6, 2))?;
    case("additions, no room", additions(&A_3, 9, 1) == (23, 0, 0))?;
    // G of the sum of quotients has two entries, both in column 2, and the digits of row 2 are 1, 0, 1, -1, 0.
    case("additions, quotients", additions(&q, 9, 2) == (0, 5, 6))?;
    case(
        "additions, heavy row",
        additions(&curve(5, 9), 9, 2) == (8, 0, 0),
    )?;

    // Traces of radix 2 and order 1, all digits 0.
    let traced = |m, k| {
        let trace = pack_trace(&fields(0, 2, 1, 1, m), k, &vec![0; k]);
        let answer = S::read_trace(&trace, &mut [0; 967]);
        (answer.refusal(), answer.count())
    };
    case("k is m + 3", traced(4, 7) == (0, 14))?;
    case("k is m + 4", traced(4, 8) == (10, 0))?;
    case("k 60 at r 2", traced(59, 60) == (0, 67))?;
    case("k 61 at r 2", traced(59, 61) == (10, 0))?;
    Ok(done)
}

/// Runs one side over a folder of vectors: each `.bin` must give exactly its `.txt`, and where there is a
/// `columns.txt` or an `additions.txt`, the running sums or the additions of the frames must be those.
pub fn run_vectors<S: Side>(folder: &Path) -> Result<(), String> {
    run_file(S::NAME, folder, "frames", "frames", frame_text::<S>)?;
    run_file(S::NAME, folder, "traces", "traces", trace_text::<S>)?;
    if folder.join("columns.txt").exists() {
        run_file(S::NAME, folder, "frames", "columns", sums_text::<S>)?;
    }
    if folder.join("additions.txt").exists() {
        run_file(S::NAME, folder, "frames", "additions", additions_text::<S>)?;
    }
    Ok(())
}

fn run_file(
    side: &str,
    folder: &Path,
    input: &str,
    name: &str,
    text: impl Fn(&[u8]) -> String,
) -> Result<(), String> {
    let read = |name: &str, ending: &str| {
        let path = folder.join(name).with_extension(ending);
        fs::read(&path).map_err(|error| format!("{}: {error}", path.display()))
    };
    let bytes = read(input, "bin")?;
    let expected = read(name, "txt")?;
    let mut items = 0;
    let mut rest = &bytes[..];
    let mut left = &expected[..];
    while let [high, low, after @ ..] = rest {
        let length = usize::from(*high) << 8 | usize::from(*low);
        if length > after.len() {
            return Err(format!("{input}.bin ends within an item"));
        }
        let item;
        (item, rest) = after.split_at(length);
        items += 1;
        left = left
            .strip_prefix(text(item).as_bytes())
            .ok_or_else(|| format!("{side}: {name}, item {items} differs: {item:02X?}"))?;
    }
    if !rest.is_empty() || !left.is_empty() {
        return Err(format!("{side}: {input}.bin ends before {name}.txt"));
    }
    println!(
        "{side}: {items} {name}, {} bytes, all equal",
        expected.len()
    );
    Ok(())
}

#[cfg(test)]
mod tests {
    use super::*;
    use crate::sides::Plain;

    #[test]
    fn document_cases() {
        run::<Plain>().unwrap();
    }
}
