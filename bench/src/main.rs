//! Compares the proved E-method library with a plain Rust implementation of the same documents, and measures
//! both.

mod cases;
mod compare;
#[cfg(not(feature = "plain-only"))]
mod from_c;
mod inputs;
mod measure;
mod plain;
mod random;
mod sides;

use std::env;
use std::path::Path;
use std::process::ExitCode;

use random::Random;
use sides::{Library, Plain};

const USAGE: &str = "emethod-bench                   cases, comparison, measurements
emethod-bench quick             the same in a few seconds
emethod-bench measure           the measurements alone
emethod-bench vectors FOLDER    frames.bin and traces.bin against their .txt, columns.txt and additions.txt";

/// Every run makes the same random numbers.
const SEED: u64 = 0x00E5_1975_0000_0001;

fn main() -> ExitCode {
    let arguments: Vec<String> = env::args().skip(1).collect();
    let arguments: Vec<&str> = arguments.iter().map(String::as_str).collect();
    let result = match arguments[..] {
        [] => run(120_000, &measure::FULL),
        ["quick"] => run(5_000, &measure::QUICK),
        ["measure"] => {
            measure::run(&measure::FULL, &mut Random::new(SEED));
            Ok(())
        }
        ["vectors", folder] => run_vectors(Path::new(folder)),
        _ => {
            eprintln!("{USAGE}");
            return ExitCode::from(2);
        }
    };
    match result {
        Ok(()) => ExitCode::SUCCESS,
        Err(what) => {
            println!("stopped: {what}");
            ExitCode::FAILURE
        }
    }
}

fn run(inputs: usize, effort: &measure::Effort) -> Result<(), String> {
    let mut random = Random::new(SEED);
    let done = cases::run::<Plain>()?;
    cases::run::<Library>()?;
    println!("{done} cases of the documents: both sides right");
    #[cfg(not(feature = "plain-only"))]
    {
        from_c::run()?;
        println!("the programs in C print what they should, in C99 and as C++");
    }
    compare::run(inputs, &mut random)?;
    println!("no difference");
    measure::run(effort, &mut random);
    Ok(())
}

fn run_vectors(folder: &Path) -> Result<(), String> {
    cases::run_vectors::<Plain>(folder)?;
    cases::run_vectors::<Library>(folder)
}
