//! Document 01, with requests 1 to 3 of document 02, in plain Rust: what a programmer writes who has the
//! documents and no proofs.
//!
//! It shares nothing with the proved library, so that an error would have to be made twice to stay unseen.

mod bits;
pub mod calls;
mod fields;
mod frame;
mod state;
mod trace;

pub use fields::Fields;
pub use frame::{read_frame, write_frame};
pub use state::{Made, State};
pub use trace::{read_trace, read_trace_by_eights, write_trace, Record};

/// Why a call did nothing. Rows count from 1.
#[derive(Clone, Copy, Debug, PartialEq, Eq)]
pub enum Refusal {
    TooFewBytes,
    Kind,
    LargestDigit,
    FractionBits,
    Steps,
    Length,
    Filling,
    HeavyRow(usize),
    StepsMade,
    Digit,
    Count,
    Number,
    Order,
    ScaledSteps,
    Idle,
    AllStepsMade,
    NoBudget,
    NoRoom,
    BadState,
}

impl Refusal {
    /// The number that the documents give the reason.
    pub fn number(self) -> u64 {
        match self {
            Refusal::TooFewBytes => 1,
            Refusal::Kind => 2,
            Refusal::LargestDigit => 3,
            Refusal::FractionBits => 4,
            Refusal::Steps => 5,
            Refusal::Length => 6,
            Refusal::Filling => 7,
            Refusal::HeavyRow(_) => 8,
            Refusal::StepsMade => 10,
            Refusal::Digit => 11,
            Refusal::Count => 12,
            Refusal::Number => 13,
            Refusal::Order => 14,
            Refusal::ScaledSteps => 15,
            Refusal::Idle => 20,
            Refusal::AllStepsMade => 21,
            Refusal::NoBudget => 22,
            Refusal::NoRoom => 23,
            Refusal::BadState => 24,
        }
    }

    /// The row given with it, 0 with every reason but one.
    pub fn row(self) -> u64 {
        match self {
            Refusal::HeavyRow(row) => row as u64,
            _ => 0,
        }
    }
}
