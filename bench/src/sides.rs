//! The two sides under the same calls: those of emethod.h and the two that are only measured, with slices for
//! lent memory.

use crate::plain::calls::{self, Scaled};
use crate::plain::{write_frame, Fields, Refusal};

/// An answer that carries a refusal, a row, a count, additions and a scale: 8, 8, 24, 16 and 8 bits from the
/// lowest on.
#[derive(Clone, Copy, Debug, PartialEq, Eq)]
pub struct Answer(pub u64);

impl Answer {
    pub fn refusal(self) -> usize {
        (self.0 % 256) as usize
    }

    pub fn row(self) -> usize {
        (self.0 / 256 % 256) as usize
    }

    pub fn count(self) -> usize {
        (self.0 / 65536 % (1 << 24)) as usize
    }

    pub fn additions(self) -> usize {
        (self.0 >> 40) as usize % 65536
    }

    pub fn scale(self) -> usize {
        (self.0 >> 56) as usize
    }
}

impl From<Result<Scaled, Refusal>> for Answer {
    fn from(result: Result<Scaled, Refusal>) -> Answer {
        Answer(match result {
            Ok(Scaled {
                count,
                additions,
                scale,
            }) => 65536 * count as u64 + ((additions as u64) << 40) + ((scale as u64) << 56),
            Err(refusal) => refusal.number() + 256 * refusal.row(),
        })
    }
}

/// Of calls that give no additions and no scale.
impl From<Result<usize, Refusal>> for Answer {
    fn from(result: Result<usize, Refusal>) -> Answer {
        result
            .map(|count| Scaled {
                count,
                additions: 0,
                scale: 0,
            })
            .into()
    }
}

/// The calls of emethod.h, and the two of the crate bench_c: a load of which one number is given, an entry of
/// G or past column 15 a residual; and a trace read once, written back and then so many times more, of which
/// the bytes are given, 0 when refused.
pub trait Side {
    const NAME: &'static str;

    fn check_frame(frame: &[u8]) -> Answer;
    fn evaluate(frame: &[u8], budget: u64, readings: &mut [i64]) -> Answer;
    fn write_frame(fields: &Fields, numbers: &[i64], out: &mut [u8]) -> Answer;
    fn running_sums(frame: &[u8], budget: u64, words: &mut [i64]) -> Answer;
    fn write_trace(frame: &[u8], budget: u64, out: &mut [u8]) -> Answer;
    fn read_trace(trace: &[u8], words: &mut [i64]) -> Answer;
    fn probe_load(frame: &[u8], row: usize, column: usize) -> i64;
    fn rewrite_trace(trace: &[u8], more: u64, out: &mut [u8]) -> usize;
}

/// The plain implementation. No call is inlined into a measuring loop, as none of the library's is.
pub struct Plain;

impl Side for Plain {
    const NAME: &'static str = "plain";

    #[inline(never)]
    fn check_frame(frame: &[u8]) -> Answer {
        calls::check_frame(frame).into()
    }

    #[inline(never)]
    fn evaluate(frame: &[u8], budget: u64, readings: &mut [i64]) -> Answer {
        calls::evaluate(frame, budget, readings).into()
    }

    #[inline(never)]
    fn write_frame(fields: &Fields, numbers: &[i64], out: &mut [u8]) -> Answer {
        write_frame(fields, numbers, out).into()
    }

    #[inline(never)]
    fn running_sums(frame: &[u8], budget: u64, words: &mut [i64]) -> Answer {
        calls::running_sums(frame, budget, words).into()
    }

    #[inline(never)]
    fn write_trace(frame: &[u8], budget: u64, out: &mut [u8]) -> Answer {
        calls::trace_frame(frame, budget, out).into()
    }

    #[inline(never)]
    fn read_trace(trace: &[u8], words: &mut [i64]) -> Answer {
        calls::trace_words(trace, words).into()
    }

    #[inline(never)]
    fn probe_load(frame: &[u8], row: usize, column: usize) -> i64 {
        calls::probe_load(frame, row, column)
    }

    #[inline(never)]
    fn rewrite_trace(trace: &[u8], more: u64, out: &mut [u8]) -> usize {
        calls::rewrite_trace(trace, more, out).unwrap_or(0)
    }
}

/// The proved library.
pub struct Library;

/// The library as it was at another commit, where the build was told of its archives.
#[cfg(before)]
pub struct Before;

/// A side by functions of archives: what stands before their names, and what the side is called.
#[cfg(not(feature = "plain-only"))]
macro_rules! linked {
    ($side:ident, $prefix:literal, $name:literal) => {
        const _: () = {
            extern "C" {
                #[link_name = concat!($prefix, "em_check_frame")]
                fn em_check_frame(frame: *const u8, length: usize) -> u64;
                #[link_name = concat!($prefix, "em_evaluate")]
                fn em_evaluate(
                    frame: *const u8,
                    length: usize,
                    budget: u64,
                    readings: *mut i64,
                    room: usize,
                ) -> u64;
                #[link_name = concat!($prefix, "em_write_frame")]
                fn em_write_frame(
                    kind: usize,
                    code: usize,
                    p: usize,
                    f: usize,
                    n: usize,
                    m: usize,
                    numbers: *const i64,
                    length: usize,
                    out: *mut u8,
                    room: usize,
                ) -> u64;
                #[link_name = concat!($prefix, "em_running_sums")]
                fn em_running_sums(
                    frame: *const u8,
                    length: usize,
                    budget: u64,
                    words: *mut i64,
                    room: usize,
                ) -> u64;
                #[link_name = concat!($prefix, "em_write_trace")]
                fn em_write_trace(
                    frame: *const u8,
                    length: usize,
                    budget: u64,
                    out: *mut u8,
                    room: usize,
                ) -> u64;
                #[link_name = concat!($prefix, "em_read_trace")]
                fn em_read_trace(
                    trace: *const u8,
                    length: usize,
                    words: *mut i64,
                    room: usize,
                ) -> u64;
                #[link_name = concat!($prefix, "bench_probe_load")]
                fn bench_probe_load(
                    frame: *const u8,
                    length: usize,
                    row: usize,
                    column: usize,
                ) -> i64;
                #[link_name = concat!($prefix, "bench_rewrite_trace")]
                fn bench_rewrite_trace(
                    trace: *const u8,
                    length: usize,
                    more: u64,
                    out: *mut u8,
                    room: usize,
                ) -> usize;
            }

            // Each call hands on the address and the length of a slice, so the memory is there.
            impl Side for $side {
                const NAME: &'static str = $name;

                fn check_frame(frame: &[u8]) -> Answer {
                    Answer(unsafe { em_check_frame(frame.as_ptr(), frame.len()) })
                }

                fn evaluate(frame: &[u8], budget: u64, readings: &mut [i64]) -> Answer {
                    Answer(unsafe {
                        em_evaluate(
                            frame.as_ptr(),
                            frame.len(),
                            budget,
                            readings.as_mut_ptr(),
                            readings.len(),
                        )
                    })
                }

                fn write_frame(fields: &Fields, numbers: &[i64], out: &mut [u8]) -> Answer {
                    Answer(unsafe {
                        em_write_frame(
                            fields.kind,
                            fields.code,
                            fields.p,
                            fields.f,
                            fields.n,
                            fields.m,
                            numbers.as_ptr(),
                            numbers.len(),
                            out.as_mut_ptr(),
                            out.len(),
                        )
                    })
                }

                fn running_sums(frame: &[u8], budget: u64, words: &mut [i64]) -> Answer {
                    Answer(unsafe {
                        em_running_sums(
                            frame.as_ptr(),
                            frame.len(),
                            budget,
                            words.as_mut_ptr(),
                            words.len(),
                        )
                    })
                }

                fn write_trace(frame: &[u8], budget: u64, out: &mut [u8]) -> Answer {
                    Answer(unsafe {
                        em_write_trace(
                            frame.as_ptr(),
                            frame.len(),
                            budget,
                            out.as_mut_ptr(),
                            out.len(),
                        )
                    })
                }

                fn read_trace(trace: &[u8], words: &mut [i64]) -> Answer {
                    Answer(unsafe {
                        em_read_trace(trace.as_ptr(), trace.len(), words.as_mut_ptr(), words.len())
                    })
                }

                fn probe_load(frame: &[u8], row: usize, column: usize) -> i64 {
                    unsafe { bench_probe_load(frame.as_ptr(), frame.len(), row, column) }
                }

                fn rewrite_trace(trace: &[u8], more: u64, out: &mut [u8]) -> usize {
                    unsafe {
                        bench_rewrite_trace(
                            trace.as_ptr(),
                            trace.len(),
                            more,
                            out.as_mut_ptr(),
                            out.len(),
                        )
                    }
                }
            }
        };
    };
}

#[cfg(not(feature = "plain-only"))]
linked!(Library, "", "library");
#[cfg(before)]
linked!(Before, "before_", "before");

/// Without the archives the plain implementation stands in for the library. Its ratios then show what the
/// clock alone makes of two equal sides.
#[cfg(feature = "plain-only")]
impl Side for Library {
    const NAME: &'static str = "plain again";

    fn check_frame(frame: &[u8]) -> Answer {
        Plain::check_frame(frame)
    }

    fn evaluate(frame: &[u8], budget: u64, readings: &mut [i64]) -> Answer {
        Plain::evaluate(frame, budget, readings)
    }

    fn write_frame(fields: &Fields, numbers: &[i64], out: &mut [u8]) -> Answer {
        Plain::write_frame(fields, numbers, out)
    }

    fn running_sums(frame: &[u8], budget: u64, words: &mut [i64]) -> Answer {
        Plain::running_sums(frame, budget, words)
    }

    fn write_trace(frame: &[u8], budget: u64, out: &mut [u8]) -> Answer {
        Plain::write_trace(frame, budget, out)
    }

    fn read_trace(trace: &[u8], words: &mut [i64]) -> Answer {
        Plain::read_trace(trace, words)
    }

    fn probe_load(frame: &[u8], row: usize, column: usize) -> i64 {
        Plain::probe_load(frame, row, column)
    }

    fn rewrite_trace(trace: &[u8], more: u64, out: &mut [u8]) -> usize {
        Plain::rewrite_trace(trace, more, out)
    }
}
