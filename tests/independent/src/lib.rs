//! A plain program for graph tables (IFG) and board lists (IFR).
//!
//! It is written from documents 01 and 02 alone, with ordinary collections. The
//! comparison holds the library to it, and the benchmark measures against it.

mod compile;
mod evaluate;
mod judge;
mod list;
mod placement;
mod points;
mod ports;
mod read;
mod reuse;
mod run;

pub use compile::{Sums, code_length, compile, compile_version, operations, words};
pub use evaluate::{Meaning, evaluate};
pub use list::listing;
pub use placement::judge_placement;
pub use points::run_points;
pub use ports::{MATRIX, Ports, SCALAR, VECTOR, ports, type_words};
pub use run::{CheckedCode, check_code, run, run_checked};

/// The most operations a compiled function may have, and the most instructions a code may have.
pub const MOST_OPERATIONS: u64 = 4096;
/// The most words a list may use.
pub const MOST_WORDS: u64 = 8192;
/// The most points of one call.
pub const MOST_POINTS: u64 = 1024;
/// The bits of every NaN that a step gives.
pub const NAN: u64 = 0x7FF8_0000_0000_0000;

/// A refusal: its number, 1 to 22, 29, 31 or 33, and its place.
#[derive(Clone, Copy, Debug, PartialEq, Eq)]
pub struct Refusal {
    pub number: u32,
    pub place: usize,
}

/// Refuses with a number at a place.
fn refuse<T>(number: u32, place: usize) -> Result<T, Refusal> {
    Err(Refusal { number, place })
}

/// The verdict on a table: its function count, or the first fault.
pub fn check(table: &[u8]) -> Result<usize, Refusal> {
    let graph = read::read(table)?;
    judge::judge(&graph)?;
    Ok(graph.functions.len())
}
