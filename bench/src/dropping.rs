//! What it saves to drop a set that was met before at the same row, on the
//! table of zeros.

use crate::families::zeros;
use crate::rows::{self, Cost};
use crate::table::words;
use evidence::archive::Answer;
use evidence::case::Case;
use evidence::text::capacity;
use std::time::Instant;

/// Selections of a zone, none of them empty: 7 columns in each of 7 rows.
const SELECTIONS: u64 = 823_543;

/// Zones of each list from list 1 on: which departures are last.
const ZONES: u64 = 127;

/// Runs plain Rust once, with so many sets remembered, and prints what it took.
fn timed(name: &str, case: &Case, remembered: usize) -> (Answer, Cost) {
    let begin = Instant::now();
    let found = rows::remembering(case, capacity(case.n), remembered);
    let took = words(begin.elapsed().as_secs_f64());
    let selections = found.1.selections;
    println!("| {name} | {} | {selections} | {took} |", case.horizon);
    found
}

/// Prints times with and without dropping. Cycle 2 is the first that begins
/// with 127 zones; the cycles after it are like it.
pub fn print() {
    println!("\n| zeros of 7, plain Rust | N | selections built | time |");
    println!("|---|---|---|---|");
    let case = zeros(2);
    let (with, _) = timed("equal sets dropped", &case, rows::remembered(case.n));
    let (without, cost) = timed("nothing dropped", &case, 0);
    assert_eq!(with, without, "two answers on the table of zeros");
    assert_eq!(cost.selections, (1 + ZONES) * SELECTIONS);
}
