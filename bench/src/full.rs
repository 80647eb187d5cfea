//! How often the table of zones runs full: plain Rust on cases of each random kind,
//! none of which is drawn again.

use crate::kinds::Kind;
use crate::rows;
use evidence::archive::Verdict;
use evidence::case::Case;
use evidence::text::capacity;
use std::time::{Duration, Instant};

/// Cases of a kind, and how long it may take to begin with the last of them.
const CASES: usize = 100;
const LIMIT: Duration = Duration::from_secs(20);

/// Zones that a large table has.
const MANY: usize = 4_096;

fn is_full(case: &Case, zones: usize) -> bool {
    let verdict = rows::verdict(case, zones).0.verdict;
    matches!(verdict, Verdict::Refused(_))
}

/// How many of a kind's cases run full with so many zones.
fn share(kind: &Kind, zones: fn(&Case) -> usize) -> String {
    let begin = Instant::now();
    let cases = kind.cases().take(CASES);
    let cases = cases.take_while(|_| begin.elapsed() < LIMIT);
    let full: Vec<bool> = cases.map(|case| is_full(&case, zones(&case))).collect();
    let count = full.iter().filter(|full| **full).count();
    format!("{count} of {}", full.len())
}

/// Prints a line for each kind as soon as it is known.
pub fn print(kinds: &[Kind]) {
    println!("| kind | full with 128 zones, or 32 for 15 departures | with 4,096 |");
    println!("|---|---|---|");
    for kind in kinds {
        let few = share(kind, |case| capacity(case.n));
        let many = share(kind, |_| MANY);
        println!("| {} | {few} | {many} |", kind.name);
    }
}
