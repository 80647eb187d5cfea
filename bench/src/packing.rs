//! Writing and reading packed cases: the library on the cases of each family,
//! taken in turn.

use crate::families::Family;
use crate::measure::median;
use crate::table::words;
use crate::{hex, packed};
use evidence::archive;
use evidence::case::Case;
use std::hint::black_box;
use std::time::Instant;

/// Rounds in which each has its turn, and calls in a turn.
const ROUNDS: usize = 9;
const CALLS: usize = 500;

/// Seconds of one call, over a turn.
fn turn(mut call: impl FnMut()) -> f64 {
    let begin = Instant::now();
    for _ in 0..CALLS {
        call();
    }
    begin.elapsed().as_secs_f64() / CALLS as f64
}

/// Seconds that reading and writing a case take.
fn measure(case: &Case) -> [f64; 2] {
    let (n, horizon, form) = (case.n, case.horizon, case.forms()[0]);
    let bytes = packed(case);
    let entries = case.entries();
    let mut out = vec![0; bytes.len()];
    let written = archive::write_entries(form, n, horizon, &entries, &mut out);
    assert_eq!(written, Ok(Ok(bytes.len())), "{}", hex(case));
    assert_eq!(out, bytes, "{}", hex(case));
    let mut seconds = [Vec::new(), Vec::new()];
    for _ in 0..ROUNDS {
        seconds[0].push(turn(|| {
            black_box(archive::read(black_box(&bytes))).expect("an outcome");
        }));
        seconds[1].push(turn(|| {
            let written = archive::write_entries(form, n, horizon, &entries, &mut out);
            black_box(written).expect("an outcome").expect("no fault");
        }));
    }
    seconds.map(|all| median(&all).expect("a turn"))
}

/// The table, in Markdown.
pub fn print(families: &[Family]) {
    println!("| family | reading | writing | writing / reading |\n|---|---|---|---|");
    for family in families {
        let measured: Vec<[f64; 2]> = family.cases.iter().map(measure).collect();
        let over = |number: fn(&[f64; 2]) -> f64| {
            let numbers: Vec<f64> = measured.iter().map(number).collect();
            median(&numbers).expect("a case")
        };
        println!(
            "| {} | {} | {} | {:.2} |",
            family.name,
            words(over(|both| both[0])),
            words(over(|both| both[1])),
            over(|both| both[1] / both[0])
        );
    }
    println!();
}
